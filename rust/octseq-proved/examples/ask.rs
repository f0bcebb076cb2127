//! Asks for an address, answers that, and shows the answer.
use octseq_proved::dns::{Class, Error, Message, Row, Rtype, Section, flags, query};
use octseq_proved::utf8::lossy;

pub fn shown() -> Result<String, Error> {
    let query = query(7, flags::RD, "example.com.", Rtype::A, Class::IN)?;
    let address = Row {
        name_at: 0,
        data_at: 13,
        data_len: 4,
        ttl: 300,
        rtype: Rtype::A,
        rclass: Class::IN,
        section: Section::Answer.into(),
    };
    let answer = Message::new(&query)?.answer(flags::RA, b"\x07example\x03com\0\xC0\0\x02\x01", &[address])?;
    Ok(format!("{}{}, {} octets\n", Message::new(&answer)?, lossy(b"the answer\xFF"), answer.len()))
}

fn main() -> Result<(), Error> {
    print!("{}", shown()?);
    Ok(())
}
