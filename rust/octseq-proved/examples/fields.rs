//! Reads a record from its text, and shows the fields of its data; then a text that is no record's.
use octseq_proved::dns::{Entry, Error, Field, Section, record_from_text};

pub fn shown() -> Result<String, Error> {
    let octets = record_from_text("example.com. 300 IN MX 10 mail.example.com.")?;
    let record = Entry::of_record(&octets, Section::Answer)?;
    let mut text = String::new();
    for field in record.data().map_or(Ok(Vec::new()), |data| data.fields())? {
        text += &match field {
            Field::Number(number) => format!("number {number}\n"),
            Field::Name(name) => format!("name {name}\n"),
            other => format!("{other:?}\n"),
        };
    }
    if let Err(error) = record_from_text("example.com. 300 IN MX 10 mail..example.com.") {
        text += &format!("{error}\n");
    }
    Ok(text)
}

fn main() -> Result<(), Error> {
    print!("{}", shown()?);
    Ok(())
}
