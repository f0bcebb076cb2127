//! The AS paths of lines, and those of the crate in the same words.
use octseq_proved::bgp::{AsPath, Error, Hop, SegmentKind};

/// The path of the first line of an attribute, AS_PATH or AS4_PATH: `None` where there is no such line, and an error
/// where its value is shown in hexadecimal, as it hasn't the form of its type.
pub fn shown<'lines>(
    lines: impl IntoIterator<Item = &'lines str>,
    attribute: &str,
) -> Result<Option<Vec<&'lines str>>, Error> {
    let words = lines.into_iter().map(|line| line.split(' ').collect::<Vec<_>>());
    match words.into_iter().find(|words| words[0] == "attribute" && words[2] == attribute) {
        Some(words) if words.get(3) == Some(&"\\#") => Err(Error::Malformed),
        words => Ok(words.map(|words| words[3..].to_vec())),
    }
}

/// The words of a path: each segment's type, and its AS numbers.
pub fn words(path: &AsPath<Vec<Hop>>) -> Vec<String> {
    let mut words = Vec::new();
    for segment in path.segments() {
        words.push(match segment.kind() {
            SegmentKind::Set => "set".into(),
            SegmentKind::Sequence => "sequence".into(),
            SegmentKind::ConfedSequence => "confed-sequence".into(),
            SegmentKind::ConfedSet => "confed-set".into(),
        });
        words.extend(segment.asns().map(|asn| asn.to_string()));
    }
    words
}

/// Fails where a path isn't what is shown.
pub fn judge(path: Result<Option<AsPath<Vec<Hop>>>, Error>, shown: Result<Option<Vec<&str>>, Error>) {
    match (path, shown) {
        (Ok(Some(path)), Ok(Some(shown))) => {
            assert_eq!(words(&path), shown);
            let asns: Vec<_> = shown.iter().filter_map(|word| word.parse::<u32>().ok()).collect();
            assert_eq!(path.asns().collect::<Vec<_>>(), asns);
        }
        (Ok(None), Ok(None)) => (),
        (path, shown) => assert_eq!(path.err(), shown.err()),
    }
}
