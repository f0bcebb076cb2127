//! The examples of the README are those of `examples`, and print what is there.
#![cfg(feature = "alloc")]
use octseq_proved::dns::Error;

#[allow(dead_code, reason = "main isn't called")]
#[path = "../examples/ask.rs"]
mod ask;

#[allow(dead_code, reason = "main isn't called")]
#[path = "../examples/fields.rs"]
mod fields;

/// The blocks of the README that are of a language.
fn blocks(language: &str) -> Vec<&'static str> {
    let pieces = include_str!("../README.md").split(&format!("\n```{language}\n")).skip(1).collect::<Vec<_>>();
    pieces.into_iter().map(|piece| piece.split_once("```\n").unwrap().0).collect()
}

#[test]
fn the_examples_are_shown() {
    assert_eq!(blocks("rust"), [include_str!("../examples/ask.rs"), include_str!("../examples/fields.rs")]);
}

#[test]
fn the_examples_print_what_is_shown() -> Result<(), Error> {
    assert_eq!(blocks("text"), [ask::shown()?, fields::shown()?]);
    Ok(())
}
