//! The C header's numbers are this crate's, and README shows the example that is built here.

use lhstar::{Control, Reply};

const HEADER: &str = include_str!("../../include/lhstar.h");
const README: &str = include_str!("../../README.md");
const EXAMPLE: &str = include_str!("../examples/rides.rs");

/// A name like `BucketFull` as C has it after a first word, `LHSTAR_BUCKET_FULL`.
fn name_in_c(first_word: &str, name: &str) -> String {
    let letters = name.chars().flat_map(|letter| {
        let gap = letter.is_uppercase().then_some('_');
        gap.into_iter().chain(letter.to_uppercase())
    });
    first_word.chars().chain(letters).collect()
}

/// The names and numbers of an enum of the header.
fn enum_in_c(name: &str) -> Vec<String> {
    let start = format!("enum {name} {{");
    let lines = HEADER.lines().skip_while(|line| *line != start).skip(1).take_while(|line| *line != "};");
    let parts = lines.map(|line| line.split_once(" = ").expect("a name and its number"));
    parts.map(|(name, rest)| format!("{} {}", name.trim(), rest.split([',', ' ']).next().unwrap())).collect()
}

#[test]
fn the_header_has_the_same_replies() {
    let replies = (0..=u8::MAX).map_while(|number| Reply::try_from(number).ok());
    let here: Vec<String> =
        replies.map(|reply| format!("{} {}", name_in_c("LHSTAR", &format!("{reply:?}")), reply as u8)).collect();
    assert_eq!(enum_in_c("lhstar_reply"), here);
}

#[test]
fn the_header_has_the_same_outcomes_of_a_split() {
    let outcomes = [Control::NotDue, Control::Done, Control::NoRoom];
    let here = outcomes.map(|outcome| {
        let name = name_in_c("LHSTAR_SPLIT", &format!("{outcome:?}"));
        format!("{name} {}", outcome as u8)
    });
    assert_eq!(enum_in_c("lhstar_control"), here);
}

/// What a macro of the header stands for: a number, or a sum of numbers and of other macros.
fn number_in_c(name: &str) -> usize {
    let define = format!("#define {name} ");
    let text = HEADER.lines().find_map(|line| line.strip_prefix(&define)).expect(name);
    let sum = text.split("/*").next().expect("text before a comment").trim().trim_matches(['(', ')']);
    let parts = sum.split(" + ").map(|part| match part.trim_end_matches('u').parse() {
        Ok(number) => number,
        Err(_) => number_in_c(part),
    });
    parts.sum()
}

#[test]
fn the_header_has_the_same_sizes() {
    assert_eq!(number_in_c("LHSTAR_NO_BUCKET"), lhstar::NO_BUCKET as usize);
    assert_eq!(number_in_c("LHSTAR_THRESHOLD_MOST"), lhstar::THRESHOLD_MOST as usize);
    assert_eq!(number_in_c("LHSTAR_ANSWER_BYTES"), lhstar::ANSWER_BYTES);
    assert_eq!(number_in_c("LHSTAR_PAYLOAD_BYTES"), lhstar::PAYLOAD_BYTES);
    assert_eq!(number_in_c("LHSTAR_CLIENT_BYTES"), lhstar::CLIENT_BYTES);
    assert_eq!(number_in_c("LHSTAR_HEADER_BYTES"), lhstar::HEADER_BYTES);
    assert_eq!(number_in_c("LHSTAR_HEAD_BYTES"), lhstar::HEAD_BYTES);
    assert_eq!(number_in_c("LHSTAR_SLOT_BYTES"), lhstar::SLOT_BYTES);
    assert_eq!(number_in_c("LHSTAR_ROUTE_MOST"), lhstar::ROUTE_MOST);
}

#[test]
fn readme_shows_the_example() {
    let indented: String = EXAMPLE.lines().map(|line| format!("    {line}").trim_end().to_string() + "\n").collect();
    assert!(README.contains(&indented), "README's \"Call it from Rust\" is not examples/rides.rs");
}
