//! Every T line of the readings: a text with a mark at the offset of the
//! refusal it must get, or one that must be accepted.

mod common;

use common::compile;

struct Case<'r> {
    wanted: &'r str,
    text: String,
    mark: Option<usize>,
}

fn case(line: &str) -> Case<'_> {
    let line = line.trim_start().strip_prefix("T ").expect("a T line");
    let (wanted, text) = line.split_once(": ").expect("what is wanted");
    let text = text.split("||").next().unwrap().trim_end();
    Case { wanted, text: text.replacen('#', "", 1), mark: text.find('#') }
}

#[test]
fn every_t_line() {
    let lines = include_str!("readings.txt");
    assert!(lines.lines().count() > 80);
    for line in lines.lines() {
        let Case { wanted, text, mark } = case(line);
        let answer = match compile(text.as_bytes()) {
            Ok(_) => ("ok".to_string(), None),
            Err(refusal) => (refusal.number.to_string(), Some(refusal.offset as usize)),
        };
        assert_eq!(answer, (wanted.to_string(), mark), "{line}");
    }
}

/// A4: the carriage return that a T line can't show.
#[test]
fn a_carriage_return_goes_on_with_a_line_comment() {
    assert_eq!(common::refused("module M {//\r}"), (3, 14));
    assert_eq!(common::refused("//\rx"), (3, 4));
}
