//! Malformed requests, by the rules at the top of the protocol.

mod common;

use common::{ask, compiled, talk, to_hex};
use second::protocol::Session;

fn is_error(line: &str) {
    talk(&[(line, "error")]);
}

#[test]
fn words() {
    for line in [
        "",
        " ",
        "next ",
        " next",
        "next  ",
        "Next",
        "nexts",
        "next x",
        "look x",
        "next\r",
        "tick",
        "tick 1",
        "tick 1 - -",
        "tick  1 -",
        "tick 1  -",
        "compile -",
        "compile",
        "compile - 1 1",
        "read",
        "read - -",
        "start - 0",
        "start - 0 - -",
        "finish 0",
        "finish 0 - -",
        "quit",
        "\0",
        "start",
        "finish",
        "compile - ",
        "read ",
    ] {
        is_error(line);
    }
}

#[test]
fn byte_strings() {
    for line in ["read 0", "read 0g", "read AB", "read 0x00", "read --", "read 00-", "compile 0 1"]
    {
        is_error(line);
    }
    talk(&[("read 00", "refused 20"), ("read -", "refused 20")]);
    talk(&[(&format!("read {}", "00".repeat(100_000)), "refused 20")]);
    is_error(&format!("read {}", "00".repeat(100_001)));
    talk(&[(&format!("compile {} 0", "20".repeat(16_384)), "refused 3 16384")]);
    talk(&[(&format!("compile {} 0", "20".repeat(100_000)), "refused 1 0")]);
}

#[test]
fn numbers() {
    for number in ["-1", "+1", "4294967296", "99999999999999999999", "", "1x", "0x1", "-", "1.0"] {
        is_error(&format!("compile - {number}"));
        is_error(&format!("tick {number} -"));
        is_error(&format!("finish {number} -"));
    }
    for number in ["0", "4294967295", "0000000000000000000000007"] {
        talk(&[
            (&format!("compile - {number}"), "refused 3 0"),
            (&format!("tick {number} -"), "none"),
        ]);
    }
}

#[test]
fn values() {
    for values in [
        "", "i", "i-", "i+1", "b2", "b", "b00", "1", "i1,", ",i1", "i1,,i1", "-,i1", "i1 ", "i--1",
        "x", "i1,-", "f0", "I1", "B0", "i 1",
    ] {
        is_error(&format!("tick 0 {values}"));
        is_error(&format!("finish 0 {values}"));
    }
    for values in
        ["-", "i0", "i-0", "b0,b1", "i99999999999999999999999", "i-99999999999999999999999", "i007"]
    {
        talk(&[(&format!("tick 0 {values}"), "none")]);
    }
    let many = ["i1"; 60_000].join(",");
    talk(&[(&format!("tick 0 {many}"), "none"), (&format!("tick 0 {many},"), "error")]);
}

/// Values of wrong type are no errors, nor lists longer than any there is.
#[test]
fn wide_values() {
    let text = "module M { sensor int s uses g; start mode m [period=1us] { } }";
    let file = to_hex(&compiled(text));
    let mut session = Session::new();
    let start = |values: &str| format!("start {file} 0 {values}");
    for (values, answer) in [
        ("i2147483647", "ok 2"),
        ("i-2147483648", "ok 2"),
        ("i0000000000000000000000000005", "ok 2"),
        ("i2147483648", "refused 32"),
        ("i-2147483649", "refused 32"),
        ("i4294967297", "refused 32"),
        ("i18446744073709551617", "refused 32"),
        ("b1", "refused 32"),
        (&["i1"; 40_000].join(","), "refused 32"),
    ] {
        assert_eq!(ask(&mut session, &start(values)), answer);
    }
}

/// An error changes nothing: the machine is still there.
#[test]
fn errors_do_nothing() {
    let file = to_hex(&compiled("module M { start mode m [period=9us] { } }"));
    talk(&[
        (&format!("start {file} 0 -"), "ok 2"),
        (&format!("start {file} 0"), "error"),
        (&format!("start {file} x -"), "error"),
        (&format!("start {file}0 0 -"), "error"),
        ("tick 3 -", "ok 0"),
        ("look", "mode=0 count=3 remain=6 stopped=0 out=0 waiting=0 ports=-"),
        ("start - 0 x", "error"),
        ("look", "mode=0 count=3 remain=6 stopped=0 out=0 waiting=0 ports=-"),
    ]);
}

#[test]
fn longest_line() {
    let line = |length: usize| format!("tick 0 {}", "i1,".repeat(length)) + "i1";
    let fits = line((262_143 - 9) / 3);
    assert_eq!(fits.len(), 262_143);
    talk(&[(&fits, "none"), (&format!("{fits}0"), "error")]);
}
