//! The reader's numbers and their order (readings A59 to A72).

mod common;

use common::{compiled, from_hex};
use second::file::reader;
use second::table::Table;

fn read(file: &[u8]) -> Result<(), u8> {
    let mut table = Table::default();
    let answer = reader::read(file, &mut table);
    if answer.is_err() {
        assert_eq!(table, Table::default(), "a refusal returns no table");
    }
    answer
}

/// The bytes with their length in front.
fn framed(body: &[u8]) -> Vec<u8> {
    [&(body.len() as u32).to_be_bytes()[..], body].concat()
}

fn read_body(digits: &str) -> Result<(), u8> {
    read(&framed(&from_hex(digits)))
}

fn smallest() -> Vec<u8> {
    compiled("module M { start mode m [period = 5ms] { } }")
}

fn changed(at: usize, bytes: &[u8]) -> Result<(), u8> {
    let mut file = smallest();
    file[at..at + bytes.len()].copy_from_slice(bytes);
    read(&file)
}

#[test]
fn frame() {
    assert_eq!(read(&smallest()), Ok(()));
    assert_eq!(read(&[]), Err(20));
    assert_eq!(read(&[0, 0, 0, 0]), Err(20));
    assert_eq!(read(&[0, 0, 0, 1, 1]), Err(22));
    assert_eq!(read(&[0, 0, 0, 1, 2]), Err(21));
    assert_eq!(read(&[0, 0, 0, 2, 2]), Err(20));
    assert_eq!(changed(3, &[0x4A]), Err(20));
    assert_eq!(changed(0, &[0x80]), Err(20));
    assert_eq!(changed(4, &[0]), Err(21));
}

#[test]
fn every_cut_is_22() {
    let body = &smallest()[4..];
    for length in 1..body.len() {
        assert_eq!(read(&framed(&body[..length])), Err(22), "{length}");
    }
    assert_eq!(read(&framed(&[body, &[0]].concat())), Err(22));
}

/// A60 to A62: a name's length, its form, keywords, guards.
#[test]
fn names() {
    assert_eq!(changed(5, &[0]), Err(23));
    assert_eq!(changed(5, &[0x21]), Err(23));
    assert_eq!(read_body("01 21"), Err(23));
    assert_eq!(read_body("01 20"), Err(22));
    assert_eq!(changed(6, b"1"), Err(23));
    assert_eq!(changed(6, b"_"), Ok(()));
    assert_eq!(read_body("01 026173"), Err(23)); // `as`
    assert_eq!(read_body("01 026174"), Err(22)); // `at`, and then nothing
    let guard = |name: &str| {
        let digits = common::to_hex(&[&[name.len() as u8], name.as_bytes()].concat());
        let mode = "0001 016d01 00000001 00000000 0001 06 ffffffff ffffffff";
        read_body(&format!("01 014d 0000 0000 0000 0000 0001 {digits} 01 01 01 00000001 {mode}"))
    };
    assert_eq!(guard("isTrue"), Ok(()));
    assert_eq!(guard("istrue"), Err(24));
    assert_eq!(guard("less"), Err(24));
    assert_eq!(guard("is true"), Err(23));
    assert_eq!(guard("true"), Err(23));
}

/// A65: every field is judged when its own bytes are there.
#[test]
fn fields_in_file_order() {
    let sensor = "01 014d 0001 0173";
    assert_eq!(read_body(&format!("{sensor} 02")), Err(23));
    assert_eq!(read_body(&format!("{sensor} 01")), Err(22));
    let actuator = "01 014d 0000 0001 0161";
    assert_eq!(read_body(&format!("{actuator} 01 00000002")), Err(23));
    assert_eq!(read_body(&format!("{actuator} 01 000002")), Err(22));
    assert_eq!(read_body(&format!("{actuator} 00 00000002")), Err(22));
    let code = "01 014d 0000 0000 0000 0000 0000 0001 016d 01 00001388 00000000 0002";
    assert_eq!(read_body(&format!("{code} 08")), Err(23));
    assert_eq!(read_body(&format!("{code} 00 00000003")), Err(23));
    assert_eq!(read_body(&format!("{code} 00 000003")), Err(22));
    assert_eq!(read_body(&format!("{code} 00 00000002 fffffffe")), Err(23));
    assert_eq!(read_body(&format!("{code} 01 00000009 00000000")), Err(23));
    assert_eq!(read_body(&format!("{code} 01 00000009 80000000")), Err(23));
    assert_eq!(read_body(&format!("{code} 01 00000009 7fffffff")), Err(22));
    assert_eq!(read_body(&format!("{code} 06 00000000")), Err(23));
}

/// A63, A64: counts over the room, inside records and in all.
#[test]
fn counts() {
    let drivers = "01 014d 0000 0000 0001 0174 0166 00 00 0001";
    assert_eq!(read_body(&format!("{drivers} 06")), Err(23));
    assert_eq!(read_body(&format!("{drivers} 04 0000 09")), Err(22));
    let rest = "0000 0001 016d01 00000001 00000000 0001 06 ffffffff ffffffff";
    assert_eq!(read_body(&format!("{drivers} 04 0000 01 0000 {rest}")), Err(24));
    assert_eq!(read_body(&format!("{drivers} 04 0000 00 {rest}")), Ok(()));
    assert_eq!(read_body("01 014d 0021"), Err(22));
    let task = format!("0174 0166 08 {} 00", "00".repeat(8));
    let full = format!("01 014d 0000 0000 0011 {}", task.repeat(16));
    assert_eq!(read_body(&format!("{full} 0174 0166 01 07")), Err(22));
    assert_eq!(read_body(&format!("{full} 0174 0166 00 09")), Err(22));
    assert_eq!(read_body(&format!("{full} 0174 0166 00 01 0161 07")), Err(23));
    for (guards, answer) in [("0100", 22), ("0101", 22)] {
        assert_eq!(read_body(&format!("01 014d 0000 0000 0000 0000 {guards}")), Err(answer));
    }
    assert_eq!(read_body("01 014d 0000 0000 0000 0000 0001 0161 03"), Err(22));
}

/// A68: a pc names an instruction.
#[test]
fn places_in_the_code() {
    assert_eq!(changed(69, &[0, 0, 0, 4]), Ok(()));
    assert_eq!(changed(69, &[0, 0, 0, 5]), Err(24));
    assert_eq!(changed(69, &[0xFF; 4]), Err(24));
}

/// A71: all 22 and 23 come before any 24.
#[test]
fn references_come_last() {
    let mut file = smallest();
    file[69..73].copy_from_slice(&[0, 0, 0, 5]);
    file.push(0);
    file[3] += 1;
    assert_eq!(read(&file), Err(22));
    let no_start = changed(21, &[0]);
    assert_eq!(no_start, Err(24));
    assert_eq!(changed(21, &[2]), Err(23));
}

/// A69: sources are sensors or outputs, targets actuators, and types agree.
#[test]
fn kinds_of_ports() {
    // Sensor 0 int, actuator 1 int, task inputs 2 int, outputs 3 int and 4 boolean.
    let tables = "01 014d 0001 0173 00 0167 0001 0161 00 00000000 0167
        0001 0174 0166 01 00 02 016f 00 00000000 0170 01 00000000";
    let mode = "0001 016d01 00000001 00000000 0001 06 ffffffff ffffffff";
    let driver = |driver: &str| read_body(&format!("{tables} 0001 {driver} 0000 {mode}"));
    assert_eq!(driver("03 0000 0001"), Ok(()));
    assert_eq!(driver("03 0003 0001"), Ok(()));
    assert_eq!(driver("03 0004 0001"), Err(24));
    assert_eq!(driver("03 0002 0001"), Err(24));
    assert_eq!(driver("03 0001 0001"), Err(24));
    assert_eq!(driver("03 0000 0003"), Err(24));
    assert_eq!(driver("03 0005 0001"), Err(24));
    assert_eq!(driver("03 0000 0005"), Err(24));
    assert_eq!(driver("04 0000 01 0003"), Ok(()));
    assert_eq!(driver("04 0000 01 0004"), Err(24));
    assert_eq!(driver("04 0000 01 0001"), Err(24));
    assert_eq!(driver("04 0001 01 0000"), Err(24));
    assert_eq!(driver("05 0000"), Ok(()));
    assert_eq!(driver("05 0001"), Err(24));
    let guard = |guard: &str| read_body(&format!("{tables} 0000 0001 {guard} {mode}"));
    let equal = "05657175616c 02";
    assert_eq!(guard(&format!("{equal} 00 0004 00 0004")), Ok(()));
    assert_eq!(guard(&format!("{equal} 00 0004 00 0003")), Err(24));
    assert_eq!(guard(&format!("{equal} 00 0002 00 0003")), Err(24));
    assert_eq!(guard(&format!("{equal} 00 0004 01 01 00000001")), Ok(()));
    assert_eq!(guard(&format!("{equal} 00 0004 01 01 00000002")), Err(23));
    assert_eq!(guard(&format!("{equal} 00 0004 01 00 00000001")), Err(24));
    assert_eq!(guard("046c657373 02 00 0004 00 0004"), Err(24));
}
