//! The generator: the same lines from the same seed, every number reached, and
//! no line, however broken, that brings the second program down.

use second::protocol::Session;
use second::requests::{Kind, Requests};
use std::collections::BTreeSet;

/// The numbers of refusals and faults in the answers to so many requests.
fn reached(kind: Kind, count: usize) -> BTreeSet<u32> {
    let mut requests = Requests::new(5, kind);
    let mut session = Session::new();
    let mut numbers = BTreeSet::new();
    for _ in 0..count {
        let mut answer = Vec::new();
        session.answer(&requests.line(), &mut answer);
        let answer = String::from_utf8(answer).unwrap();
        assert!(answer.ends_with('\n') && answer.matches('\n').count() == 1);
        let mut words = answer.split_whitespace();
        if matches!(words.next(), Some("refused" | "fault")) {
            numbers.insert(words.next().unwrap().parse().unwrap());
        }
    }
    numbers
}

#[test]
fn every_number_is_reached() {
    let contains = |numbers: BTreeSet<u32>, wanted: &mut dyn Iterator<Item = u32>| {
        wanted.for_each(|number| assert!(numbers.contains(&number), "{number}"));
    };
    contains(reached(Kind::Compile, 3000), &mut (1..=14));
    contains(reached(Kind::Read, 3000), &mut (20..=24));
    contains(reached(Kind::Machine, 6000), &mut (30..=35).chain(40..=43));
    contains(reached(Kind::All, 15000), &mut (1..=14).chain(20..=24).chain(30..=35).chain(40..=43));
}

#[test]
fn a_seed_gives_the_same_lines() {
    let lines = |seed| {
        let mut requests = Requests::new(seed, Kind::All);
        (0..200).map(|_| requests.line()).collect::<Vec<_>>()
    };
    assert_eq!(lines(3), lines(3));
    assert_ne!(lines(3), lines(4));
}

#[test]
fn no_line_holds_a_line_feed() {
    let mut requests = Requests::new(8, Kind::All);
    for _ in 0..3000 {
        assert!(!requests.line().contains(&b'\n'));
    }
}

/// Bytes of anything, and requests with bytes of anything in them.
#[test]
fn garbage_gets_an_answer() {
    let mut state = 1u64;
    let mut chance = move |limit: usize| {
        state = state.wrapping_mul(6364136223846793005).wrapping_add(1442695040888963407);
        (state >> 33) as usize % limit
    };
    let mut session = Session::new();
    let mut requests = Requests::new(6, Kind::All);
    let mut answer = Vec::new();
    for round in 0..20_000 {
        let mut line = if round % 2 == 0 { requests.line() } else { Vec::new() };
        for _ in 0..chance(40) {
            let place = chance(line.len() + 1);
            line.insert(place, chance(256) as u8);
        }
        answer.clear();
        session.answer(&line, &mut answer);
        assert_eq!(answer.last(), Some(&b'\n'));
    }
}
