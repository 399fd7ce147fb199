//! Files for read and start requests: good ones, and ones damaged in each of
//! their fields.

use super::fields::{fields, Field, Kind};
use super::hostile::hostile_file;
use super::random::Random;
use super::shape::Shape;
use super::texts::{good_text, text_of};
use crate::compiler::Compiler;

/// What it takes to make files, kept from one to the next.
pub struct Files {
    compiler: Compiler,
    output: Vec<u8>,
}

impl Default for Files {
    fn default() -> Files {
        Files { compiler: Compiler::new(), output: vec![0; 100_000] }
    }
}

impl Files {
    pub fn any(&mut self, random: &mut Random) -> Vec<u8> {
        match random.below(20) {
            0..=3 => self.good(random),
            4 => hostile_file(random),
            5..=14 => self.damaged(random),
            15..=16 => self.resized(random),
            17 => self.crowded(random),
            18 => self.with_odd_bytes(random),
            _ => odd_file(random),
        }
    }

    /// The file of a good module.
    pub fn good(&mut self, random: &mut Random) -> Vec<u8> {
        self.compiled(random, good_text)
    }

    /// One with enough to do for a machine to run.
    pub fn lively(&mut self, random: &mut Random) -> Vec<u8> {
        self.compiled(random, |random| text_of(&Shape::lively(random), random))
    }

    /// A text whose code is too long is tried again.
    fn compiled(&mut self, random: &mut Random, text: fn(&mut Random) -> Vec<u8>) -> Vec<u8> {
        loop {
            let text = text(random);
            if let Ok(length) = self.compiler.compile(&text, &mut self.output) {
                return self.output[..length].to_vec();
            }
        }
    }

    /// A field or two changed to a value near an edge.
    pub fn damaged(&mut self, random: &mut Random) -> Vec<u8> {
        let mut file = if random.percent(80) { self.good(random) } else { hostile_file(random) };
        let fields = fields(&file);
        let times = if random.percent(80) { 1 } else { 2 };
        for _ in 0..times {
            let field = pick_field(&fields, random);
            change(&mut file, field, random);
        }
        file
    }

    /// Bytes cut off, added or taken out, mostly with the length set right.
    fn resized(&mut self, random: &mut Random) -> Vec<u8> {
        let mut file = self.good(random);
        let place = random.below(file.len() + 1);
        match random.below(4) {
            0 => file.truncate(place),
            1 => file.extend((0..random.between(1, 3)).map(|_| random.byte())),
            2 => file.insert(place, random.byte()),
            _ => drop(file.drain(place..(place + random.between(1, 9)).min(file.len()))),
        }
        if random.percent(85) {
            set_length(&mut file);
        }
        file
    }

    /// Records doubled until a count passes its room, or all but.
    fn crowded(&mut self, random: &mut Random) -> Vec<u8> {
        let tasks = random.between(15, 18);
        let (inputs, outputs) = random.pick(&[(8, 0), (0, 8), (8, 8), (7, 1)]);
        let mut body = b"\x01\x01M\0\0\0\0\0".to_vec();
        body.push(tasks as u8);
        for _ in 0..tasks {
            body.extend_from_slice(b"\x01t\x01f");
            body.push(inputs);
            for _ in 0..inputs {
                body.push(if random.percent(2) { 7 } else { 0 });
            }
            body.push(outputs);
            for _ in 0..outputs {
                body.extend_from_slice(b"\x01o\x01\0\0\0");
                body.push(if random.percent(2) { 7 } else { 1 });
            }
        }
        body.extend_from_slice(b"\0\0\0\0\0\x01\x01m\x01\0\0\0\x09\0\0\0\0\0\x01\x06");
        body.extend_from_slice(&[0xFF; 8]);
        framed(&body)
    }

    fn with_odd_bytes(&mut self, random: &mut Random) -> Vec<u8> {
        let mut file = self.good(random);
        for _ in 0..random.between(1, 4) {
            let place = random.between(5, file.len() - 1);
            file[place] = random.byte();
        }
        file
    }
}

fn framed(body: &[u8]) -> Vec<u8> {
    [&(body.len() as u32).to_be_bytes()[..], body].concat()
}

/// By kinds first: code would drown all other fields. References come up more
/// often, since most other damage is 23 and hardly any 24.
fn pick_field(fields: &[Field], random: &mut Random) -> Field {
    let mut kinds: Vec<Kind> = Vec::new();
    for field in fields {
        if !kinds.contains(&field.kind) {
            kinds.push(field.kind);
        }
    }
    let kind = if random.percent(40) { Kind::Reference } else { random.pick(&kinds) };
    let of_a_kind: Vec<Field> = fields.iter().copied().filter(|field| field.kind == kind).collect();
    random.pick(&of_a_kind)
}

fn change(file: &mut [u8], field: Field, random: &mut Random) {
    let place = field.at..field.at + field.width;
    let old = file[place.clone()].iter().fold(0u32, |number, &byte| number << 8 | byte as u32);
    match edge(field.kind, old, random) {
        Some(new) => file[place].copy_from_slice(&new.to_be_bytes()[4 - field.width..]),
        None => change_name(&mut file[place], random),
    }
}

/// A number near an edge; none for a name, which isn't one.
fn edge(kind: Kind, old: u32, random: &mut Random) -> Option<u32> {
    let (less, more) = (old.wrapping_sub(1), old.wrapping_add(1));
    let edges: &[u32] = match kind {
        Kind::Name => return None,
        Kind::Length => &[less, more, 0, u32::MAX],
        Kind::Version => &[0, 2, 255],
        Kind::NameLength => &[0, 33, 255, less, more, 32],
        Kind::Count(room) => &[less, more, room as u32, room as u32 + 1, 0xFFFF],
        Kind::ShortCount(room) => &[less, more, room as u32, room as u32 + 1, 255],
        Kind::Type => &[old ^ 1, old ^ 1, 2, 255],
        Kind::IntValue => &[0, 1, 0x8000_0000, u32::MAX],
        Kind::BooleanValue => &[old ^ 1, 2, 0x100, u32::MAX],
        Kind::Flag => &[old ^ 1, old ^ 1, 2, 255],
        Kind::Time => &[0, 1, 0x7FFF_FFFF, 0x8000_0000, u32::MAX],
        Kind::Tag => &[0, 1, 2, 3, 4, 5, 6],
        Kind::Opcode => &[0, 1, 2, 3, 4, 5, 6, 7, 8, 255],
        Kind::Marker => &[0, 1, 2, 3, u32::MAX],
        Kind::Unused => &[0, 0xFFFF_FFFE, 0x7FFF_FFFF],
        Kind::Reference => &[less, more, 0, 1, 2, 3, 5, 8, 0xFFFF, u32::MAX],
    };
    Some(random.pick(edges))
}

/// Another name of the same length, a keyword, or no name at all.
fn change_name(name: &mut [u8], random: &mut Random) {
    const KEYWORDS: [&[u8]; 22] = [
        b"actuator",
        b"as",
        b"asynchronous",
        b"const",
        b"false",
        b"if",
        b"import",
        b"init",
        b"input",
        b"mode",
        b"module",
        b"output",
        b"public",
        b"sensor",
        b"start",
        b"state",
        b"struct",
        b"task",
        b"then",
        b"true",
        b"type",
        b"uses",
    ];
    let fitting: Vec<&[u8]> =
        KEYWORDS.iter().copied().filter(|keyword| keyword.len() == name.len()).collect();
    match random.below(3) {
        0 if !fitting.is_empty() => name.copy_from_slice(random.pick(&fitting)),
        1 => {
            let place = random.below(name.len());
            name[place] = random.pick(b"x_9 $-.\0\x80");
        }
        _ => name[0] = random.pick(b"x_9E\xE4["),
    }
}

fn set_length(file: &mut [u8]) {
    if let Some(rest) = file.len().checked_sub(4) {
        file[..4].copy_from_slice(&(rest as u32).to_be_bytes());
    }
}

/// A few bytes of anything, some of them with a right length and version.
fn odd_file(random: &mut Random) -> Vec<u8> {
    let mut file: Vec<u8> = (0..random.below(30)).map(|_| random.byte()).collect();
    if random.percent(60) {
        set_length(&mut file);
    }
    if file.len() > 4 && random.percent(60) {
        file[4] = 1;
    }
    file
}
