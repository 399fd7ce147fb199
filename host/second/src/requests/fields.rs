//! The fields of a good file, each with its place: what damage can aim at.

use crate::file::tags;

#[derive(Clone, Copy, Debug, PartialEq, Eq)]
pub enum Kind {
    Length,
    Version,
    NameLength,
    Name,
    /// A count of records, and its room.
    Count(usize),
    /// A count inside a record, and its room.
    ShortCount(usize),
    Type,
    IntValue,
    BooleanValue,
    Flag,
    Time,
    Tag,
    Opcode,
    Marker,
    Unused,
    /// A number that names something.
    Reference,
}

#[derive(Clone, Copy, Debug)]
pub struct Field {
    pub kind: Kind,
    pub at: usize,
    pub width: usize,
}

pub fn fields(file: &[u8]) -> Vec<Field> {
    let mut walk = Walk { file, at: 0, fields: Vec::new() };
    walk.file();
    walk.fields
}

/// It walks over a file that the reader returns a table for, so it asks
/// nothing.
struct Walk<'w> {
    file: &'w [u8],
    at: usize,
    fields: Vec<Field>,
}

impl Walk<'_> {
    fn file(&mut self) {
        self.field(Kind::Length, 4);
        self.field(Kind::Version, 1);
        self.name();
        self.records(32, Walk::sensor);
        self.records(32, Walk::actuator);
        self.records(32, Walk::task);
        self.records(288, Walk::driver);
        self.records(256, Walk::guard);
        self.records(8, Walk::mode);
        self.records(4096, Walk::instruction);
    }

    fn records(&mut self, room: usize, record: fn(&mut Self)) {
        for _ in 0..self.field(Kind::Count(room), 2) {
            record(self);
        }
    }

    fn sensor(&mut self) {
        self.name();
        self.field(Kind::Type, 1);
        self.name();
    }

    fn actuator(&mut self) {
        self.name();
        self.typed_value();
        self.name();
    }

    fn task(&mut self) {
        self.name();
        self.name();
        for _ in 0..self.field(Kind::ShortCount(8), 1) {
            self.field(Kind::Type, 1);
        }
        for _ in 0..self.field(Kind::ShortCount(8), 1) {
            self.name();
            self.typed_value();
        }
    }

    fn driver(&mut self) {
        match self.field(Kind::Tag, 1) as u8 {
            tags::UPDATE => {
                self.field(Kind::Reference, 2);
                self.field(Kind::Reference, 2);
            }
            tags::RELEASE_INPUTS => {
                self.field(Kind::Reference, 2);
                for _ in 0..self.field(Kind::ShortCount(8), 1) {
                    self.field(Kind::Reference, 2);
                }
            }
            _ => drop(self.field(Kind::Reference, 2)),
        }
    }

    fn guard(&mut self) {
        self.name();
        for _ in 0..self.field(Kind::ShortCount(2), 1) {
            if self.field(Kind::Tag, 1) as u8 == tags::PORT {
                self.field(Kind::Reference, 2);
            } else {
                self.typed_value();
            }
        }
    }

    fn mode(&mut self) {
        self.name();
        self.field(Kind::Flag, 1);
        self.field(Kind::Time, 4);
        self.field(Kind::Reference, 4);
    }

    fn instruction(&mut self) {
        let (first, second) = match self.field(Kind::Opcode, 1) as u8 {
            tags::NOP => (Kind::Marker, Kind::Unused),
            tags::FUTURE => (Kind::Reference, Kind::Time),
            tags::IF => (Kind::Reference, Kind::Reference),
            tags::RETURN => (Kind::Unused, Kind::Unused),
            _ => (Kind::Reference, Kind::Unused),
        };
        self.field(first, 4);
        self.field(second, 4);
    }

    fn typed_value(&mut self) {
        let boolean = self.field(Kind::Type, 1) as u8 == tags::BOOLEAN;
        self.field(if boolean { Kind::BooleanValue } else { Kind::IntValue }, 4);
    }

    fn name(&mut self) {
        let length = self.field(Kind::NameLength, 1);
        self.field(Kind::Name, length);
    }

    /// Notes the field and gives its number.
    fn field(&mut self, kind: Kind, width: usize) -> usize {
        let bytes = &self.file[self.at..self.at + width];
        let number = bytes.iter().fold(0usize, |number, &byte| number << 8 | byte as usize);
        self.fields.push(Field { kind, at: self.at, width });
        self.at += width;
        number
    }
}
