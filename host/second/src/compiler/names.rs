//! The one name space of constants, sensors, actuators, tasks and modes. The
//! checks stop at the first name too many, so the table never fills up and
//! every probe ends at a free place.

use super::syntax::Name;
use crate::rooms;
use crate::table::Type;

#[derive(Clone, Copy, Debug)]
pub enum Meaning {
    Constant(Type, i32),
    Sensor { port: u16 },
    Actuator { port: u16 },
    Task(u16),
    Mode(u16),
}

const PLACES: usize = 512;
const FREE: u16 = u16::MAX;

pub struct Names {
    places: [u16; PLACES],
    declared: Vec<(Name, Meaning)>,
}

impl Names {
    pub fn new() -> Names {
        Names { places: [FREE; PLACES], declared: Vec::with_capacity(rooms::NAMES) }
    }

    pub fn clear(&mut self) {
        self.places.fill(FREE);
        self.declared.clear();
    }

    pub fn find(&self, text: &[u8], name: &Name) -> Option<Meaning> {
        match self.places[self.place(text, name)] {
            FREE => None,
            found => Some(self.declared[found as usize].1),
        }
    }

    /// The name must be new: the second declaration is refused before.
    pub fn declare(&mut self, text: &[u8], name: &Name, meaning: Meaning) {
        let place = self.place(text, name);
        self.places[place] = self.declared.len() as u16;
        self.declared.push((*name, meaning));
    }

    /// Where the name stands, or the free place where it would.
    fn place(&self, text: &[u8], name: &Name) -> usize {
        let mut place = name.hash as usize % PLACES;
        loop {
            let found = self.places[place];
            if found == FREE || same(text, &self.declared[found as usize].0, name) {
                return place;
            }
            place = (place + 1) % PLACES;
        }
    }
}

pub fn same(text: &[u8], one: &Name, other: &Name) -> bool {
    one.hash == other.hash && one.span.of(text) == other.span.of(text)
}
