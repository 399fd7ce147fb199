//! Good modules, rich in every construct: all declarations here, with sections
//! empty and repeated, names that come back and values at the ends of int.

use super::names::random_name;
use super::pieces::{piece, Pieces, Role};
use super::random::Random;
use super::shape::Shape;
use crate::table::Type;
use std::borrow::Cow;
use std::collections::HashSet;

pub struct Task {
    pub name: String,
    pub inputs: Vec<Type>,
}

/// A constant, sensor or output: how it is said where it is read.
pub struct Readable {
    pub said: Vec<String>,
    pub kind: Type,
}

pub struct Builder<'b> {
    pub random: &'b mut Random,
    pieces: Pieces,
    taken: HashSet<String>,
    pub constants: Vec<Readable>,
    /// Sensors and outputs.
    pub ports: Vec<Readable>,
    pub actuators: Vec<(String, Type)>,
    pub tasks: Vec<Task>,
    pub modes: Vec<String>,
}

pub fn module(shape: &Shape, random: &mut Random) -> Pieces {
    let mut builder = Builder {
        random,
        pieces: Vec::new(),
        taken: HashSet::new(),
        constants: Vec::new(),
        ports: Vec::new(),
        actuators: Vec::new(),
        tasks: Vec::new(),
        modes: Vec::new(),
    };
    builder.module(shape);
    builder.pieces
}

impl Builder<'_> {
    fn module(&mut self, shape: &Shape) {
        self.keyword("module");
        // The module's name is outside the name space: it may come back.
        let name = random_name(self.random);
        self.put(Role::ModuleName, name);
        self.sign("{");
        self.sections("const", shape.constants, Builder::constant);
        self.sections("sensor", shape.sensors, Builder::sensor);
        self.sections("actuator", shape.actuators, Builder::actuator);
        for ports in &shape.tasks {
            self.task(*ports);
        }
        self.modes = (0..shape.modes.len()).map(|_| self.fresh()).collect();
        let start = self.random.below(shape.modes.len().max(1));
        for (number, activities) in shape.modes.iter().enumerate() {
            self.mode(number, number == start, *activities, shape.frequency);
        }
        self.sign("}");
    }

    /// So many items in one or more sections of a keyword, some of them empty.
    fn sections(&mut self, keyword: &'static str, count: usize, item: fn(&mut Self)) {
        if count > 0 || self.random.percent(10) {
            self.keyword(keyword);
        }
        for _ in 0..count {
            item(self);
            while self.random.percent(6) {
                self.keyword(keyword);
            }
        }
    }

    fn constant(&mut self) {
        let name = self.fresh();
        self.put(Role::Declared, name.clone());
        self.sign("=");
        let kind = self.kind();
        self.value(kind);
        self.sign(";");
        self.constants.push(Readable { said: vec![name], kind });
    }

    fn sensor(&mut self) {
        let (kind, name) = self.typed();
        self.uses();
        self.ports.push(Readable { said: vec![name], kind });
    }

    fn actuator(&mut self) {
        let (kind, name) = self.typed();
        self.sign(":=");
        self.value(kind);
        self.uses();
        self.actuators.push((name, kind));
    }

    fn task(&mut self, (inputs, outputs): (usize, usize)) {
        self.keyword("task");
        let name = self.fresh();
        self.put(Role::Declared, name.clone());
        self.sign("{");
        // A task has its own name space; the outer one is set aside.
        let outer = std::mem::take(&mut self.taken);
        let mut types = Vec::new();
        self.ports_of_a_task("input", inputs, |builder| {
            types.push(builder.typed().0);
            builder.sign(";");
        });
        self.ports_of_a_task("output", outputs, |builder| {
            let (kind, output) = builder.typed();
            builder.sign(":=");
            builder.value(kind);
            builder.sign(";");
            builder.ports.push(Readable { said: vec![name.clone(), output], kind });
        });
        self.taken = outer;
        self.uses();
        self.sign("}");
        self.tasks.push(Task { name, inputs: types });
    }

    fn ports_of_a_task(
        &mut self,
        keyword: &'static str,
        count: usize,
        mut port: impl FnMut(&mut Self),
    ) {
        if count > 0 || self.random.percent(20) {
            self.keyword(keyword);
        }
        for _ in 0..count {
            port(self);
            if self.random.percent(15) {
                self.keyword(keyword);
            }
        }
    }

    fn typed(&mut self) -> (Type, String) {
        let kind = self.kind();
        self.put(Role::TypeName, if kind == Type::Int { "int" } else { "boolean" });
        let name = self.fresh();
        self.put(Role::Declared, name.clone());
        (kind, name)
    }

    fn uses(&mut self) {
        self.keyword("uses");
        let name = random_name(self.random);
        self.put(Role::External, name);
        self.sign(";");
    }

    fn value(&mut self, kind: Type) {
        let constant = pick_kind(&self.constants, kind, self.random);
        if let (Some(said), true) = (constant, self.random.percent(30)) {
            return self.put(Role::Used, said[0].clone());
        }
        if kind == Type::Boolean {
            let truth = self.random.pick(&["true", "false"]);
            return self.put(Role::Truth, truth);
        }
        let number = self.random.int() as i64;
        if number < 0 || number == 0 && self.random.percent(20) {
            self.sign("-");
        }
        self.number(Role::Literal, number.unsigned_abs());
    }

    /// The digits, some of them with zeros in front.
    pub fn number(&mut self, role: Role, number: u64) {
        let zeros = if self.random.percent(5) { "00" } else { "" };
        self.put(role, format!("{zeros}{number}"));
    }

    pub fn kind(&mut self) -> Type {
        self.random.pick(&[Type::Int, Type::Int, Type::Boolean])
    }

    /// A name that nothing in the current name space has.
    fn fresh(&mut self) -> String {
        loop {
            let name = random_name(self.random);
            if self.taken.insert(name.clone()) {
                return name;
            }
        }
    }

    pub fn keyword(&mut self, word: &'static str) {
        self.put(Role::Keyword, word);
    }

    pub fn sign(&mut self, sign: &'static str) {
        self.put(Role::Sign, sign);
    }

    pub fn put(&mut self, role: Role, text: impl Into<Cow<'static, str>>) {
        self.pieces.push(piece(role, text));
    }
}

pub fn pick_kind(readables: &[Readable], kind: Type, random: &mut Random) -> Option<Vec<String>> {
    let fitting: Vec<&Readable> = readables.iter().filter(|one| one.kind == kind).collect();
    if fitting.is_empty() {
        return None;
    }
    Some(random.pick(&fitting).said.clone())
}
