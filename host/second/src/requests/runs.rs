//! Runs of the machine, request by request. A session of the second program
//! goes along, so that a run knows which count is due and which task is out.

use super::files::Files;
use super::hostile::hostile_file;
use super::random::Random;
use crate::file::reader;
use crate::machine::{Machine, Value};
use crate::protocol::{hex, say_values, Session};
use crate::table::{Table, Type};

#[derive(Default)]
pub struct Runs {
    session: Session,
    files: Files,
    /// Requests of the current run still to come.
    left: usize,
    /// Whether look is next.
    look: bool,
    /// Whether this run's host works well: it finishes every task in time.
    diligent: bool,
    answers: Vec<u8>,
}

impl Runs {
    pub fn request(&mut self, random: &mut Random) -> Vec<u8> {
        let line = self.line(random);
        self.follow(&line);
        line
    }

    /// Lets the session do what a line asks, whoever made the line.
    pub fn follow(&mut self, line: &[u8]) {
        self.answers.clear();
        self.session.answer(line, &mut self.answers);
    }

    fn line(&mut self, random: &mut Random) -> Vec<u8> {
        if std::mem::take(&mut self.look) {
            return b"look".to_vec();
        }
        self.look = random.percent(80);
        if self.left == 0 {
            self.diligent = random.percent(70);
            self.left = random.between(3, if self.diligent { 100 } else { 30 });
            return self.start(random);
        }
        self.left -= 1;
        match self.session.machine() {
            Some(machine) => call(machine, &mut self.left, self.diligent, random),
            None => {
                self.left = self.left.min(2);
                call_to_nobody(random)
            }
        }
    }

    fn start(&mut self, random: &mut Random) -> Vec<u8> {
        let file = match random.below(20) {
            0 => self.files.damaged(random),
            1..=8 => hostile_file(random),
            9..=10 => self.files.good(random),
            _ => self.files.lively(random),
        };
        let mut line = b"start ".to_vec();
        hex(&file, &mut line);
        let mut table = Table::default();
        // A file that doesn't read has no sensors, and any readings will do.
        let _ = reader::read(&file, &mut table);
        let types: Vec<Type> =
            table.ports[..table.sensors.len()].iter().map(|port| port.kind).collect();
        let readings = values_for(&types, random.percent(6), random);
        line.extend_from_slice(format!(" {} ", beginning(random)).as_bytes());
        say_values(&mut line, readings.into_iter());
        line
    }
}

/// A count to start at, mostly a little before the clock runs over.
fn beginning(random: &mut Random) -> u32 {
    match random.below(4) {
        0 => 0,
        1 => random.word() as u32,
        2 => u32::MAX - random.below(10) as u32,
        _ => u32::MAX - random.below(100_000) as u32,
    }
}

fn call(machine: &Machine, left: &mut usize, diligent: bool, random: &mut Random) -> Vec<u8> {
    if machine.stopped() {
        *left = (*left).min(3);
    }
    let tasks = machine.tasks();
    let handed_out = tasks.out & !tasks.waiting & !tasks.finished;
    if diligent && random.percent(80) {
        if tasks.waiting != 0 {
            return b"next".to_vec();
        }
        if handed_out != 0 {
            return finish(machine, handed_out.trailing_zeros(), random.percent(10), random);
        }
        return tick(machine, machine.remaining(), false, random);
    }
    match random.below(12) {
        0 | 1 => b"next".to_vec(),
        2 | 3 => {
            let task = random.below(34) as u32;
            finish(machine, task, random.percent(50), random)
        }
        4 if handed_out != 0 => finish(machine, handed_out.trailing_zeros(), true, random),
        5 if handed_out != 0 => finish(machine, 63 - handed_out.leading_zeros(), false, random),
        6 => tick(machine, random.below(machine.remaining().max(1) as usize) as u32, false, random),
        7 => tick(
            machine,
            machine.remaining().wrapping_add(random.below(9) as u32 + 1),
            false,
            random,
        ),
        8 => tick(machine, random.word() as u32, random.percent(30), random),
        9 => tick(machine, machine.remaining(), true, random),
        10 => tick(machine, machine.remaining() / 2, random.percent(30), random),
        _ => tick(machine, machine.remaining(), false, random),
    }
}

fn tick(machine: &Machine, elapsed: u32, wrong: bool, random: &mut Random) -> Vec<u8> {
    let count = machine.count().wrapping_add(elapsed);
    let types: Vec<Type> = machine.reading_types().collect();
    let mut line = format!("tick {count} ").into_bytes();
    say_values(&mut line, values_for(&types, wrong, random).into_iter());
    line
}

fn finish(machine: &Machine, task: u32, wrong: bool, random: &mut Random) -> Vec<u8> {
    let types: Vec<Type> = machine.result_types(task).collect();
    let mut line = format!("finish {task} ").into_bytes();
    say_values(&mut line, values_for(&types, wrong, random).into_iter());
    line
}

fn call_to_nobody(random: &mut Random) -> Vec<u8> {
    random
        .pick(&["next", "look", "tick 5 -", "finish 0 -", "tick 0 i1,b1", "finish 40 b0"])
        .as_bytes()
        .to_vec()
}

/// Values of the types, or with something wrong about them.
fn values_for(types: &[Type], wrong: bool, random: &mut Random) -> Vec<Value> {
    let mut values: Vec<Value> = types.iter().map(|kind| value_of(*kind, random)).collect();
    if wrong {
        let place = random.below(values.len() + 1);
        match random.below(3) {
            0 => values.insert(place, value_of(Type::Int, random)),
            1 if place < values.len() => drop(values.remove(place)),
            _ if place < values.len() => {
                values[place] = match types[place] {
                    Type::Int if random.percent(50) => Value::Wide,
                    Type::Int => Value::Boolean(true),
                    Type::Boolean => value_of(Type::Int, random),
                };
            }
            _ => values.push(Value::Boolean(false)),
        }
    }
    values
}

fn value_of(kind: Type, random: &mut Random) -> Value {
    match kind {
        Type::Int => Value::Int(random.int()),
        Type::Boolean => Value::Boolean(random.percent(50)),
    }
}
