//! The machine: start, tick, next task, finish, look. A reaction works on a
//! copy of the ports and is taken over only when it has returned, so a fault
//! leaves nothing of it behind.

mod reaction;

use crate::file::reader;
use crate::table::{Role, Table, Task, Type};
use reaction::{Outcome, Reaction};

/// A value from the host. One that is wider than 32 bits is of no type here.
#[derive(Clone, Copy, Debug, PartialEq, Eq)]
pub enum Value {
    Int(i32),
    Boolean(bool),
    Wide,
}

impl Value {
    pub fn of(kind: Type, word: i32) -> Value {
        match kind {
            Type::Int => Value::Int(word),
            Type::Boolean => Value::Boolean(word != 0),
        }
    }

    /// The value as a word, if it is of the type.
    fn word(self, kind: Type) -> Option<i32> {
        match (self, kind) {
            (Value::Int(word), Type::Int) => Some(word),
            (Value::Boolean(word), Type::Boolean) => Some(word as i32),
            _ => None,
        }
    }
}

#[derive(Clone, Copy, Debug, PartialEq, Eq)]
pub enum Answer {
    /// So many instructions were obeyed.
    Obeyed(u32),
    Refused(u8),
    Fault(Fault),
}

#[derive(Clone, Copy, Debug, PartialEq, Eq)]
pub struct Fault {
    pub number: u8,
    /// The task that was late, of a fault 40.
    pub task: Option<u32>,
}

/// Where tasks stand, bit n for task n: out from release to termination; of
/// those, waiting to be handed out, or finished.
#[derive(Clone, Copy, Debug, Default, PartialEq, Eq)]
pub struct Tasks {
    pub out: u64,
    pub waiting: u64,
    pub finished: u64,
}

#[derive(Default)]
pub struct Machine {
    table: Table,
    stopped: bool,
    count: u32,
    remaining: u32,
    mode: u32,
    pc: u32,
    tasks: Tasks,
    ports: Vec<i32>,
    /// The reaction's copy of the ports.
    working: Vec<i32>,
    /// Results that finished tasks have left, by the places of outputs.
    aside: Vec<i32>,
}

impl Machine {
    /// Starts the file's start mode at its time 0. A refused start makes no
    /// machine: this one must not be called any more until it is started.
    pub fn start(&mut self, file: &[u8], count: u32, readings: &[Value]) -> Answer {
        if reader::read(file, &mut self.table).is_err() {
            return Answer::Refused(30);
        }
        if !self.readings_fit(readings) {
            return Answer::Refused(32);
        }
        self.begin(count);
        self.react(count, readings)
    }

    /// The machine as it stands before its first reaction, which is also how
    /// a start that faults leaves it.
    fn begin(&mut self, count: u32) {
        let start = self.table.modes.iter().position(|mode| mode.start);
        let start = start.expect("the reader wants a start mode");
        self.stopped = false;
        self.count = count;
        self.remaining = 0;
        self.mode = start as u32;
        self.pc = self.table.modes[start].begin;
        self.tasks = Tasks::default();
        self.ports.clear();
        self.ports.extend(self.table.ports.iter().map(|port| port.initial));
        self.aside.clear();
        self.aside.resize(self.table.output_names.len(), 0);
    }

    pub fn tick(&mut self, count: u32, readings: &[Value]) -> Answer {
        if self.stopped {
            return Answer::Refused(31);
        }
        if !self.readings_fit(readings) {
            return Answer::Refused(32);
        }
        // The count runs over: only the difference means anything.
        let elapsed = count.wrapping_sub(self.count);
        if elapsed > self.remaining {
            return Answer::Refused(33);
        }
        if elapsed < self.remaining {
            self.count = count;
            self.remaining -= elapsed;
            return Answer::Obeyed(0);
        }
        self.react(count, readings)
    }

    /// The lowest-numbered task that waits; it is handed out with this.
    pub fn next_task(&mut self) -> Result<Option<u32>, u8> {
        if self.stopped {
            return Err(31);
        }
        if self.tasks.waiting == 0 {
            return Ok(None);
        }
        let task = self.tasks.waiting.trailing_zeros();
        self.tasks.waiting &= self.tasks.waiting - 1;
        Ok(Some(task))
    }

    /// Stores results aside; they reach the outputs when the slot ends.
    pub fn finish(&mut self, task: u32, results: &[Value]) -> Result<(), u8> {
        if self.stopped {
            return Err(31);
        }
        if !self.is_handed_out(task) {
            return Err(34);
        }
        let task_row = &self.table.tasks[task as usize];
        let outputs = &self.table.ports[task_row.output_ports()];
        let aside = &mut self.aside[task_row.output_places()];
        let types = || outputs.iter().map(|output| output.kind);
        if !fit(results, types()) {
            return Err(35);
        }
        for ((place, result), kind) in aside.iter_mut().zip(results).zip(types()) {
            *place = result.word(kind).expect("the results fit");
        }
        self.tasks.finished |= 1 << task;
        Ok(())
    }

    fn is_handed_out(&self, task: u32) -> bool {
        let Tasks { out, waiting, finished } = self.tasks;
        (task as usize) < self.table.tasks.len() && (out & !waiting & !finished) >> task & 1 == 1
    }

    fn readings_fit(&self, readings: &[Value]) -> bool {
        fit(readings, self.table.ports[..self.table.sensors.len()].iter().map(|port| port.kind))
    }

    /// One reaction at this count; the readings fit.
    fn react(&mut self, count: u32, readings: &[Value]) -> Answer {
        self.working.clear();
        self.working.extend_from_slice(&self.ports);
        for ((word, port), reading) in self.working.iter_mut().zip(&self.table.ports).zip(readings)
        {
            *word = reading.word(port.kind).expect("the readings fit");
        }
        let mut reaction =
            Reaction::new(&self.table, &mut self.working, &self.aside, self.tasks, self.mode);
        match reaction.run(self.pc) {
            Ok(Outcome { obeyed, mode, tasks, next_pc, delay }) => {
                self.count = count;
                self.remaining = delay;
                self.mode = mode;
                self.pc = next_pc;
                self.tasks = tasks;
                std::mem::swap(&mut self.ports, &mut self.working);
                Answer::Obeyed(obeyed)
            }
            Err(fault) => {
                self.stopped = true;
                Answer::Fault(fault)
            }
        }
    }
}

/// What look shows.
impl Machine {
    pub fn stopped(&self) -> bool {
        self.stopped
    }

    pub fn count(&self) -> u32 {
        self.count
    }

    pub fn remaining(&self) -> u32 {
        self.remaining
    }

    pub fn mode(&self) -> u32 {
        self.mode
    }

    pub fn tasks(&self) -> Tasks {
        self.tasks
    }

    pub fn ports(&self) -> impl Iterator<Item = Value> + '_ {
        self.table.ports.iter().zip(&self.ports).map(|(port, word)| Value::of(port.kind, *word))
    }

    /// The types of the readings that start and tick take.
    pub fn reading_types(&self) -> impl Iterator<Item = Type> + '_ {
        self.table.ports.iter().take_while(|port| port.role == Role::Sensor).map(|port| port.kind)
    }

    /// The types of the results that finish takes; none for what is no task.
    pub fn result_types(&self, task: u32) -> impl Iterator<Item = Type> + '_ {
        let outputs = self.table.tasks.get(task as usize).map_or(0..0, Task::output_ports);
        self.table.ports[outputs].iter().map(|port| port.kind)
    }
}

fn fit(values: &[Value], types: impl ExactSizeIterator<Item = Type>) -> bool {
    values.len() == types.len()
        && values.iter().zip(types).all(|(value, kind)| value.word(kind).is_some())
}
