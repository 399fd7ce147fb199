//! One machine on both sides: the same calls with the same values, and a check that both answer and then stand alike.

use crate::native::{self, Values};
use second::machine::{Answer, Machine, Value};
use second::table::{Table, Type};
use std::hint::black_box;

pub struct Pair {
    pub proved: native::Machine,
    pub second: Machine,
    proved_readings: Values,
    second_readings: Vec<Value>,
    proved_results: Vec<Values>,
    second_results: Vec<Vec<Value>>,
}

const START: u32 = 4_294_965_000;

impl Pair {
    pub fn start(file: &[u8]) -> Pair {
        let mut table = Table::default();
        second::file::reader::read(file, &mut table).expect("the second reader takes the file");
        let kinds = |ports: &[second::table::Port]| -> Vec<Type> {
            ports.iter().map(|port| port.kind).collect()
        };
        let readings = kinds(&table.ports[..table.sensors.len()]);
        let results: Vec<Vec<Type>> =
            table.tasks.iter().map(|task| kinds(&table.ports[task.output_ports()])).collect();
        let mut pair = Pair {
            proved: native::Machine::begin(file, START),
            second: Machine::default(),
            proved_readings: words(&readings),
            second_readings: values(&readings),
            proved_results: results.iter().map(|kinds| words(kinds)).collect(),
            second_results: results.iter().map(|kinds| values(kinds)).collect(),
        };
        let Answer::Obeyed(obeyed) = pair.second.start(file, START, &pair.second_readings) else {
            panic!("the second program starts the file");
        };
        assert_eq!(pair.proved.tick(START, &pair.proved_readings), (0, obeyed), "both start");
        pair.agrees();
        pair
    }

    pub fn start_readings(&self) -> (u32, &Values) {
        (START, &self.proved_readings)
    }

    /// So many due ticks, every task handed out and finished before each.
    pub fn proved_due(&mut self, calls: u32) -> u32 {
        let mut obeyed = 0;
        for _ in 0..calls {
            while let Some(task) = self.proved.next_task() {
                black_box(self.proved.finish(task, &self.proved_results[task as usize]));
            }
            let count = self.proved.count().wrapping_add(self.proved.remaining());
            obeyed = self.proved.tick(black_box(count), &self.proved_readings).1;
        }
        obeyed
    }

    pub fn second_due(&mut self, calls: u32) -> u32 {
        let mut obeyed = 0;
        for _ in 0..calls {
            while let Ok(Some(task)) = self.second.next_task() {
                let _ = black_box(self.second.finish(task, &self.second_results[task as usize]));
            }
            let count = self.second.count().wrapping_add(self.second.remaining());
            if let Answer::Obeyed(instructions) =
                self.second.tick(black_box(count), &self.second_readings)
            {
                obeyed = instructions;
            }
        }
        obeyed
    }

    /// So many ticks at the count that is already there.
    pub fn proved_idle(&mut self, calls: u32) {
        for _ in 0..calls {
            black_box(self.proved.tick(black_box(self.proved.count()), &self.proved_readings));
        }
    }

    pub fn second_idle(&mut self, calls: u32) {
        for _ in 0..calls {
            black_box(self.second.tick(black_box(self.second.count()), &self.second_readings));
        }
    }

    /// Stops the program where the two machines do not stand alike.
    pub fn agrees(&self) {
        let (held, tasks) = (&self.proved.held(), self.second.tasks());
        assert_eq!(held.stopped, self.second.stopped(), "both stopped or neither");
        assert_eq!(
            (held.clock, held.remaining, held.mode),
            (self.second.count(), self.second.remaining(), self.second.mode()),
            "count, remaining and mode"
        );
        assert_eq!(
            (held.out, held.waiting, held.finished),
            (tasks.out, tasks.waiting, tasks.finished),
            "the words of tasks"
        );
        for (place, value) in self.second.ports().enumerate() {
            let word = match value {
                Value::Int(number) => number as u32,
                Value::Boolean(holds) => holds as u32,
                Value::Wide => unreachable!("a port holds no wide value"),
            };
            assert_eq!(self.proved.ports[place], word, "port {place}");
        }
    }

    /// A thousand due ticks and as many idle ones on both sides, compared after each; the instructions of a due tick.
    pub fn checked(&mut self) -> u32 {
        let mut obeyed = 0;
        for _ in 0..1000 {
            obeyed = self.proved_due(1);
            assert_eq!(obeyed, self.second_due(1), "instructions of a due tick");
            self.agrees();
            self.proved_idle(1);
            self.second_idle(1);
            self.agrees();
        }
        obeyed
    }
}

fn words(kinds: &[Type]) -> Values {
    let mut values = Values::default();
    for kind in kinds {
        values.types.push(if *kind == Type::Int { 0 } else { 1 });
        values.words.push(if *kind == Type::Int { 7 } else { 1 });
    }
    values
}

fn values(kinds: &[Type]) -> Vec<Value> {
    kinds
        .iter()
        .map(|kind| if *kind == Type::Int { Value::Int(7) } else { Value::Boolean(true) })
        .collect()
}
