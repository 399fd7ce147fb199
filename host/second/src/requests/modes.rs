//! The modes of good modules: periods, frequencies that divide, guards of all
//! four functions, switches back and forth.

use super::modules::{pick_kind, Builder};
use super::pieces::Role;
use crate::table::Type;

impl Builder<'_> {
    pub fn mode(&mut self, number: usize, start: bool, activities: usize, frequency: usize) {
        if start {
            self.keyword("start");
        }
        self.keyword("mode");
        let name = self.modes[number].clone();
        self.put(Role::Declared, name);
        self.sign("[");
        self.put(Role::Attribute, "period");
        self.sign("=");
        let period = self.period();
        self.sign("]");
        self.sign("{");
        let divisors: Vec<usize> =
            (1..=frequency).filter(|&divisor| period.is_multiple_of(divisor as u64)).collect();
        self.activities(activities, &divisors);
        self.sign("}");
    }

    /// A period of many divisors, or an edge of the range.
    fn period(&mut self) -> u64 {
        let period: u64 = match self.random.below(8) {
            0 => self.random.pick(&[1, 2, 7, 2_147_483_647, 2_147_483_000, 1_000]),
            1 => self.random.between(1, 2_147_483_647) as u64,
            2 => self.random.pick(&[720_720, 798_114_240, 64, 4032, 2_147_483_640]),
            _ => self.random.between(1, 400) as u64 * self.random.pick(&[12, 60, 1000, 5000]),
        };
        if period.is_multiple_of(1000) && self.random.percent(60) {
            self.number(Role::Period, period / 1000);
            self.put(Role::Attribute, "ms");
        } else {
            self.number(Role::Period, period);
            self.put(Role::Attribute, "us");
        }
        period
    }

    /// Invocations, updates, switches: as many of each as chance and the
    /// declarations allow; switches there are always.
    fn activities(&mut self, count: usize, divisors: &[usize]) {
        let mut tasks: Vec<usize> =
            (0..self.tasks.len()).filter(|&task| self.can_be_invoked(task)).collect();
        let mut actuators: Vec<usize> = (0..self.actuators.len())
            .filter(|&actuator| self.source(self.actuators[actuator].1).is_some())
            .collect();
        let invocations = self.random.below(count + 1).min(tasks.len());
        let updates = self.random.below(count - invocations + 1).min(actuators.len());
        let mut frequencies = Vec::new();
        self.section("task", invocations);
        for _ in 0..invocations {
            let task = tasks.swap_remove(self.random.below(tasks.len()));
            frequencies.push(self.act(divisors));
            self.invoke(task);
            self.again("task");
        }
        self.section("actuator", updates);
        for _ in 0..updates {
            let actuator = actuators.swap_remove(self.random.below(actuators.len()));
            self.act(divisors);
            self.update(actuator);
            self.again("actuator");
        }
        let harmonic =
            |divisor: &usize| frequencies.iter().all(|frequency| frequency % divisor == 0);
        let harmonic: Vec<usize> = divisors.iter().copied().filter(harmonic).collect();
        let switches = count - invocations - updates;
        self.section("mode", switches);
        for _ in 0..switches {
            self.act(&harmonic);
            let target = self.modes[self.random.below(self.modes.len())].clone();
            self.put(Role::Used, target);
            self.sign(";");
            self.again("mode");
        }
    }

    fn section(&mut self, keyword: &'static str, count: usize) {
        if count > 0 || self.random.percent(15) {
            self.keyword(keyword);
        }
    }

    /// The section's keyword once more, with or without anything behind it.
    fn again(&mut self, keyword: &'static str) {
        if self.random.percent(10) {
            self.keyword(keyword);
        }
    }

    /// `[freq = n]` and perhaps a guard.
    fn act(&mut self, frequencies: &[usize]) -> usize {
        let frequency = self.random.pick(frequencies);
        self.sign("[");
        self.put(Role::Attribute, "freq");
        self.sign("=");
        self.number(Role::Frequency, frequency as u64);
        self.sign("]");
        if self.random.percent(35) {
            self.guard();
        }
        frequency
    }

    fn guard(&mut self) {
        let function = self.random.pick(&["isTrue", "isFalse", "less", "equal"]);
        let kind = match function {
            "isTrue" | "isFalse" => Type::Boolean,
            "less" => Type::Int,
            _ => self.kind(),
        };
        let count = if function.starts_with("is") { 1 } else { 2 };
        let operands: Vec<Vec<String>> = (0..count).filter_map(|_| self.operand(kind)).collect();
        if operands.len() == count {
            self.keyword("if");
            self.put(Role::GuardName, function);
            self.list(&operands);
            self.keyword("then");
        }
    }

    fn invoke(&mut self, task: usize) {
        let name = self.tasks[task].name.clone();
        self.put(Role::Used, name);
        let inputs = self.tasks[task].inputs.clone();
        let sources: Vec<Vec<String>> =
            inputs.iter().map(|kind| self.source(*kind).expect("a source")).collect();
        self.list(&sources);
        self.sign(";");
    }

    fn update(&mut self, actuator: usize) {
        let (name, kind) = self.actuators[actuator].clone();
        self.put(Role::Used, name);
        self.sign(":=");
        let source = self.source(kind).expect("a source");
        self.designate(&source);
        self.sign(";");
    }

    fn list(&mut self, designators: &[Vec<String>]) {
        self.sign("(");
        for (place, designator) in designators.iter().enumerate() {
            if place > 0 {
                self.sign(",");
            }
            self.designate(designator);
        }
        self.sign(")");
    }

    fn designate(&mut self, said: &[String]) {
        for (place, name) in said.iter().enumerate() {
            if place > 0 {
                self.sign(".");
            }
            self.put(Role::Used, name.clone());
        }
    }

    fn can_be_invoked(&mut self, task: usize) -> bool {
        let inputs = self.tasks[task].inputs.clone();
        inputs.iter().all(|kind| self.source(*kind).is_some())
    }

    fn source(&mut self, kind: Type) -> Option<Vec<String>> {
        pick_kind(&self.ports, kind, self.random)
    }

    /// What a guard can read: a port, or a constant.
    fn operand(&mut self, kind: Type) -> Option<Vec<String>> {
        let constant = pick_kind(&self.constants, kind, self.random);
        let port = pick_kind(&self.ports, kind, self.random);
        if self.random.percent(60) {
            port.or(constant)
        } else {
            constant.or(port)
        }
    }
}
