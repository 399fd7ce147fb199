//! The checks of modes: heads, frequencies, guards and what is done.

use super::checks::{refuse, Checked, Checker};
use super::names::{same, Meaning};
use super::plan;
use super::syntax::{self, Activity, Deed, Name, Reference};
use crate::rooms;
use crate::table::{self, Driver, Function, Guard, Operand, Type, NO_OPERAND};

/// What is known of the mode whose activities are checked.
struct Current {
    period: u32,
    first_activity: usize,
    first_driver: usize,
    invoked: u64,
    updated: u64,
    invocations: usize,
    updates: usize,
}

impl Checker<'_> {
    pub fn modes(&mut self) -> Checked<()> {
        let mut started = false;
        for number in 0..self.syntax.modes.len() {
            self.mode(number, &mut started)?;
        }
        if started {
            Ok(())
        } else {
            refuse(12, self.text.len() as u32)
        }
    }

    fn mode(&mut self, number: usize, started: &mut bool) -> Checked<()> {
        let mode = &self.syntax.modes[number];
        if let Some(at) = mode.start {
            if *started {
                return refuse(12, at);
            }
            *started = true;
        }
        self.declaration(&mode.name, number, rooms::MODES)?;
        self.declare(&mode.name, Meaning::Mode(number as u16));
        let period = self.period(mode)?;
        let (name, start) = (mode.name.span, mode.start.is_some());
        self.table.modes.push(table::Mode { name, start, period, begin: 0 });
        self.activities(mode, period)
    }

    fn period(&self, mode: &syntax::Mode) -> Checked<u32> {
        let microseconds = mode.period.value.saturating_mul(mode.microseconds_per_unit);
        if (1..=rooms::TIME).contains(&microseconds) {
            Ok(microseconds as u32)
        } else {
            refuse(8, mode.period.at)
        }
    }

    fn activities(&mut self, mode: &syntax::Mode, period: u32) -> Checked<()> {
        let syntax = self.syntax;
        let mut current = Current {
            period,
            first_activity: self.plan.activities.len(),
            first_driver: self.table.drivers.len(),
            invoked: 0,
            updated: 0,
            invocations: 0,
            updates: 0,
        };
        for (place, activity) in syntax.activities[mode.activities.clone()].iter().enumerate() {
            if place >= rooms::ACTIVITIES_OF_A_MODE {
                return refuse(11, activity.bracket);
            }
            self.activity(activity, &mut current)?;
        }
        self.close(&current);
        Ok(())
    }

    fn activity(&mut self, activity: &Activity, current: &mut Current) -> Checked<()> {
        let frequency = self.frequency(activity, current)?;
        let guard = match &activity.guard {
            Some(guard) => Some(self.guard(guard)?),
            None => None,
        };
        let subject = match &activity.deed {
            Deed::Invoke { task, ports } => {
                let ports = &self.syntax.references[ports.clone()];
                self.invocation(task, ports, current)?
            }
            Deed::Update { actuator, port } => self.update(actuator, port, current)?,
            Deed::Switch { mode } => self.target(mode)?,
        };
        self.plan.activities.push(plan::Activity { frequency, guard, subject });
        Ok(())
    }

    fn frequency(&self, activity: &Activity, current: &Current) -> Checked<u32> {
        let digits = &activity.frequency;
        if !(1..=rooms::FREQUENCY).contains(&digits.value) {
            return refuse(8, digits.at);
        }
        let frequency = digits.value as u32;
        let switches = matches!(activity.deed, Deed::Switch { .. });
        let fits = current.period.is_multiple_of(frequency);
        if !fits || switches && !self.harmonic(frequency, current) {
            return refuse(9, digits.at);
        }
        Ok(frequency)
    }

    /// Whether a switch of this frequency finds no task of its mode running:
    /// the invocations stand before every switch, so all of them are known.
    fn harmonic(&self, frequency: u32, current: &Current) -> bool {
        let first = current.first_activity;
        let invocations = &self.plan.activities[first..first + current.invocations];
        invocations.iter().all(|invocation| invocation.frequency.is_multiple_of(frequency))
    }

    fn guard(&mut self, guard: &syntax::Guard) -> Checked<u16> {
        self.length(guard.name)?;
        let Some(function) = Function::named(guard.name.of(self.text)) else {
            return refuse(6, guard.name.at);
        };
        let arguments = &self.syntax.references[guard.arguments.clone()];
        if arguments.len() != function.arguments() {
            return refuse(7, guard.name.at);
        }
        let mut operands = [NO_OPERAND; rooms::ARGUMENTS_OF_A_GUARD];
        let mut wanted = function.wants();
        for (operand, argument) in operands.iter_mut().zip(arguments) {
            let (found, kind) = self.operand(argument)?;
            self.agree(kind, wanted, argument.first.span.at)?;
            // `equal` wants of its second argument what the first one was.
            wanted = Some(kind);
            *operand = found;
        }
        let number = self.table.guards.len() as u16;
        self.table.guards.push(Guard { function, count: arguments.len() as u8, operands });
        Ok(number)
    }

    fn operand(&self, argument: &Reference) -> Checked<(Operand, Type)> {
        self.length(argument.first.span)?;
        let meaning = self.names.find(self.text, &argument.first);
        if let (Some(Meaning::Constant(kind, word)), None) = (meaning, &argument.second) {
            return Ok((Operand::Fixed(kind, word), kind));
        }
        let (port, kind) = self.port(argument)?;
        Ok((Operand::Port(port), kind))
    }

    /// A sensor, or a task's output: its port and type.
    fn port(&self, reference: &Reference) -> Checked<(u16, Type)> {
        let first = &reference.first;
        self.length(first.span)?;
        let port = match (self.names.find(self.text, first), &reference.second) {
            (Some(Meaning::Sensor { port }), None) => port,
            (Some(Meaning::Task(task)), Some(output)) => self.output_port(task, output)?,
            _ => return refuse(6, first.span.at),
        };
        Ok((port, self.table.ports[port as usize].kind))
    }

    fn output_port(&self, task: u16, output: &Name) -> Checked<u16> {
        self.length(output.span)?;
        let outputs = &self.syntax.outputs[self.syntax.tasks[task as usize].outputs.clone()];
        match outputs.iter().position(|declared| same(self.text, &declared.name, output)) {
            Some(place) => {
                let first = self.table.tasks[task as usize].output_ports().start;
                Ok((first + place) as u16)
            }
            None => refuse(6, output.span.at),
        }
    }

    fn invocation(
        &mut self,
        name: &Name,
        ports: &[Reference],
        current: &mut Current,
    ) -> Checked<u16> {
        self.length(name.span)?;
        let Some(Meaning::Task(task)) = self.names.find(self.text, name) else {
            return refuse(6, name.span.at);
        };
        let inputs = self.table.tasks[task as usize].input_ports();
        if ports.len() != inputs.len() {
            return refuse(7, name.span.at);
        }
        if current.invoked >> task & 1 == 1 {
            return refuse(10, name.span.at);
        }
        current.invoked |= 1 << task;
        current.invocations += 1;
        let first = self.table.sources.len() as u16;
        for (reference, input) in ports.iter().zip(inputs) {
            let (source, kind) = self.port(reference)?;
            self.agree(kind, Some(self.table.ports[input].kind), reference.first.span.at)?;
            self.table.sources.push(source);
        }
        let count = ports.len() as u8;
        self.table.drivers.push(Driver::Release { task, first, count });
        Ok(task)
    }

    fn update(&mut self, name: &Name, port: &Reference, current: &mut Current) -> Checked<u16> {
        self.length(name.span)?;
        let Some(Meaning::Actuator { port: actuator }) = self.names.find(self.text, name) else {
            return refuse(6, name.span.at);
        };
        let bit = actuator as usize - self.table.sensors.len();
        if current.updated >> bit & 1 == 1 {
            return refuse(10, name.span.at);
        }
        current.updated |= 1 << bit;
        current.updates += 1;
        let (source, kind) = self.port(port)?;
        let wanted = self.table.ports[actuator as usize].kind;
        self.agree(kind, Some(wanted), port.first.span.at)?;
        self.table.drivers.push(Driver::Update { source, actuator });
        Ok(actuator)
    }

    /// The mode a switch goes to. It may be declared further right, even
    /// behind the last one there is room for; everything else that could take
    /// the name first stands before all modes.
    fn target(&self, name: &Name) -> Checked<u16> {
        self.length(name.span)?;
        match self.names.find(self.text, name) {
            Some(Meaning::Mode(number)) => return Ok(number),
            Some(_) => return refuse(6, name.span.at),
            None => {}
        }
        let modes = &self.syntax.modes;
        match modes.iter().position(|mode| same(self.text, &mode.name, name)) {
            Some(number) => Ok(number as u16),
            None => refuse(6, name.span.at),
        }
    }

    /// The text has a mode's invocations first, the drivers its updates.
    fn close(&mut self, current: &Current) {
        self.table.drivers[current.first_driver..].rotate_left(current.invocations);
        let updates = current.first_activity + current.invocations;
        let switches = updates + current.updates;
        self.plan.modes.push(plan::Mode {
            invocations: current.first_activity..updates,
            updates: updates..switches,
            switches: switches..self.plan.activities.len(),
            first_driver: current.first_driver,
        });
    }
}
