//! One reaction: instructions obeyed from a pc on until a return, or a fault.

use super::{Fault, Tasks};
use crate::table::{Driver, Function, Guard, Instruction, Operand, Table};

pub struct Reaction<'r> {
    table: &'r Table,
    ports: &'r mut [i32],
    aside: &'r [i32],
    tasks: Tasks,
    mode: u32,
    future: Option<(u32, u32)>,
}

pub struct Outcome {
    pub obeyed: u32,
    pub mode: u32,
    pub tasks: Tasks,
    pub next_pc: u32,
    pub delay: u32,
}

fn fault<T>(number: u8) -> Result<T, Fault> {
    Err(Fault { number, task: None })
}

impl<'r> Reaction<'r> {
    /// `ports` have the new readings already.
    pub fn new(
        table: &'r Table,
        ports: &'r mut [i32],
        aside: &'r [i32],
        tasks: Tasks,
        mode: u32,
    ) -> Reaction<'r> {
        Reaction { table, ports, aside, tasks, mode, future: None }
    }

    /// As many instructions as the code holds may be obeyed; the one after
    /// that, or behind the last one, is asked for in vain: 41.
    pub fn run(&mut self, begin: u32) -> Result<Outcome, Fault> {
        let code = &self.table.code[..];
        let mut pc = begin;
        for obeyed in 1..=code.len() as u32 {
            let Some(instruction) = code.get(pc as usize) else {
                return fault(41);
            };
            pc = match *instruction {
                Instruction::Nop(_) => pc + 1,
                Instruction::Future { pc: next_pc, delay } => {
                    self.plan(next_pc, delay)?;
                    pc + 1
                }
                Instruction::Call(driver) => {
                    self.call(driver)?;
                    pc + 1
                }
                Instruction::Release(task) => {
                    self.release(task)?;
                    pc + 1
                }
                Instruction::If { guard, otherwise } => {
                    if self.holds(&self.table.guards[guard as usize]) {
                        pc + 1
                    } else {
                        otherwise
                    }
                }
                Instruction::Jump(target) => target,
                Instruction::Return => return self.outcome(obeyed),
                Instruction::Switch(mode) => {
                    self.mode = mode;
                    self.table.modes[mode as usize].begin
                }
            };
        }
        fault(41)
    }

    fn plan(&mut self, pc: u32, delay: u32) -> Result<(), Fault> {
        if self.future.is_some() {
            return fault(42);
        }
        self.future = Some((pc, delay));
        Ok(())
    }

    fn outcome(&self, obeyed: u32) -> Result<Outcome, Fault> {
        let Some((next_pc, delay)) = self.future else {
            return fault(42);
        };
        Ok(Outcome { obeyed, mode: self.mode, tasks: self.tasks, next_pc, delay })
    }

    fn call(&mut self, driver: u32) -> Result<(), Fault> {
        match self.table.drivers[driver as usize] {
            Driver::Update { source, actuator } => {
                self.ports[actuator as usize] = self.ports[source as usize];
                Ok(())
            }
            Driver::Release { task, first, count } => {
                let inputs = self.table.tasks[task as usize].input_ports();
                for (input, source) in inputs.zip(self.table.sources_of(first, count)) {
                    self.ports[input] = self.ports[*source as usize];
                }
                Ok(())
            }
            Driver::Terminate { task } => self.terminate(task as u32),
        }
    }

    /// A task that isn't out has nothing to hand over; one that is must have
    /// finished.
    fn terminate(&mut self, number: u32) -> Result<(), Fault> {
        let bit = 1 << number;
        if self.tasks.out & bit == 0 {
            return Ok(());
        }
        if self.tasks.finished & bit == 0 {
            return Err(Fault { number: 40, task: Some(number) });
        }
        let task = &self.table.tasks[number as usize];
        self.ports[task.output_ports()].copy_from_slice(&self.aside[task.output_places()]);
        self.tasks.out &= !bit;
        self.tasks.finished &= !bit;
        Ok(())
    }

    fn release(&mut self, task: u32) -> Result<(), Fault> {
        let bit = 1 << task;
        if self.tasks.out & bit != 0 {
            return fault(43);
        }
        self.tasks.out |= bit;
        self.tasks.waiting |= bit;
        Ok(())
    }

    fn holds(&self, guard: &Guard) -> bool {
        let [first, second] = &guard.operands;
        match guard.function {
            Function::IsTrue => self.word(first) != 0,
            Function::IsFalse => self.word(first) == 0,
            Function::Less => self.word(first) < self.word(second),
            Function::Equal => self.word(first) == self.word(second),
        }
    }

    fn word(&self, operand: &Operand) -> i32 {
        match *operand {
            Operand::Port(port) => self.ports[port as usize],
            Operand::Fixed(_, word) => word,
        }
    }
}
