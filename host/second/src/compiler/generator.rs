//! The generator: the code of all modes, as prescribed, dead code included.

use super::plan::{Activity, Mode, Plan};
use crate::rooms;
use crate::table::{Instruction, Table};

/// The code has more than 4,096 instructions.
pub struct TooLong;

pub fn generate(plan: &Plan, table: &mut Table) -> Result<(), TooLong> {
    for (number, mode) in plan.modes.iter().enumerate() {
        table.modes[number].begin = table.code.len() as u32;
        let period = table.modes[number].period;
        Generator::new(plan, mode, period, &mut table.code).mode()?;
    }
    Ok(())
}

struct Generator<'g> {
    period: u32,
    invocations: &'g [Activity],
    updates: &'g [Activity],
    switches: &'g [Activity],
    first_update_driver: u32,
    first_release_driver: u32,
    /// For each activity, the instant at which its current slot ends.
    ends: [u32; rooms::ACTIVITIES_OF_A_MODE],
    /// For each activity, the length of its slots.
    slots: [u32; rooms::ACTIVITIES_OF_A_MODE],
    activities: usize,
    code: &'g mut Vec<Instruction>,
}

impl<'g> Generator<'g> {
    fn new(
        plan: &'g Plan,
        mode: &Mode,
        period: u32,
        code: &'g mut Vec<Instruction>,
    ) -> Generator<'g> {
        let all = &plan.activities[mode.invocations.start..mode.switches.end];
        let mut slots = [period; rooms::ACTIVITIES_OF_A_MODE];
        for (slot, activity) in slots.iter_mut().zip(all) {
            *slot = period / activity.frequency;
        }
        Generator {
            period,
            invocations: &plan.activities[mode.invocations.clone()],
            updates: &plan.activities[mode.updates.clone()],
            switches: &plan.activities[mode.switches.clone()],
            first_update_driver: mode.first_driver as u32,
            first_release_driver: (mode.first_driver + mode.updates.len()) as u32,
            ends: slots,
            slots,
            activities: all.len(),
            code,
        }
    }

    /// Begin block, a block for each instant inside, end block. At 0 every
    /// slot begins and none ends, at the period every slot ends.
    fn mode(&mut self) -> Result<(), TooLong> {
        let begin = self.here();
        let mut now = 0;
        self.releases(|_| true);
        loop {
            let next = self.next_instant();
            self.wait(next - now);
            now = next;
            self.endings(now);
            if now == self.period {
                break;
            }
            let ends = self.ends;
            self.releases(|place| ends[place] == now);
            self.open_slots(now);
            self.fits()?;
        }
        self.emit(Instruction::Jump(begin));
        self.fits()
    }

    /// A block's code is short against the room, so it is judged block by block.
    fn fits(&self) -> Result<(), TooLong> {
        if self.code.len() <= rooms::CODE {
            Ok(())
        } else {
            Err(TooLong)
        }
    }

    fn next_instant(&self) -> u32 {
        let ends = &self.ends[..self.activities];
        ends.iter().copied().min().unwrap_or(self.period)
    }

    fn open_slots(&mut self, now: u32) {
        for (end, slot) in self.ends[..self.activities].iter_mut().zip(&self.slots) {
            if *end == now {
                *end += slot;
            }
        }
    }

    /// What is done at the end of slots: terminations, updates, switches.
    fn endings(&mut self, now: u32) {
        let (first_update, first_switch) =
            (self.invocations.len(), self.invocations.len() + self.updates.len());
        for (place, invocation) in self.invocations.iter().enumerate() {
            if self.ends[place] == now {
                self.emit(Instruction::Call(invocation.subject as u32));
            }
        }
        self.emit(Instruction::Nop(1));
        for (place, update) in self.updates.iter().enumerate() {
            if self.ends[first_update + place] == now {
                self.guard(update, 1);
                self.emit(Instruction::Call(self.first_update_driver + place as u32));
            }
        }
        self.emit(Instruction::Nop(2));
        for (place, switch) in self.switches.iter().enumerate() {
            if self.ends[first_switch + place] == now {
                self.guard(switch, 1);
                self.emit(Instruction::Switch(switch.subject as u32));
            }
        }
    }

    fn releases(&mut self, begins: impl Fn(usize) -> bool) {
        for (place, invocation) in self.invocations.iter().enumerate() {
            if begins(place) {
                self.guard(invocation, 2);
                self.emit(Instruction::Call(self.first_release_driver + place as u32));
                self.emit(Instruction::Release(invocation.subject as u32));
            }
        }
    }

    /// The `if` in front of a guarded activity of so many instructions.
    fn guard(&mut self, activity: &Activity, instructions: u32) {
        if let Some(guard) = activity.guard {
            let otherwise = self.here() + 1 + instructions;
            self.emit(Instruction::If { guard: guard as u32, otherwise });
        }
    }

    /// The end of a block: the next one stands right behind it.
    fn wait(&mut self, delay: u32) {
        let pc = self.here() + 2;
        self.emit(Instruction::Future { pc, delay });
        self.emit(Instruction::Return);
    }

    fn here(&self) -> u32 {
        self.code.len() as u32
    }

    fn emit(&mut self, instruction: Instruction) {
        self.code.push(instruction);
    }
}
