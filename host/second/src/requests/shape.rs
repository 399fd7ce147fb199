//! How large a module shall be: at random, or at the edge of a room.

use super::random::Random;
use crate::rooms;

#[derive(Clone, Debug)]
pub struct Shape {
    pub constants: usize,
    pub sensors: usize,
    pub actuators: usize,
    /// Inputs and outputs of each task.
    pub tasks: Vec<(usize, usize)>,
    /// Activities of each mode.
    pub modes: Vec<usize>,
    /// No activity is more frequent.
    pub frequency: usize,
}

impl Shape {
    pub fn small(random: &mut Random) -> Shape {
        let tasks = random.below(4);
        let modes = random.between(1, 3);
        Shape {
            constants: random.below(5),
            sensors: random.below(4),
            actuators: random.below(4),
            tasks: (0..tasks).map(|_| (random.below(3), random.below(3))).collect(),
            modes: (0..modes).map(|_| random.below(7)).collect(),
            frequency: if random.percent(80) { 6 } else { 64 },
        }
    }

    pub fn large(random: &mut Random) -> Shape {
        let tasks = random.between(4, 20);
        let modes = random.between(2, 8);
        Shape {
            constants: random.below(30),
            sensors: random.below(20),
            actuators: random.below(20),
            tasks: (0..tasks).map(|_| (random.below(6), random.below(6))).collect(),
            modes: (0..modes).map(|_| random.below(17)).collect(),
            frequency: random.pick(&[2, 4, 6, 16]),
        }
    }

    /// Small, but with enough to do in every mode for a machine to run.
    pub fn lively(random: &mut Random) -> Shape {
        let tasks = random.between(1, 6);
        let modes = random.between(1, 3);
        Shape {
            constants: random.below(4),
            sensors: random.between(1, 4),
            actuators: random.between(1, 4),
            tasks: (0..tasks).map(|_| (random.below(3), random.below(3))).collect(),
            modes: (0..modes).map(|_| random.between(3, 14)).collect(),
            frequency: random.pick(&[2, 4, 6, 8, 12]),
        }
    }

    /// A small module but for one room, which is full, or over by one.
    pub fn edge(random: &mut Random) -> Shape {
        let over = random.below(2);
        let mut shape = Shape::small(random);
        shape.frequency = 2;
        match random.below(10) {
            0 => shape.constants = rooms::CONSTANTS + over,
            1 => shape.sensors = rooms::SENSORS + over,
            2 => shape.actuators = rooms::ACTUATORS + over,
            3 => shape.tasks = vec![(0, 1); rooms::TASKS + over],
            4 => shape.modes = vec![1; rooms::MODES + over],
            5 => shape.modes.push(rooms::ACTIVITIES_OF_A_MODE + over),
            6 => shape.tasks.push((rooms::INPUTS_OF_A_TASK + over, 1)),
            7 => shape.tasks.push((1, rooms::OUTPUTS_OF_A_TASK + over)),
            8 => shape.tasks = full(rooms::INPUTS / rooms::INPUTS_OF_A_TASK, (8, 0), (over, 0)),
            _ => shape.tasks = full(rooms::OUTPUTS / rooms::OUTPUTS_OF_A_TASK, (0, 8), (0, over)),
        }
        shape
    }
}

/// So many tasks of one kind that a room is full, and a last one behind.
fn full(count: usize, one: (usize, usize), last: (usize, usize)) -> Vec<(usize, usize)> {
    let mut tasks = vec![one; count];
    tasks.push(last);
    tasks
}
