//! Room on the board: the limits of document 01, each said once.

pub const TEXT_BYTES: usize = 16_384;
pub const NAME_BYTES: usize = 32;

pub const CONSTANTS: usize = 64;
pub const SENSORS: usize = 32;
pub const ACTUATORS: usize = 32;
pub const TASKS: usize = 32;
pub const MODES: usize = 8;
pub const ACTIVITIES_OF_A_MODE: usize = 32;

pub const INPUTS_OF_A_TASK: usize = 8;
pub const OUTPUTS_OF_A_TASK: usize = 8;
pub const INPUTS: usize = 128;
pub const OUTPUTS: usize = 128;

pub const FREQUENCY: u64 = 64;
/// Periods and delays, in microseconds.
pub const TIME: u64 = 2_147_483_647;

pub const DRIVERS: usize = 288;
pub const GUARDS: usize = 256;
pub const ARGUMENTS_OF_A_GUARD: usize = 2;
pub const CODE: usize = 4_096;

/// Everything that can stand before modes in the one name space, and the modes.
pub const NAMES: usize = CONSTANTS + SENSORS + ACTUATORS + TASKS + MODES;
pub const PORTS: usize = SENSORS + ACTUATORS + INPUTS + OUTPUTS;
