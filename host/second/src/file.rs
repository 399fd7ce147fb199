//! The E-code file: big-endian, its length first, then version 1.

pub mod reader;
pub mod references;
pub mod writer;

pub const VERSION: u8 = 1;
/// The argument an instruction doesn't use.
pub const UNUSED: u32 = u32::MAX;

/// Tags, types and opcodes of the file, each said once for reader and writer.
pub mod tags {
    pub const INT: u8 = 0;
    pub const BOOLEAN: u8 = 1;

    pub const UPDATE: u8 = 3;
    pub const RELEASE_INPUTS: u8 = 4;
    pub const TERMINATE: u8 = 5;

    pub const PORT: u8 = 0;
    pub const FIXED: u8 = 1;

    pub const NOP: u8 = 0;
    pub const FUTURE: u8 = 1;
    pub const CALL: u8 = 2;
    pub const RELEASE: u8 = 3;
    pub const IF: u8 = 4;
    pub const JUMP: u8 = 5;
    pub const RETURN: u8 = 6;
    pub const SWITCH: u8 = 7;
}
