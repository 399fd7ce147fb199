//! The independent second program of the project: the compiler, the E-code
//! file and the E-machine, written from document 01 and its readings alone.
//! It shares nothing with the proved program but the lines they both speak,
//! so an answer on which the two agree was reached twice.

pub mod compiler;
pub mod file;
pub mod machine;
pub mod protocol;
pub mod requests;
pub mod rooms;
pub mod table;
