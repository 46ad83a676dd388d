//! A room of HELLO hosts on cables: its plan, and the command line that asks for it or for a bench file.

pub mod arguments;
pub mod plan;
