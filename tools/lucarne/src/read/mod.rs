//! From what the command line names to a program: sheets, ground programs, and lists from elsewhere.

pub mod aspif;
pub mod folder;
pub mod gringo;
pub mod lookup;
pub mod origins;
pub mod reader;
pub mod run;
pub mod simplify;
pub mod sources;
pub mod sums;
pub mod text;
pub mod theirs;
pub mod translate;
pub mod values;
