//! Sheets as text: tokens with their spots, statements and directives, and the reader for ground text.

pub mod directives;
pub mod ground;
pub mod shapes;
pub mod statements;
pub mod terms;
pub mod tokens;
pub mod traps;
