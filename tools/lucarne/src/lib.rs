//! lucarne: settled positions of a relay group by name, over the proved library. README.md tells the modules. The program is `main.rs`; the tests
//! link this as a library.

pub mod commands;
pub mod fault;
pub mod near;
pub mod plan;
pub mod read;
pub mod show;

/// For the tests, which read JSON too.
pub use serde_json;

pub const VERSION: &str = env!("CARGO_PKG_VERSION"); // that of include/lucarnecress.h too
