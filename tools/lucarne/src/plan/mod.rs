//! From a program to its list: units and links, bytes, the proved library, and what it says in words.

pub mod bytes;
pub mod circles;
pub mod file;
pub mod founded;
pub mod group;
pub mod held;
pub mod layout;
pub mod library;
pub mod limits;
pub mod program;
pub mod reason;
pub mod told;
pub mod unheard;
pub mod walk;
pub mod words;
