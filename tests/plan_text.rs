//! plan_text: turns a plan's readable text into bytes and back, from standard input to standard
//! output.

mod encode;
mod text;

use std::io::{self, Read, Write};

fn main() {
    let mut input = Vec::new();
    io::stdin().read_to_end(&mut input).expect("standard input cannot be read");
    let output = match std::env::args().nth(1).as_deref() {
        Some("to-bytes") => text::to_bytes(&String::from_utf8_lossy(&input)).unwrap_or_else(|fault| stop(&fault)),
        Some("to-text") => text::to_text(&input).into_bytes(),
        _ => stop("usage: plan_text to-bytes < text > plan, or plan_text to-text < plan > text"),
    };
    io::stdout().write_all(&output).expect("standard output cannot be written");
}

fn stop(message: &str) -> ! {
    eprintln!("{}", message);
    std::process::exit(2)
}
