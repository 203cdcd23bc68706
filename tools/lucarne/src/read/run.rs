//! Other programs: text in, text out.

use crate::fault::Fault;
use std::io::{ErrorKind, Read, Write};
use std::process::{Child, Command, Stdio};
use std::thread::{self, JoinHandle};

/// So much every empty pipe takes at once, whoever reads it: no thread is needed to write it.
const PIPE_HOLDS: usize = 4096;

pub struct Output {
    pub is_fine: bool,
    /// Whether it was ended, since it wrote more than was wanted.
    pub is_cut: bool,
    pub text: String,
    pub errors: String,
}

/// Runs a program with this text as its input. `missing` says what it is wanted for.
pub fn run(program: &str, options: &[&str], input: &str, missing: &str) -> Result<Output, Fault> {
    run_at_most(program, options, input, missing, u64::MAX)
}

/// The same, ended when it has written so many bytes.
pub fn run_at_most(program: &str, options: &[&str], input: &str, missing: &str, most: u64) -> Result<Output, Fault> {
    let mut child = start(program, options, missing)?;
    let pipe = child.stdin.take();
    // A program that stops early closes its input: what it says then stands in its output.
    let write = |text: &str| drop(pipe.map(|mut pipe| pipe.write_all(text.as_bytes())));
    let writer = if input.len() <= PIPE_HOLDS {
        write(input);
        None
    } else {
        let text = input.to_string();
        Some(thread::spawn(move || write(&text)))
    };
    let errors = child.stderr.take();
    let reader = thread::spawn(move || read_up_to(errors, u64::MAX).0);
    let (text, is_read) = read_up_to(child.stdout.take(), most);
    let is_cut = text.len() as u64 >= most;
    if is_cut {
        drop(child.kill());
    }
    let status = child.wait().ok().filter(|_| is_read).ok_or_else(|| Fault::trouble(format!("{} cannot be read", program)))?;
    drop(writer.map(JoinHandle::join));
    Ok(Output {
        is_fine: status.success(),
        is_cut,
        text: String::from_utf8_lossy(&text).into_owned(),
        errors: String::from_utf8_lossy(&reader.join().unwrap_or_default()).into_owned(),
    })
}

fn start(program: &str, options: &[&str], missing: &str) -> Result<Child, Fault> {
    let mut command = Command::new(program);
    command.args(options).stdin(Stdio::piped()).stdout(Stdio::piped()).stderr(Stdio::piped());
    command.spawn().map_err(|error| match error.kind() {
        ErrorKind::NotFound => Fault::trouble(missing).hint("on Debian: apt-get install gringo"),
        _ => Fault::trouble(format!("{} cannot be started: {}", program, error)),
    })
}

/// What a pipe holds, up to so many bytes, and whether it could be read.
fn read_up_to(pipe: Option<impl Read>, most: u64) -> (Vec<u8>, bool) {
    let mut bytes = Vec::new();
    let is_read = pipe.map_or(true, |pipe| pipe.take(most).read_to_end(&mut bytes).is_ok());
    (bytes, is_read)
}
