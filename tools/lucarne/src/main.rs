//! The program `lucarne`: a command line to its exit status.

use lucarne::commands;
use lucarne::fault::{status, Fault};
use lucarne::show::output;

fn main() {
    std::panic::set_hook(Box::new(|panic| output::say(&Fault::of_the_tool(panic.to_string()).to_string())));
    let done = std::panic::catch_unwind(|| commands::run(std::env::args_os().skip(1).collect()));
    std::process::exit(done.unwrap_or(status::TROUBLE));
}
