//! Speaks the protocol of oracle/README.md over the proved library: commands in, answers out.

mod buffers;
mod calls;
mod layout;
mod library;
mod protocol;
mod text;
mod words;

use std::process::ExitCode;

fn main() -> ExitCode {
    let spoken = match std::env::args().nth(1) {
        None => protocol::speak(),
        Some(word) => Err(format!("no such word: {word}; usage: library < COMMANDS")),
    };
    match spoken {
        Ok(()) => ExitCode::SUCCESS,
        Err(why) => {
            eprintln!("library: {why}");
            ExitCode::from(2)
        }
    }
}
