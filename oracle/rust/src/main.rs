//! Speaks the protocol of oracle/README.md over the patched Rust: commands in, answers out.

mod calls;
mod choice;
mod leaves;
mod protocol;
mod state;
mod words;

use std::io::Read;
use std::process::ExitCode;

const USAGE: &str = "usage: oracle [leaves | trusting] < INPUT";

fn main() -> ExitCode {
    let args: Vec<String> = std::env::args().skip(1).collect();
    match run(&args) {
        Ok(()) => ExitCode::SUCCESS,
        Err(why) => {
            eprintln!("oracle: {why}");
            ExitCode::from(2)
        }
    }
}

fn run(args: &[String]) -> Result<(), String> {
    let words: Vec<&str> = args.iter().map(String::as_str).collect();
    match words[..] {
        [] => protocol::speak(false),
        ["trusting"] => protocol::speak(true),
        ["leaves"] => {
            let mut input = String::new();
            std::io::stdin()
                .read_to_string(&mut input)
                .map_err(|e| format!("input: {e}"))?;
            leaves::run(&input)
        }
        _ => Err(USAGE.into()),
    }
}
