//! Reads the protocol's lines and prints each command's answer.

use crate::calls::{Calls, Settings};
use crate::words::float;
use std::io::{BufRead, Write};

/// The tree that the calls go to; none before `create`, or where the Rust can't hold the text.
type Standing = Option<Box<dyn Calls>>;

/// Answers every command of the input, in order; trusting, whatever the Rust's `validate` says of a loaded tree.
pub fn speak(trusting: bool) -> Result<(), String> {
    std::panic::set_hook(Box::new(|_| {}));
    let mut lines = std::io::stdin().lock().lines().enumerate();
    let mut out = std::io::BufWriter::new(std::io::stdout().lock());
    let mut standing: Standing = None;
    while let Some((at, line)) = lines.next() {
        let line = line.map_err(|e| format!("line {}: {e}", at + 1))?;
        if line.is_empty() || line.starts_with('#') {
            continue;
        }
        let mut block = Vec::new();
        if line == "load" {
            loop {
                let Some((_, next)) = lines.next() else {
                    return Err(format!("line {}: load without end", at + 1));
                };
                let next = next.map_err(|e| format!("line {}: {e}", at + 1))?;
                if next == "end" {
                    break;
                }
                block.push(next);
            }
        }
        let answer = answer(&mut standing, &line, &block, trusting)
            .map_err(|e| format!("line {}: {e}", at + 1))?;
        for line in answer {
            writeln!(out, "{line}").map_err(|e| format!("output: {e}"))?;
        }
    }
    out.flush().map_err(|e| format!("output: {e}"))
}

/// A block between its name and `end`.
fn framed(name: &str, lines: Vec<String>) -> Vec<String> {
    let mut out = vec![name.to_string()];
    out.extend(lines);
    out.push("end".into());
    out
}

fn answer(
    standing: &mut Standing,
    line: &str,
    block: &[String],
    trusting: bool,
) -> Result<Vec<String>, String> {
    let words: Vec<&str> = line.split(' ').collect();
    match words[0] {
        "create" => return create(standing, &words[1..]),
        "load" => return load(standing, block, trusting),
        "reset" => {
            *standing = None;
            return Ok(vec!["ok".into()]);
        }
        "lend" | "spoil" | "raw" => return Ok(vec!["none".into()]),
        _ => {}
    }
    let known = [
        "insert", "batch", "refit", "route", "spread", "validate", "listing", "state", "set",
    ];
    if !known.contains(&words[0]) {
        return Err(format!("no such command: {}", words[0]));
    }
    let Some(tree) = standing else {
        return Ok(vec!["none".into()]);
    };
    if words[0] == "set" {
        let [name, value] = words[1..] else {
            return Err("set NAME VALUE".into());
        };
        return Ok(vec![tree.set(name, value)?]);
    }
    let flat: Vec<f64> = words[1..]
        .iter()
        .map(|w| float(w))
        .collect::<Result<_, _>>()?;
    Ok(match words[0] {
        "insert" => vec![tree.insert(&flat)],
        "batch" => vec![tree.batch(&flat)],
        "refit" => vec![tree.refit(&flat)],
        "route" => vec![tree.route(&flat)],
        "spread" => vec![tree.spread()],
        "validate" => vec![tree.validate()],
        "listing" => framed("listing", tree.listing()),
        _ => framed("state", tree.state()),
    })
}

fn create(standing: &mut Standing, words: &[&str]) -> Result<Vec<String>, String> {
    let Some((threshold, settings)) = words.split_last() else {
        return Err("create SETTINGS THRESHOLD".into());
    };
    let threshold = float(threshold)?;
    *standing = Settings::read(settings)?.map(|s| s.create(threshold));
    Ok(vec![if standing.is_some() { "ok" } else { "none" }.into()])
}

fn load(standing: &mut Standing, block: &[String], trusting: bool) -> Result<Vec<String>, String> {
    let first: Vec<&str> = block
        .first()
        .ok_or("load without settings")?
        .split(' ')
        .collect();
    if first[0] != "settings" {
        return Err("a loaded state begins with `settings`".into());
    }
    *standing = None;
    let Some(settings) = Settings::read(&first[1..])? else {
        return Ok(vec!["none".into()]);
    };
    let mut tree = settings.create(0.0);
    let said = tree.load(&block[1..], trusting)?;
    if said == "ok" {
        *standing = Some(tree);
    }
    Ok(vec![said])
}
