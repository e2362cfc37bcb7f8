//! Reads the protocol's lines and prints each command's answer.

use crate::library::Library;
use crate::text::settings_from;
use crate::words::{float, number};
use cftree::lent;
use std::io::{BufRead, Write};

/// Answers every command of the input, in order.
pub fn speak() -> Result<(), String> {
    let mut lines = std::io::stdin().lock().lines().enumerate();
    let mut out = std::io::BufWriter::new(std::io::stdout().lock());
    let mut library = Library::default();
    while let Some((at, line)) = lines.next() {
        let failed = |why: String| format!("line {}: {why}", at + 1);
        let line = line.map_err(|e| failed(e.to_string()))?;
        if line.is_empty() || line.starts_with('#') {
            continue;
        }
        let mut block = Vec::new();
        if line == "load" {
            loop {
                let (_, next) = lines
                    .next()
                    .ok_or_else(|| failed("load without end".into()))?;
                let next = next.map_err(|e| failed(e.to_string()))?;
                if next == "end" {
                    break;
                }
                block.push(next);
            }
        }
        for line in answer(&mut library, &line, &block).map_err(failed)? {
            writeln!(out, "{line}").map_err(|e| format!("output: {e}"))?;
        }
    }
    out.flush().map_err(|e| format!("output: {e}"))
}

/// A block between its name and `end`.
fn framed(name: &str, lines: Vec<String>) -> Vec<String> {
    let mut out = vec![name.to_string()];
    out.extend(lines);
    out.push("end".into());
    out
}

fn answer(library: &mut Library, line: &str, block: &[String]) -> Result<Vec<String>, String> {
    let words: Vec<&str> = line.split(' ').collect();
    let (name, rest) = (words[0], &words[1..]);
    let known = [
        "reset", "create", "load", "lend", "raw", "insert", "batch", "refit", "route", "spread",
        "validate", "listing", "state", "set", "spoil",
    ];
    if !known.contains(&name) {
        return Err(format!("no such command: {name}"));
    }
    let ok = || vec!["ok".to_string()];
    match name {
        "reset" => {
            *library = Library::default();
            return Ok(ok());
        }
        "create" => {
            let (threshold, settings) = rest.split_last().ok_or("create SETTINGS THRESHOLD")?;
            return Ok(vec![
                library.create(settings_from(settings)?, float(threshold)?)
            ]);
        }
        "load" => return library.load(block).map(|()| ok()),
        "lend" => return library.lend(rest).map(|()| ok()),
        "raw" => return Ok(framed("raw", library.raw())),
        _ => {}
    }
    if library.tree.is_none() {
        return Ok(vec!["none".into()]);
    }
    match (name, rest) {
        ("state", _) => return Ok(framed("state", library.state()?)),
        ("listing", _) => return Ok(framed("listing", library.listing()?)),
        ("set", [field, value]) => return library.set(field, value).map(|()| ok()),
        ("spoil", [seed]) => return library.spoil(number(seed)?).map(|()| ok()),
        ("set" | "spoil", _) => return Err("set NAME VALUE, spoil SEED".into()),
        _ => {}
    }
    let rows: Vec<f64> = rest.iter().map(|w| float(w)).collect::<Result<_, _>>()?;
    Ok(vec![match name {
        "insert" => library.change(lent::insert_row, &rows)?,
        "batch" => library.change(lent::insert_batch, &rows)?,
        "refit" => library.change(lent::refit, &rows)?,
        "route" => library.route(&rows)?,
        "spread" => library.spread()?,
        _ => library.validate()?,
    }])
}
