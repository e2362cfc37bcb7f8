//! Reads rows from standard input into a station's tree, lists its entries and prints their spread.
//!
//!     samples/day --plain | cargo run --manifest-path rust/Cargo.toml --example rows
//!
//! A row is a line of numbers parted by blanks or tabs. It prints what include/example.c prints.

use cftree::{Refusal, Settings, Tree};
use std::error::Error;
use std::io::{self, BufRead};
use std::process::ExitCode;

const STATION: Settings = Settings::new(4, 24);

/// The tree of all rows, or the first line that is no row and why.
fn read(input: impl BufRead) -> Result<Tree, Box<dyn Error>> {
    let mut tree = Tree::new(STATION)?;
    for (at, line) in (1..).zip(input.lines()) {
        let line = line?;
        let row: Result<Vec<f64>, _> = line.split_whitespace().map(str::parse).collect();
        let row = row.map_err(|_| format!("line {at}: no row of numbers"))?;
        tree.insert(&row)
            .map_err(|refusal| format!("line {at}: refused, {refusal}"))?;
    }
    Ok(tree)
}

fn spaced(numbers: &[f64]) -> String {
    numbers.iter().map(|x| format!(" {x:.4}")).collect()
}

/// Each entry: its number, how many rows it stands for, their mean, and the spread of each channel.
fn print(tree: &Tree) -> Result<(), Refusal> {
    let spread = tree.spread()?;
    let (entries, threshold) = (tree.num_leaves(), tree.threshold());
    println!("{entries} entries, threshold {threshold:.4}");
    for (i, (entry, spread)) in tree.into_iter().zip(spread.chunks(tree.dim())).enumerate() {
        let (mean, spread) = (spaced(entry.means), spaced(spread));
        println!("{i}: {:.0} rows, mean{mean}, spread{spread}", entry.weight);
    }
    Ok(())
}

fn main() -> ExitCode {
    let done = read(io::stdin().lock()).and_then(|tree| Ok(print(&tree)?));
    match done {
        Ok(()) => ExitCode::SUCCESS,
        Err(why) => {
            eprintln!("{why}");
            ExitCode::FAILURE
        }
    }
}
