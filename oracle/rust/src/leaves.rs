//! Answers of the leaf functions: reads cases `op feature dim a b`, prints them with the result.

use crate::choice::CHOICES;
use crate::words::{float, hex, hex_number};
use betula::distance::CFDistance;
use betula::feature::access::Parts;
use betula::feature::{Diagonal, Spherical};

/// Prints each case followed by the Rust's answer.
pub fn run(input: &str) -> Result<(), String> {
    for (at, line) in input.lines().enumerate() {
        let result = case(line).map_err(|e| format!("case {}: {e}", at + 1))?;
        let words: Vec<String> = result.into_iter().map(hex).collect();
        println!("{line} {}", words.join(" "));
    }
    Ok(())
}

fn case(line: &str) -> Result<Vec<f64>, String> {
    let words: Vec<&str> = line.split(' ').collect();
    if words.len() < 3 {
        return Err("op, feature and dim are missing".into());
    }
    let (op, feature) = (hex_number(words[0])?, hex_number(words[1])?);
    let dim = hex_number(words[2])? as usize;
    let floats: Vec<f64> = words[3..]
        .iter()
        .map(|w| float(w))
        .collect::<Result<_, _>>()?;
    let stride = 1 + 2 * dim;
    if !(1..=8).contains(&dim) || floats.len() != 2 * stride || feature > 1 || op > 14 {
        return Err("op, feature, dim or length out of range".into());
    }
    let (a, b) = floats.split_at(stride);
    Ok(match feature {
        0 => answer::<Spherical<f64>>(op as usize, dim, a, b),
        _ => answer::<Diagonal<f64>>(op as usize, dim, a, b),
    })
}

fn summary<C: Parts>(dim: usize, words: &[f64]) -> C {
    let last = 1 + dim + C::count_of_deviations(dim);
    C::from_parts(
        words[0],
        words[1..=dim].to_vec(),
        words[1 + dim..last].to_vec(),
    )
}

fn flat<C: Parts>(dim: usize, c: &C) -> Vec<f64> {
    let mut out = vec![c.weight()];
    out.extend_from_slice(c.mean());
    out.extend(c.deviations());
    out.resize(1 + 2 * dim, 0.0);
    out
}

fn answer<C: Parts>(op: usize, dim: usize, a: &[f64], b: &[f64]) -> Vec<f64> {
    let (mut one, other): (C, C) = (summary(dim, a), summary(dim, b));
    match op {
        0 => {
            one.push(other.mean(), 1.0);
            flat(dim, &one)
        }
        1 => {
            one.merge(&other);
            flat(dim, &one)
        }
        2..=7 => vec![CHOICES[op - 2].1.point(&one, other.mean())],
        8..=13 => vec![CHOICES[op - 8].1.between(&one, &other)],
        _ => vec![CHOICES[0].1.merge_cost(&one, &other)],
    }
}
