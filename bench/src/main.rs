//! Rows per second of the library and of the Rust original, and the ratio of their times.

mod check;
mod rows;
mod shapes;
mod sides;

use betula::distance::{CFDistance, CentroidEuclidean, Radius, VarianceIncrease};
use betula::feature::{ClusterFeature, Diagonal, Spherical};
use cftree::{Distance, Feature, Settings};
use rows::Rows;
use sides::{Ours, Side, Theirs};
use std::hint::black_box;
use std::time::Instant;

const RUNS: usize = 5;
const DIM: usize = 4;
const STREAM: usize = 20_000;
const BATCH: usize = 1_000;
const OTHER: usize = 10_000;

/// One measurement: seconds of each run.
#[derive(Default)]
struct Times(Vec<f64>);

impl Times {
    fn best(&self) -> f64 {
        self.0.iter().copied().fold(f64::INFINITY, f64::min)
    }

    /// How much longer the slowest run took than the best, in parts of a hundred.
    fn spread(&self) -> f64 {
        100.0 * (self.0.iter().copied().fold(0.0, f64::max) / self.best() - 1.0)
    }

    /// Each run's time in times of the other's: the middle one, the least and the most.
    fn ratios(&self, other: &Times) -> (f64, f64, f64) {
        let mut all: Vec<f64> = self.0.iter().zip(&other.0).map(|(a, b)| a / b).collect();
        all.sort_by(f64::total_cmp);
        (all[all.len() / 2], all[0], all[all.len() - 1])
    }
}

fn seconds(work: impl FnOnce()) -> f64 {
    let start = Instant::now();
    work();
    start.elapsed().as_secs_f64()
}

fn line(name: &str, rows: usize, ours: &Times, theirs: &Times) {
    let (middle, least, most) = ours.ratios(theirs);
    println!(
        "| {name} | {:.0} | {:.0} | {middle:.2} | {least:.2} to {most:.2} |",
        rows as f64 / ours.best(),
        rows as f64 / theirs.best(),
    );
}

/// What is measured: in each round a new tree is made ready, and its work alone is timed.
struct Task<'a> {
    name: String,
    rows: usize,
    rounds: usize,
    ready: &'a dyn Fn(&mut dyn Side),
    work: &'a dyn Fn(usize, &mut dyn Side) -> Vec<usize>,
}

/// The same work on both sides in turn, and that both end with the same numbers.
fn measured(make: [&dyn Fn() -> Box<dyn Side>; 2], task: Task) {
    let mut times = [Times::default(), Times::default()];
    for _ in 0..RUNS {
        let mut ends = [Vec::new(), Vec::new()];
        for side in 0..2 {
            let mut spent = 0.0;
            for round in 0..task.rounds {
                let mut tree = make[side]();
                (task.ready)(tree.as_mut());
                let mut found = Vec::new();
                spent += seconds(|| found = black_box((task.work)(round, tree.as_mut())));
                ends[side].push((found, tree.print()));
            }
            times[side].0.push(spent);
        }
        assert!(ends[0] == ends[1], "{}: the two trees differ", task.name);
    }
    line(&task.name, task.rows, &times[0], &times[1]);
}

fn batches(tree: &mut dyn Side, flat: &[f64]) {
    for batch in flat.chunks(BATCH * DIM) {
        tree.batch(batch);
    }
}

fn pair<C, D, A>(name: &str, s: Settings, dist: fn() -> D, abs: fn() -> A)
where
    C: ClusterFeature<f64> + 'static,
    D: CFDistance<f64, C> + 'static,
    A: CFDistance<f64, C> + 'static,
{
    let flat = Rows::new(1).flat(DIM, STREAM);
    let other = Rows::new(2).flat(DIM, OTHER);
    let ours = |m: usize| move || Box::new(Ours::new(s.with_max_leaves(m))) as Box<dyn Side>;
    let theirs = move |m: usize| {
        move || {
            Box::new(Theirs::<C, D, A>::new(s.with_max_leaves(m), dist(), abs())) as Box<dyn Side>
        }
    };
    let full = |tree: &mut dyn Side| batches(tree, &flat);
    let none = |_: &mut dyn Side| ();
    let alone = |round: usize, t: &mut dyn Side| {
        t.batch(&flat[round * BATCH * DIM..][..BATCH * DIM]);
        Vec::new()
    };
    let stream = |_: usize, t: &mut dyn Side| {
        batches(t, &flat);
        Vec::new()
    };
    let single = |_: usize, t: &mut dyn Side| {
        flat.chunks_exact(DIM).for_each(|row| t.insert(row));
        Vec::new()
    };
    let route = |_: usize, t: &mut dyn Side| t.routes(&other);
    let refit = |_: usize, t: &mut dyn Side| {
        t.refit(&other);
        Vec::new()
    };
    for m in [256, 24] {
        let task = |what: &str, rows, rounds, ready, work| Task {
            name: format!("{name}, M {m}, {what}"),
            rows,
            rounds,
            ready,
            work,
        };
        let make: [&dyn Fn() -> Box<dyn Side>; 2] = [&ours(m), &theirs(m)];
        let cleared = STREAM / BATCH;
        measured(
            make,
            task("a batch, arenas cleared", STREAM, cleared, &none, &alone),
        );
        measured(
            make,
            task("twenty batches on end", STREAM, 1, &none, &stream),
        );
        if m == 24 {
            measured(make, task("single rows", STREAM, 1, &none, &single));
        }
        measured(make, task("routing", OTHER, 1, &full, &route));
        measured(make, task("refit", OTHER, 1, &full, &refit));
    }
}

/// Microseconds of a call that changes nothing, on a full tree: the tree check and the zeroing, which every call pays once.
fn idle(s: Settings) {
    let flat = Rows::new(1).flat(DIM, STREAM);
    for m in [24, 256] {
        let mut tree = Ours::new(s.with_max_leaves(m));
        batches(&mut tree, &flat);
        let mut times = Times::default();
        for _ in 0..RUNS {
            times
                .0
                .push(seconds(|| (0..1000).for_each(|_| tree.batch(&[]))) * 1000.0);
        }
        println!(
            "a batch of no rows, M {m}: {:.2} microseconds, slowest {:.0} % more",
            times.best(),
            times.spread()
        );
    }
}

fn settings(feature: Feature, dist: Distance, abs: Distance) -> Settings {
    Settings::new(DIM, 256)
        .with_feature(feature)
        .with_dist(dist)
        .with_abs(abs)
}

/// The library's insert alone, for a profiler: single rows at M 24, batches above.
fn insert(m: usize, runs: usize) {
    let s = settings(
        Feature::Spherical,
        Distance::CentroidEuclidean,
        Distance::CentroidEuclidean,
    );
    let flat = Rows::new(1).flat(DIM, STREAM);
    for _ in 0..runs {
        let mut tree = Ours::new(s.with_max_leaves(m));
        if m <= 24 {
            flat.chunks_exact(DIM).for_each(|row| tree.insert(row));
        } else {
            batches(&mut tree, &flat);
        }
        black_box(tree.print());
    }
}

fn main() {
    let words: Vec<String> = std::env::args().skip(1).collect();
    let words: Vec<&str> = words.iter().map(String::as_str).collect();
    let number = |w: &str| w.parse().expect("a number");
    match words[..] {
        [] => {}
        ["insert", m, runs] => return insert(number(m), number(runs)),
        ["check"] => return check::table(),
        ["check", line, times] => return check::repeat(number(line), number(times)),
        _ => panic!("usage: bench [insert M RUNS | check [LINE TIMES]]"),
    }
    println!("| what | ours, rows/s | Rust, rows/s | time, ours/Rust | over {RUNS} runs |");
    println!("|---|---|---|---|---|");
    use Distance as D;
    let near = |f| settings(f, D::CentroidEuclidean, D::CentroidEuclidean);
    let wide = |f| settings(f, D::VarianceIncrease, D::Radius);
    pair::<Spherical<f64>, _, _>(
        "Spherical, euclidean euclidean",
        near(Feature::Spherical),
        || CentroidEuclidean,
        || CentroidEuclidean,
    );
    pair::<Diagonal<f64>, _, _>(
        "Diagonal, euclidean euclidean",
        near(Feature::Diagonal),
        || CentroidEuclidean,
        || CentroidEuclidean,
    );
    pair::<Spherical<f64>, _, _>(
        "Spherical, increase radius",
        wide(Feature::Spherical),
        || VarianceIncrease,
        || Radius,
    );
    pair::<Diagonal<f64>, _, _>(
        "Diagonal, increase radius",
        wide(Feature::Diagonal),
        || VarianceIncrease,
        || Radius,
    );
    println!();
    idle(near(Feature::Spherical));
}
