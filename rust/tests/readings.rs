//! Readings of the written rules through the safe crate.

use cftree::{lent, Feature, Refusal, Settings, Tree};

fn settings() -> Settings {
    Settings::new(1, 24)
        .with_branching(2)
        .with_leaf_cap(4)
        .with_feature(Feature::Spherical)
}

#[test]
fn the_listing() {
    let mut tree = Tree::new(settings().with_max_leaves(2)).unwrap();
    tree.insert_batch(&[0.0, 1.0, 10.0]).unwrap();
    assert_eq!(tree.threshold().to_bits(), 0x3ff0_0000_0000_0004);
    assert_eq!(tree.rebuilds(), 1);
    let entries: Vec<_> = tree
        .entries()
        .map(|e| (e.weight, e.means[0], e.deviations[0]))
        .collect();
    assert_eq!(entries, [(2.0, 0.5, 0.5), (1.0, 10.0, 0.0)]);
    assert_eq!(tree.spread().unwrap(), [0.25, 0.0]);
    assert_eq!(tree.route(&[0.2, 30.0]).unwrap(), [0, 1]);
    assert_eq!(tree.validate(), Ok(()));
}

#[test]
fn one_entry() {
    let mut tree = Tree::new(settings().with_max_leaves(1).with_leaf_cap(1)).unwrap();
    tree.insert(&[0.0]).unwrap();
    tree.insert(&[4.0]).unwrap();
    let entry = tree.entries().next().unwrap();
    assert_eq!(
        (entry.weight, entry.means, entry.deviations),
        (2.0, &[2.0][..], &[8.0][..])
    );
    assert_eq!((tree.head().nodes, tree.head().entries), (1, 1));
}

#[test]
fn large_rows() {
    for (feature, deviation) in [(Feature::Spherical, f64::NAN), (Feature::Diagonal, 0.0)] {
        let mut tree = Tree::new(settings().with_feature(feature)).unwrap();
        tree.insert(&[1e200]).unwrap();
        let entry = tree.entries().next().unwrap();
        assert_eq!(entry.deviations[0].is_nan(), deviation.is_nan());
    }
}

#[test]
fn refusals() {
    let refused = |s| Tree::new(s).err();
    assert_eq!(refused(settings().with_max_leaves(256)), None);
    for outside in [
        settings().with_max_leaves(257),
        settings().with_branching(1),
        settings().with_leaf_cap(17),
        settings().with_threshold(f64::NAN),
        Settings::new(9, 24),
        Settings::new(usize::MAX, usize::MAX),
    ] {
        assert_eq!(refused(outside), Some(Refusal::Settings));
    }
    let mut tree = Tree::new(Settings::new(2, 24)).unwrap();
    let row = Refusal::RowShape { dim: 2, got: 3 };
    let batch = Refusal::BatchShape {
        dim: 2,
        left_over: 1,
    };
    let three = [1.0, 2.0, 3.0];
    assert_eq!(tree.insert(&three), Err(row));
    assert_eq!(tree.insert_batch(&three), Err(batch));
    assert_eq!(tree.refit(&three), Err(batch));
    assert_eq!(tree.route(&three), Err(batch));
    assert_eq!(tree.route(&[1.0, 2.0]), Err(Refusal::Empty));
    assert_eq!(tree.route(&[]), Ok(vec![]));
    assert_eq!(tree.entries().len(), 0);
}

#[test]
fn lent_memory() {
    let head = lent::Head::from(settings());
    let (mut floats, mut links) = (
        vec![0.0; head.floats_needed()],
        vec![0; head.links_needed()],
    );
    let short = floats.len() - 1;
    let outcome = lent::create(head, &mut floats[..short], &mut links);
    assert_eq!((outcome.head, outcome.answer), (head, Err(Refusal::Room)));
    let outcome = lent::create(head, &mut floats, &mut links);
    assert_eq!(outcome.answer, Ok(()));
    let damaged = lent::Head {
        merged: 24,
        ..outcome.head
    };
    assert_eq!(
        lent::validate(damaged, &floats, &links),
        Err(Refusal::Tree { condition: 8 })
    );
    assert_eq!(lent::spread(outcome.head, &floats, &links, &mut []), Ok(()));
}

/// Numbers, values and texts of the refusals.
const TEXTS: &str = "\
1 [] SETTINGS: a size, a choice or the threshold is outside its limits
2 [] ROOM: a lent buffer is shorter than needed
3 [8] TREE: the tree fails condition 8 of the tree check: a merged total below M
4 [4, 3] SHAPE: rows have 4 numbers; this row has 3
4 [4, 3] SHAPE: rows have 4 numbers; 3 are left over
4 [4, 1] SHAPE: rows have 4 numbers; 1 is left over
5 [] EMPTY: no row can be routed in a tree with no entries
6 [] FULL: the tree would count more than 2^53 rows
7 [] OUTPUT: the output is shorter than the numbers to write
";

#[test]
fn messages() {
    let batch = |left_over| Refusal::BatchShape { dim: 4, left_over };
    let told = [
        Refusal::Settings,
        Refusal::Room,
        Refusal::Tree { condition: 8 },
        Refusal::RowShape { dim: 4, got: 3 },
        batch(3),
        batch(1),
        Refusal::Empty,
        Refusal::Full,
        Refusal::Output,
    ]
    .map(|refusal| {
        let values: Vec<u64> = refusal.values().collect();
        let error: &dyn std::error::Error = &refusal;
        format!("{} {values:?} {error}\n", refusal.number())
    });
    assert_eq!(told.concat(), TEXTS);
}
