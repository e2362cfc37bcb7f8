//! What a `Tree` does beside the library's calls: reads itself, is taken apart and put together, and is shown.

use cftree::{Distance, Feature, Refusal, Settings, Tree};

/// Rows 0, 1 and 10 in two entries, (2, 0.5, 0.5) and (1, 10, 0).
fn small() -> Tree {
    let mut tree = Tree::new(Settings::new(1, 2)).unwrap();
    tree.insert_batch(&[0.0, 1.0, 10.0]).unwrap();
    tree
}

/// Rows enough for rebuilds, splits and a root above leaves.
fn large(feature: Feature) -> Tree {
    let settings = Settings::new(2, 24).with_branching(2).with_leaf_cap(2);
    let mut tree = Tree::new(settings.with_feature(feature)).unwrap();
    for i in 0..500u32 {
        let x = f64::from(i * 7919 % 1000);
        tree.insert(&[x, -x / 3.0]).unwrap();
    }
    assert!(tree.rebuilds() > 0 && tree.head().nodes > 3 && tree.head().root != 0);
    tree
}

#[test]
fn counts() {
    let mut tree = Tree::new(Settings::new(3, 24)).unwrap();
    assert_eq!((tree.dim(), tree.num_leaves(), tree.rows()), (3, 0, 0));
    assert!(tree.is_empty());
    tree.insert(&[1.0, 2.0, 3.0]).unwrap();
    tree.insert(&[1.0, 2.0, 3.0]).unwrap();
    tree.insert(&[f64::NAN, 2.0, 3.0]).unwrap();
    assert_eq!((tree.num_leaves(), tree.rows()), (2, 3));
    assert!(!tree.is_empty());
    assert_eq!(large(Feature::Diagonal).rows(), 500);
}

#[test]
fn the_root_sums_up() {
    let tree = small();
    let all = tree.summary();
    assert_eq!(all.weight, 3.0);
    assert!((all.means[0] - 11.0 / 3.0).abs() < 1e-12);
    // 0, 1 and 10 from their mean, squared
    assert!((all.deviations[0] - 182.0 / 3.0).abs() < 1e-12);
    for feature in [Feature::Spherical, Feature::Diagonal] {
        let tree = large(feature);
        let all = tree.summary();
        let of_entries = |channel: usize| -> f64 {
            tree.entries()
                .map(|e| e.weight * e.means[channel])
                .sum::<f64>()
        };
        assert_eq!(all.means.len(), 2);
        for (channel, mean) in all.means.iter().enumerate() {
            assert!((mean - of_entries(channel) / 500.0).abs() < 1e-9);
        }
        let each = if feature == Feature::Diagonal { 2 } else { 1 };
        assert_eq!(all.deviations.len(), each);
    }
    assert_eq!(
        Tree::new(Settings::new(1, 1)).unwrap().summary().weight,
        0.0
    );
}

#[test]
fn a_tree_is_its_entries() {
    let tree = large(Feature::Diagonal);
    let mut rows = 0.0;
    let mut seen = 0;
    for entry in &tree {
        rows += entry.weight;
        seen += 1;
    }
    assert_eq!((seen, rows), (tree.num_leaves(), 500.0));
    let mut entries = tree.entries();
    assert_eq!(entries.len(), seen);
    // the library's own places of the same entries
    let (head, floats, links) = tree.clone().into_parts();
    let listed = cftree::lent::entries(head, &floats, &links).unwrap();
    assert_eq!(entries.places(), listed.places());
    assert!(tree.entries().eq(listed));
    entries.by_ref().for_each(drop);
    assert_eq!((entries.len(), entries.next()), (0, None));
}

#[test]
fn one_row_routed() {
    let tree = small();
    assert_eq!(tree.route_row(&[0.2]), Ok(0));
    assert_eq!(tree.route_row(&[30.0]), Ok(1));
    // two rows or none are no row, though they are a batch
    let shape = |got| Err(Refusal::RowShape { dim: 1, got });
    assert_eq!(tree.route_row(&[0.2, 30.0]), shape(2));
    assert_eq!(tree.route_row(&[]), shape(0));
    let empty = Tree::new(Settings::new(1, 2)).unwrap();
    assert_eq!(empty.route_row(&[0.2]), Err(Refusal::Empty));
    assert_eq!(empty.route_row(&[]), shape(0));
    let tree = large(Feature::Spherical);
    let rows: Vec<f64> = (0..60).map(|i| f64::from(i * 37 % 900)).collect();
    let each: Vec<u32> = rows
        .chunks(2)
        .map(|row| tree.route_row(row).unwrap())
        .collect();
    assert_eq!(each, tree.route(&rows).unwrap());
}

#[test]
fn taken_apart_and_put_together() {
    let (mut tree, more) = (large(Feature::Diagonal), [3.0, 4.0, 500.0, -9.0]);
    let (head, floats, links) = tree.clone().into_parts();
    let mut again = Tree::from_parts(head, floats, links).unwrap();
    tree.insert_batch(&more).unwrap();
    again.insert_batch(&more).unwrap();
    let bits = |tree: Tree| {
        let (head, floats, links) = tree.into_parts();
        let floats: Vec<u64> = floats.iter().map(|x| x.to_bits()).collect();
        (head, floats, links)
    };
    assert!(bits(tree) == bits(again));
}

#[test]
fn damaged_parts_are_refused() {
    let parts = || small().into_parts();
    let condition = |condition| Some(Refusal::Tree { condition });
    let (mut head, floats, links) = parts();
    head.root = 1;
    assert_eq!(Tree::from_parts(head, floats, links).err(), condition(2));
    let (head, mut floats, links) = parts();
    floats[0] += 1.0;
    assert_eq!(Tree::from_parts(head, floats, links).err(), condition(7));
    let (head, mut floats, links) = parts();
    floats.pop();
    assert_eq!(
        Tree::from_parts(head, floats, links).err(),
        Some(Refusal::Room)
    );
    let (mut head, floats, links) = parts();
    head.feature = 2;
    assert_eq!(
        Tree::from_parts(head, floats, links).err(),
        Some(Refusal::Settings)
    );
}

#[test]
fn shown_short() {
    let settings = Settings::new(4, 256)
        .with_abs(Distance::Radius)
        .with_threshold(0.25);
    let mut tree = Tree::new(settings).unwrap();
    tree.insert_batch(&[7.0; 12]).unwrap();
    assert_eq!(
        format!("{tree:?}"),
        "Tree { settings: Settings { dim: 4, branching: 8, leaf_cap: 8, max_leaves: 256, feature: Diagonal, \
         dist: CentroidEuclidean, abs: Radius, threshold: 0.25 }, entries: 1, rebuilds: 0, rows: 3, .. }"
    );
    let tree = small();
    let mut entries = tree.entries();
    entries.next();
    assert_eq!(
        format!("{entries:?}"),
        "[Entry { weight: 1.0, means: [10.0], deviations: [0.0] }]"
    );
}
