//! Settings, their numbers in a head, the lengths that they give, and the version.

use cftree::lent::{self, Head};
use cftree::{Distance, Feature, Refusal, Settings};

#[test]
fn defaults() {
    let s = Settings::new(4, 24);
    assert_eq!(
        (s.dim, s.max_leaves, s.branching, s.leaf_cap),
        (4, 24, 8, 8)
    );
    assert_eq!(s.feature, Feature::Diagonal);
    assert_eq!(
        (s.dist, s.abs),
        (Distance::CentroidEuclidean, Distance::CentroidEuclidean)
    );
    assert_eq!(s.threshold.to_bits(), 0);
}

#[test]
fn each_setter_sets_its_own() {
    let s = Settings::new(3, 24)
        .with_branching(2)
        .with_leaf_cap(5)
        .with_max_leaves(7)
        .with_feature(Feature::Spherical)
        .with_dist(Distance::AverageIntercluster)
        .with_abs(Distance::Radius)
        .with_threshold(0.5);
    let head = Head::from(s);
    assert_eq!(
        (head.dim, head.branching, head.leaf_cap, head.max_leaves),
        (3, 2, 5, 7)
    );
    assert_eq!((head.feature, head.dist, head.abs), (0, 2, 5));
    assert_eq!(head.threshold, 0.5);
    assert_eq!(
        (
            head.nodes,
            head.entries,
            head.root,
            head.rebuilds,
            head.merged
        ),
        (1, 0, 0, 0, 0)
    );
    assert_eq!(Settings::try_from(head), Ok(s));
}

/// The library takes the numbers that have a name, and no other.
#[test]
fn choices() {
    let created = |head: Head| {
        let (mut floats, mut links) = (vec![0.0; 100], vec![0; 100]);
        lent::create(head, &mut floats, &mut links).into_result()
    };
    let base = Head::from(Settings::new(1, 2));
    for number in [0, 1, 2, 3, 4, 5, 6, u32::MAX] {
        let feature = Head {
            feature: number,
            ..base
        };
        let dist = Head {
            dist: number,
            ..base
        };
        let abs = Head {
            abs: number,
            ..base
        };
        assert_eq!(
            Feature::try_from(number).map(|f| f as u32),
            created(feature).map(|h| h.feature)
        );
        assert_eq!(
            Distance::try_from(number).map(|d| d as u32),
            created(dist).map(|h| h.dist)
        );
        assert_eq!(
            Settings::try_from(abs).map(|s| s.abs as u32),
            created(abs).map(|h| h.abs)
        );
    }
    assert_eq!(Distance::try_from(6), Err(Refusal::Settings));
    assert_eq!(Distance::try_from(3), Ok(Distance::AverageIntracluster));
}

/// Constant lengths are what the library needs, for all dims, all M and all caps.
#[test]
fn lengths() {
    for m in 1..=256 {
        for (dim, cap) in (1..=8).flat_map(|dim| (2..=16).map(move |cap| (dim, cap))) {
            for (branching, leaf_cap) in [(cap, 1), (2, cap)] {
                let s = Settings::new(dim, m)
                    .with_branching(branching)
                    .with_leaf_cap(leaf_cap);
                let head = Head::from(s);
                assert_ne!(head.floats_needed(), 0);
                assert_eq!(
                    (s.floats_len(), s.links_len()),
                    (head.floats_needed(), head.links_needed())
                );
                assert_eq!(
                    (s.scratch_floats_len(), s.scratch_links_len()),
                    (head.scratch_floats_needed(), head.scratch_links_needed())
                );
            }
        }
    }
    let past = Settings::new(usize::MAX, usize::MAX);
    assert_eq!(
        (past.floats_len(), past.links_len()),
        (usize::MAX, usize::MAX)
    );
}

#[test]
fn versions() {
    assert_eq!(cftree::version(), cftree::VERSION);
    let parts: Vec<u32> = env!("CARGO_PKG_VERSION")
        .split('.')
        .map(|n| n.parse().unwrap())
        .collect();
    assert_eq!(
        cftree::VERSION,
        parts[0] * 10_000 + parts[1] * 100 + parts[2]
    );
}
