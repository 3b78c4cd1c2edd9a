//! The root span and the node count against a plain model, for every kind of argument inside and outside the limits.

use crate::random::{first_seed, Random};
use crate::trees::{self, sum_over_spans, within_limits, Trees};
use pit_host::{node_count, root_span};

/// Numbers at which a limit, a width or a sum can go wrong, each tried in every place.
pub const EDGES: [u64; 30] = [
    0,
    1,
    2,
    31,
    32,
    62,
    63,
    64,
    65,
    127,
    128,
    2048,
    4032,
    4094,
    4095,
    4096,
    4097,
    4160,
    8192,
    (1 << 32) - 1,
    1 << 32,
    (1 << 32) + 1,
    (1 << 63) - 1,
    1 << 63,
    (1 << 63) + 1,
    u64::MAX - 4096,
    u64::MAX - 64,
    u64::MAX - 63,
    u64::MAX - 1,
    u64::MAX,
];

/// Compares the node count of one update with the model's.
fn compare(trees: &Trees, f: u64, n: u64, size: u64) {
    let (got, wanted) = (node_count(f, n, size), trees.node_count(f, n, size));
    assert!(
        got == wanted,
        "node_count({f}, {n}, {size}) is {got}, and the tree has {wanted}"
    );
}

/// An argument: an edge, one near `most`, such a one with high bits, or any number of any length in bits.
pub fn argument(random: &mut Random, most: u64) -> u64 {
    match random.below(8) {
        0 => random.pick(&EDGES),
        1..=4 => random.below(most + 3),
        5 => random.below(most + 1) + (1 << (13 + random.below(51))),
        _ => random.next() >> random.below(64),
    }
}

#[test]
fn the_model_counts_as_the_paper_sums() {
    let trees = Trees::new();
    for size in 1..=72 {
        for f in 0..size {
            for n in 1..=(size - f).min(64) {
                let counted = trees.node_count(f, n, size);
                assert_eq!(
                    counted,
                    trees.node_count_of_all(f, n, size),
                    "({f}, {n}, {size})"
                );
                assert_eq!(counted, sum_over_spans(f, n, size), "({f}, {n}, {size})");
            }
        }
    }
}

#[test]
fn root_span_of_every_size() {
    for size in 0..=4100 {
        assert_eq!(root_span(size), trees::root_span(size), "root_span({size})");
    }
}

#[test]
fn root_span_of_edges_and_random_numbers() {
    for size in EDGES {
        assert_eq!(root_span(size), trees::root_span(size), "root_span({size})");
    }
    for bit in 0..64 {
        for size in [(1u64 << bit) - 1, 1 << bit, (1 << bit) + 1] {
            assert_eq!(root_span(size), trees::root_span(size), "root_span({size})");
        }
    }
    let mut random = Random::new(first_seed("root_span_of_edges_and_random_numbers"));
    for _ in 0..200_000 {
        let size = argument(&mut random, 4096);
        assert_eq!(root_span(size), trees::root_span(size), "root_span({size})");
    }
}

#[test]
fn the_proved_node_counts() {
    let cases = [
        (0, 4, 4, 7),
        (1, 2, 4, 5),
        (4, 1, 5, 4),
        (0, 1, 1, 1),
        (1, 1, 2, 2),
        (31, 2, 64, 13),
        (0, 64, 64, 127),
        (4095, 1, 4096, 13),
    ];
    for (f, n, size, count) in cases {
        assert_eq!(
            node_count(f, n, size),
            count,
            "node_count({f}, {n}, {size})"
        );
    }
}

#[test]
fn sizes_of_4096_and_4097_pages() {
    assert_eq!((root_span(4096), root_span(4097)), (4096, 0));
    // the last page, the last 64 pages, the first page
    assert_eq!(
        (
            node_count(4095, 1, 4096),
            node_count(4096, 1, 4097),
            node_count(4095, 1, 4097)
        ),
        (13, 0, 0)
    );
    assert_eq!(
        (node_count(4032, 64, 4096), node_count(4033, 64, 4097)),
        (64 + 32 + 16 + 8 + 4 + 2 + 7, 0)
    );
    assert_eq!((node_count(0, 1, 4096), node_count(0, 1, 4097)), (13, 0));
    // within 4,096 pages, and one page past them
    assert_eq!(
        (
            node_count(4095, 2, 4096),
            node_count(4096, 1, 4096),
            node_count(4033, 64, 4096)
        ),
        (0, 0, 0)
    );
}

#[test]
fn updates_of_0_1_64_and_65_pages() {
    for size in [1, 64, 65, 128, 4096] {
        assert_eq!(node_count(0, 0, size), 0, "no page, size {size}");
        assert_eq!(node_count(0, 65, size), 0, "65 pages, size {size}");
    }
    assert_eq!(
        (
            node_count(0, 1, 64),
            node_count(0, 64, 64),
            node_count(0, 64, 128)
        ),
        (7, 127, 128)
    );
    assert_eq!(
        (
            node_count(0, 64, 63),
            node_count(1, 64, 64),
            node_count(64, 64, 128)
        ),
        (0, 0, 128)
    );
}

#[test]
fn every_update_of_small_blobs_and_just_outside() {
    let trees = Trees::new();
    for size in 0..=130 {
        for f in 0..=size + 1 {
            for n in 0..=66 {
                compare(&trees, f, n, size);
            }
        }
    }
}

#[test]
fn every_update_of_the_largest_blob() {
    let trees = Trees::new();
    for f in 0..=4097 {
        for n in 0..=65 {
            compare(&trees, f, n, 4096);
        }
    }
}

#[test]
fn updates_at_the_ends_of_every_size() {
    let trees = Trees::new();
    for size in 0..=4100u64 {
        for n in [0, 1, 2, 3, 32, 63, 64, 65] {
            for f in [
                0,
                1,
                size / 2,
                size.saturating_sub(n + 1),
                size.saturating_sub(n),
                size + 1 - n.min(size),
                size,
            ] {
                compare(&trees, f, n, size);
            }
        }
    }
}

#[test]
fn updates_around_every_power_of_two() {
    let trees = Trees::new();
    for power in [256, 512, 1024, 2048, 4096u64] {
        for size in [power - 1, power, power + 1] {
            let near_an_edge = |f: &u64| {
                f % 37 == 1 || *f < 3 || f.abs_diff(power / 2) < 67 || size.abs_diff(*f) < 67
            };
            for f in (0..=size).filter(near_an_edge) {
                for n in 1..=64 {
                    compare(&trees, f, n, size);
                }
            }
        }
    }
}

#[test]
fn every_combination_of_edges() {
    let trees = Trees::new();
    for f in EDGES {
        for n in EDGES {
            for size in EDGES {
                compare(&trees, f, n, size);
            }
        }
    }
}

#[test]
fn random_updates() {
    let trees = Trees::new();
    let mut random = Random::new(first_seed("random_updates"));
    let (mut inside, mut outside) = (0, 0);
    for _ in 0..300_000 {
        let (f, n, size) = (
            argument(&mut random, 4096),
            argument(&mut random, 64),
            argument(&mut random, 4096),
        );
        compare(&trees, f, n, size);
        if within_limits(f, n, size) {
            inside += 1
        } else {
            outside += 1
        }
    }
    assert!(
        inside > 10_000 && outside > 10_000,
        "{inside} updates inside the limits, {outside} outside"
    );
}
