//! The worst node count against a plain model: every blob size and update that it is asked for, over every first page, and every
//! kind of argument outside.

use crate::random::{first_seed, Random};
use crate::sizing::{argument, EDGES};
use crate::trees::{self, Trees};
use pit_host::worst_node_count;

/// Every blob size that it is asked for: 2, 4, 8 .. 4,096 pages.
pub fn sizes() -> impl Iterator<Item = u64> {
    (1..=12).map(|height| 1 << height)
}

/// Every blob size with every number of pages that it is asked for.
pub fn asked() -> impl Iterator<Item = (u64, u64)> {
    sizes().flat_map(|r| (1..=64.min(r / 2)).map(move |n| (r, n)))
}

/// 1 plus the sum, over q = 1, 2 .. r/2, of floor((n+q-2)/q) + 1, as the request has it.
fn formula(r: u64, n: u64) -> u64 {
    let spans = sizes().map(|size| size / 2).filter(|q| *q <= r / 2);
    1 + spans.map(|q| (n + q - 2) / q + 1).sum::<u64>()
}

/// Compares the worst count with the model's, which tries every first page; gives it.
fn compare(r: u64, n: u64) -> u64 {
    let (got, wanted) = (worst_node_count(r, n), trees::worst(r, n));
    assert!(
        got == wanted,
        "worst_node_count({r}, {n}) is {got}, and of every first page the most is {wanted}"
    );
    wanted
}

#[test]
fn the_worst_counts_by_hand() {
    let cases = [
        (2, 1, 2),
        (4, 1, 3),
        (4, 2, 5),
        (8, 4, 10),
        (64, 2, 13),
        (64, 32, 69),
        (128, 64, 134),
        (4096, 1, 13),
        (4096, 64, 144),
    ];
    for (r, n, count) in cases {
        assert_eq!(worst_node_count(r, n), count, "worst_node_count({r}, {n})");
    }
}

/// It is the most that the tree has, node by node, of the writes from every first page; it is the formula; and the write from
/// page r/2 - 1 on reaches it.
#[test]
fn every_worst_count_over_every_first_page() {
    let trees = Trees::new();
    for (r, n) in asked() {
        let most = (0..=r - n).map(|f| trees.node_count(f, n, r)).max();
        assert_eq!(Some(worst_node_count(r, n)), most, "({r}, {n})");
        assert_eq!(Some(formula(r, n)), most, "({r}, {n})");
        assert_eq!(Some(trees.node_count(r / 2 - 1, n, r)), most, "({r}, {n})");
        assert_eq!(Some(trees::worst(r, n)), most, "({r}, {n})");
    }
    assert_eq!(asked().count(), 1 + 2 + 4 + 8 + 16 + 32 + 6 * 64);
}

#[test]
fn no_worst_count_of_other_blob_sizes() {
    let small = (0..=4_200).filter(|r| sizes().all(|size| size != *r));
    let large = (13..64).map(|bit| 1 << bit);
    let above_32_bits = sizes().map(|r| r + (1 << 32));
    let above_63_bits = sizes().map(|r| r + (1 << 63));
    let others = small.chain(large).chain(above_32_bits).chain(above_63_bits);
    for r in others.chain([u64::MAX - 1, u64::MAX]) {
        for n in 0..=66 {
            assert_eq!(worst_node_count(r, n), 0, "worst_node_count({r}, {n})");
        }
    }
}

#[test]
fn no_worst_count_of_no_page_or_too_many() {
    for r in sizes() {
        let too_many = (r / 2 + 1).min(65);
        let wide = [1, 2, too_many - 1].into_iter();
        let wide = wide.flat_map(|n| [n + (1 << 32), n + (1 << 63)]);
        for n in (too_many..=r + 65).chain(wide).chain([0, u64::MAX]) {
            assert_eq!(worst_node_count(r, n), 0, "worst_node_count({r}, {n})");
        }
    }
}

#[test]
fn worst_counts_of_edges_and_random_numbers() {
    for r in EDGES {
        for n in EDGES {
            compare(r, n);
        }
    }
    let mut random = Random::new(first_seed("worst_counts_of_edges_and_random_numbers"));
    let mut inside = 0;
    for _ in 0..200_000 {
        let r = match random.below(2) {
            0 => 1 << random.below(64),
            _ => argument(&mut random, 4096),
        };
        let n = argument(&mut random, 64);
        inside += u64::from(compare(r, n) != 0);
    }
    assert!(inside > 5_000, "{inside} inside the limits");
}
