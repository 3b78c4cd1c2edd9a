//! The tree as the paper tells it, with no thought of the library's code: a root, its halves down to
//! single pages, and the nodes that meet an update, counted one by one.
#![allow(dead_code)] // each test program uses some of it

/// A blob has at most this many pages.
pub const MOST_PAGES: u64 = 4096;
/// An update has at most this many pages.
pub const MOST_UPDATE: u64 = 64;

/// The smallest power of two not below `size`, by doubling; 0 for a size that no blob with pages has.
pub fn root_span(size: u64) -> u64 {
    if size == 0 || size > MOST_PAGES {
        return 0;
    }
    let mut span = 1;
    while span < size {
        span *= 2;
    }
    span
}

/// A node and its two halves; a node of one page has none.
pub struct Node {
    first: u64,
    span: u64,
    halves: Vec<Node>,
}

impl Node {
    fn new(first: u64, span: u64) -> Node {
        let half = span / 2;
        let halves = if span == 1 {
            vec![]
        } else {
            vec![Node::new(first, half), Node::new(first + half, half)]
        };
        Node {
            first,
            span,
            halves,
        }
    }

    fn meets(&self, f: u64, last: u64) -> bool {
        (self.first..self.first + self.span).contains(&f) || (f..=last).contains(&self.first)
    }

    /// How many nodes here meet the pages `f` to `last`. Where this one does not, none below it does.
    fn meeting(&self, f: u64, last: u64) -> u64 {
        if !self.meets(f, last) {
            return 0;
        }
        1 + self
            .halves
            .iter()
            .map(|half| half.meeting(f, last))
            .sum::<u64>()
    }

    /// The same, with every node asked.
    fn meeting_of_all(&self, f: u64, last: u64) -> u64 {
        u64::from(self.meets(f, last))
            + self
                .halves
                .iter()
                .map(|half| half.meeting_of_all(f, last))
                .sum::<u64>()
    }
}

/// Whether an update of `n` pages from page `f` can be, in a blob of `size` pages after it.
pub fn within_limits(f: u64, n: u64, size: u64) -> bool {
    n != 0
        && n <= MOST_UPDATE
        && size != 0
        && size <= MOST_PAGES
        && u128::from(f) + u128::from(n) <= u128::from(size)
}

/// The sum over q = 1, 2, 4 .. of floor((f+n-1)/q) - floor(f/q) + 1, up to the root's span.
pub fn sum_over_spans(f: u64, n: u64, size: u64) -> u64 {
    let (f, last) = (u128::from(f), u128::from(f) + u128::from(n) - 1);
    let (root, mut q, mut sum) = (u128::from(root_span(size)), 1, 0);
    while q <= root {
        sum += last / q - f / q + 1;
        q *= 2;
    }
    u64::try_from(sum).expect("a tree of 4,096 pages has 8,191 nodes")
}

/// The most nodes that a write of `n` pages makes in a blob of exactly `r` pages, the write inside them: every first page is
/// tried. 0 unless `r` is one of 2, 4, 8 .. 4,096 and `n` is from 1 to 64 and at most half of `r`.
pub fn worst(r: u64, n: u64) -> u64 {
    let size_asked = (1..=12).any(|height| r == 1 << height);
    if !size_asked || n == 0 || n > MOST_UPDATE || n > r / 2 {
        return 0;
    }
    let counts = (0..=r - n).map(|f| sum_over_spans(f, n, r));
    counts.max().expect("page 0 is a first page")
}

/// The trees of all root spans: 1, 2, 4 .. 4,096 pages.
pub struct Trees(Vec<Node>);

impl Trees {
    pub fn new() -> Trees {
        Trees((0..=12).map(|height| Node::new(0, 1 << height)).collect())
    }

    fn of(&self, size: u64) -> &Node {
        let span = root_span(size);
        self.0
            .iter()
            .find(|root| root.span == span)
            .expect("every root span has its tree")
    }

    /// The node count of (f, n, size): the nodes of the tree that meet the update; 0 outside the limits.
    pub fn node_count(&self, f: u64, n: u64, size: u64) -> u64 {
        if within_limits(f, n, size) {
            self.of(size).meeting(f, f + n - 1)
        } else {
            0
        }
    }

    /// The same within the limits, by asking every node of the tree.
    pub fn node_count_of_all(&self, f: u64, n: u64, size: u64) -> u64 {
        self.of(size).meeting_of_all(f, f + n - 1)
    }
}
