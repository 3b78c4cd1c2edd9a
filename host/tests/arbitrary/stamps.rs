//! STAMP over any state and any areas, written from the definitions alone: crates/stamp/specs/Stamp.antt, and those of the
//! walk and of the lines that it rests on.

use crate::calls::{lengths_differ, no_line, owner_of};
use crate::scene::Scene;
use pit_host::{Line, Record};

/// What STAMP answers, and why its search for a lower version has ended.
pub struct Stamp {
    pub answer: Result<u64, u64>,
    pub end: &'static str,
}

/// The ends of a search. The first three come up in stores that calls left too.
pub const NO_SUCH_PAGE: &str = "STAMP: no such page in the version before";
pub const OTHER_BYTES: &str = "STAMP: other bytes in the version before";
pub const REFUSED: &str = "STAMP: refused";
pub const NOT_THERE: &str = "STAMP: the version before is not there";
pub const LOST: &str = "STAMP: the lower walk is lost";
pub const PAST: &str = "STAMP: the lower page lies past the area";
pub const NOT_LOWER: &str = "STAMP: a leaf that is not lower";

/// All of them.
pub const ENDS: [&str; 7] = [
    NO_SUCH_PAGE,
    OTHER_BYTES,
    REFUSED,
    NOT_THERE,
    LOST,
    PAST,
    NOT_LOWER,
];

/// Where a walk ends: at the leaf of a version's number, with its page number.
type Leaf = (u64, u64);

/// The stamp of a page in a version of a line.
pub fn stamp(scene: &Scene, line: u64, v: u64, page: u64) -> Stamp {
    let s = &scene.state;
    let row = if lengths_differ(s, &scene.memory) {
        3
    } else if no_line(s, line) {
        20
    } else if s.line(Line(line)).published < v {
        16
    } else {
        0
    };
    let leaf = match row {
        0 => leaf_as_of(scene, line, v, page),
        _ => Err((row, REFUSED)),
    };
    match leaf {
        Ok((c, n)) => since(scene, line, page, c % 65_536, n),
        Err((row, _)) => Stamp {
            answer: Err(row),
            end: REFUSED,
        },
    }
}

/// From version w, whose page has the number n, on to lower ones, while the page as of the version before has the same
/// bytes.
fn since(scene: &Scene, line: u64, page: u64, mut w: u64, mut n: u64) -> Stamp {
    let bytes = |n: u64| {
        let begin = scene.state.size * n;
        &scene.memory.pages.part()[begin as usize..(begin + scene.state.size) as usize]
    };
    let mut end = NO_SUCH_PAGE;
    while w > 0 {
        end = match leaf_as_of(scene, line, w - 1, page) {
            Err((_, why)) => why,
            Ok((c, _)) if c % 65_536 >= w => NOT_LOWER,
            Ok((_, m)) if bytes(m) != bytes(n) => OTHER_BYTES,
            Ok((c, m)) => {
                (w, n) = (c % 65_536, m);
                continue;
            }
        };
        break;
    }
    Stamp { answer: Ok(w), end }
}

/// The leaf of a page as of a version, as VIEW finds it; or the row that it meets, and why.
fn leaf_as_of(scene: &Scene, line: u64, v: u64, page: u64) -> Result<Leaf, (u64, &'static str)> {
    let c = match v {
        0 => 0,
        _ => owner_of(&scene.state, line, v) % 65_536 * 65_536 + v % 65_536,
    };
    let record = version_record(scene, c);
    if record.name != c {
        return Err((19, NOT_THERE));
    }
    if v == 0 || size_by(&record) <= page {
        return Err((17, NO_SUCH_PAGE));
    }
    match find_page(scene, c, page) {
        None => Err((19, LOST)),
        Some((_, n)) if n >= scene.state.pages => Err((19, PAST)),
        Some(leaf) => Ok(leaf),
    }
}

/// Record k, counted from 1; an empty one where there is none.
fn record(scene: &Scene, k: u64) -> Record {
    let at = k.checked_sub(1).and_then(|at| usize::try_from(at).ok());
    let found = at.and_then(|at| scene.memory.register.part().get(at));
    found.copied().unwrap_or_default()
}

/// The record of the version numbered c, or the one that its line's entry names.
fn version_record(scene: &Scene, c: u64) -> Record {
    let own = record(scene, c % 65_536);
    if own.name == c {
        return own;
    }
    let (line, e) = (c / 65_536, own.entries);
    let words = [e.from0, e.from4, e.from8, e.from12];
    let word = words.get((line / 4) as usize).copied().unwrap_or(0);
    record(scene, (word >> (16 * (line % 4))) % 65_536)
}

/// The size in pages after an update, its numbers brought within the limits.
fn size_by(record: &Record) -> u64 {
    let last = record.f.min(4_095).max(record.last.min(4_095));
    (last + 1).max(record.size.min(4_096))
}

/// The height of the root whose span a record has; that of the largest blob's where it has none.
pub fn root_height(span: u64) -> u64 {
    let mut heights = 0..12;
    heights.find(|height| span == 1 << height).unwrap_or(12)
}

/// From the root of the version numbered c down the halves to a page's leaf.
fn find_page(scene: &Scene, mut c: u64, page: u64) -> Option<Leaf> {
    let root = root_height(version_record(scene, c).span);
    if page >= 1 << root {
        return None;
    }
    for height in (1..=root).rev() {
        if c == 0 {
            break;
        }
        let (left, right) = node(scene, c, page, height)?;
        c = match (page >> (height - 1)) % 2 {
            0 => left,
            _ => right,
        };
    }
    node(scene, c, page, 0).map(|(n, _)| (c, n))
}

/// The two numbers of the node over a page, of a height, of the version numbered c; if it makes such a node, and it is
/// stored.
fn node(scene: &Scene, c: u64, page: u64, height: u64) -> Option<(u64, u64)> {
    let (of, first) = (version_record(scene, c), page >> height << height);
    let meets = of.f < first + (1 << height) && first <= of.last;
    if c == 0 || c == u64::MAX || of.name != c || 1 << height > of.span || !meets {
        return None;
    }
    let halvings = 2 * first - u64::from(first.count_ones());
    let place = of.top.wrapping_sub(height);
    let place = place.wrapping_add(halvings.saturating_sub(of.past));
    let at = usize::try_from(place.checked_mul(2)?).ok()?;
    match scene.memory.nodes.part().get(at..)? {
        [u32::MAX, u32::MAX, ..] => None,
        [left, right, ..] => Some((u64::from(*left), u64::from(*right))),
        _ => None,
    }
}
