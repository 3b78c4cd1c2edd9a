//! The plot: cost against the number of updates.

use crate::measures::timing::{ARC, LMDB, MEMCPY, OURS};
use crate::numbers::with_commas;
use crate::report::svg::{frame, line, rule, text, Point};
use crate::report::table::{Row, What};

const SIZE: Point = (1080.0, 700.0);
/// Panels stand in cells of this size, the first of them below the title; how far inside, and how large they are.
const CELL: Point = (350.0, 310.0);
const TOP: f64 = 62.0;
const INSET: Point = (72.0, 34.0);
const PANEL: Point = (265.0, 215.0);

const PANELS: [(What, Point); 5] = [
    (What::Read, (0.0, 0.0)),
    (What::View, (1.0, 0.0)),
    (What::Update(1), (0.0, 1.0)),
    (What::Update(8), (1.0, 1.0)),
    (What::Update(64), (2.0, 1.0)),
];
const LEGEND: Point = (2.0, 0.0);

/// The numbers of updates, from left to right.
const UPDATES: [usize; 4] = [10, 100, 1_000, 4_000];

/// The lines: name, colour and place in a row's figures. Most eyes keep these colours apart.
const LINES: [(&str, &str, usize); 4] = [
    ("this store", "#0072b2", OURS),
    ("Arc page table", "#d55e00", ARC),
    ("LMDB", "#009e73", LMDB),
    ("memcpy of the same bytes", "#777777", MEMCPY),
];

/// The page size that is drawn, and the blobs, each dashed or not.
const PAGE_SIZE: usize = 4_096;
const BLOBS: [(usize, bool); 2] = [(4_096, false), (640, true)];

pub fn svg(rows: &[Row]) -> String {
    let mut svg = format!(
        "<svg xmlns=\"http://www.w3.org/2000/svg\" viewBox=\"0 0 {} {}\" \
         font-family=\"Helvetica, Arial, sans-serif\" fill=\"#222222\">\n",
        SIZE.0, SIZE.1
    );
    svg += &frame((0.0, 0.0), SIZE, "none", "#ffffff");
    let title = "Cost of a call against the number of updates that stand";
    svg += &text((20.0, 30.0), "start", 18, title);
    let about =
        "Random pages of 4,096 bytes, newest version. Both axes are logarithmic; lower is better.";
    svg += &text((20.0, 51.0), "start", 13, about);
    for (what, cell) in PANELS {
        svg += &panel(what, corner(cell), rows);
    }
    svg + &legend(corner(LEGEND)) + "</svg>\n"
}

fn corner(cell: Point) -> Point {
    let (column, line) = cell;
    (column * CELL.0 + INSET.0, TOP + line * CELL.1 + INSET.1)
}

/// A panel's two scales: its corner, and the least and the most nanoseconds that it shows.
struct Scale {
    corner: Point,
    least: f64,
    most: f64,
}

impl Scale {
    fn x(&self, updates: usize) -> f64 {
        let [first, .., last] = UPDATES.map(|updates| updates as f64);
        let part = (updates as f64 / first).ln() / (last / first).ln();
        self.corner.0 + 14.0 + part * (PANEL.0 - 28.0)
    }

    fn y(&self, time: f64) -> f64 {
        let part = (time / self.least).ln() / (self.most / self.least).ln();
        self.corner.1 + PANEL.1 * (1.0 - part)
    }
}

/// A line's points: the number of updates and the nanoseconds, by number of updates.
fn points(rows: &[Row], what: What, blob: usize, index: usize) -> Vec<(usize, f64)> {
    // VIEW's row has memcpy's time for a whole page, which READ's panel shows
    if what == What::View && index == MEMCPY {
        return Vec::new();
    }
    let drawn = |row: &&Row| {
        let shape = row.shape;
        row.what == what && shape.page_size == PAGE_SIZE && shape.blob == blob
    };
    let point = |row: &Row| Some((row.shape.updates, row.figures[index]?));
    let mut points: Vec<_> = rows.iter().filter(drawn).filter_map(point).collect();
    points.sort_by_key(|point| point.0);
    points
}

fn panel(what: What, corner: Point, rows: &[Row]) -> String {
    let mut lines = Vec::new();
    for (_, colour, index) in LINES {
        for (blob, dashed) in BLOBS {
            lines.push((points(rows, what, blob, index), colour, dashed));
        }
    }
    let times = || {
        lines
            .iter()
            .flat_map(|line| line.0.iter().map(|point| point.1))
    };
    let (least, most) = (
        times().fold(f64::MAX, f64::min),
        times().fold(0.0, f64::max),
    );
    let scale = Scale {
        corner,
        least: marks()
            .rfind(|mark| mark.1 <= least)
            .map_or(least, |mark| mark.1),
        most: marks()
            .find(|mark| mark.1 >= most)
            .map_or(most, |mark| mark.1),
    };
    let mut svg = text((corner.0, corner.1 - 10.0), "start", 14, &what.name());
    svg += &grid(&scale);
    for (points, colour, dashed) in lines.iter().filter(|line| !line.0.is_empty()) {
        let place = |point: &(usize, f64)| (scale.x(point.0), scale.y(point.1));
        svg += &line(
            &points.iter().map(place).collect::<Vec<_>>(),
            colour,
            *dashed,
        );
    }
    svg
}

/// The marks of a scale of time: 1, 2 and 5 times each power of ten, each with that digit.
fn marks() -> impl DoubleEndedIterator<Item = (u32, f64)> {
    (-2..8).flat_map(|power| [1, 2, 5].map(|digit| (digit, f64::from(digit) * 10f64.powi(power))))
}

/// The frame, and a line with its label for each mark of the two scales.
fn grid(scale: &Scale) -> String {
    let (left, top) = scale.corner;
    let (right, bottom) = (left + PANEL.0, top + PANEL.1);
    let inside = |mark: &(u32, f64)| (scale.least..=scale.most).contains(&mark.1);
    let marks: Vec<(u32, f64)> = marks().filter(inside).collect();
    let mut svg = String::new();
    for (digit, time) in &marks {
        let y = scale.y(*time);
        svg += &rule((left, y), (right, y));
        if marks.len() <= 8 || *digit == 1 {
            svg += &text((left - 6.0, y + 4.0), "end", 12, &duration(*time));
        }
    }
    for updates in UPDATES {
        let x = scale.x(updates);
        svg += &rule((x, top), (x, bottom));
        svg += &text((x, bottom + 16.0), "middle", 12, &with_commas(updates));
    }
    let middle = (left + right) / 2.0;
    svg += &text((middle, bottom + 34.0), "middle", 12, "updates");
    svg + &frame(scale.corner, PANEL, "#999999", "none")
}

fn duration(time: f64) -> String {
    match time {
        t if t < 1_000.0 => format!("{t} ns"),
        t if t < 1e6 => format!("{} µs", t / 1e3),
        t => format!("{} ms", t / 1e6),
    }
}

fn legend(corner: Point) -> String {
    let (left, mut y) = corner;
    let mut svg = String::new();
    let mut entry = |colour, dashed, words: &str| {
        svg += &line(&[(left, y), (left + 44.0, y)], colour, dashed);
        svg += &text((left + 56.0, y + 4.0), "start", 13, words);
        y += 26.0;
    };
    for (name, colour, _) in LINES {
        entry(colour, false, name);
    }
    for (blob, dashed) in BLOBS {
        let line = if dashed { "dashed" } else { "solid" };
        let words = format!("{line}: a blob of {} pages", with_commas(blob));
        entry("#222222", dashed, &words);
    }
    svg
}
