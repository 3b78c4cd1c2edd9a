//! The tables: a row a figure, in plain text.

pub mod disk;
pub mod threads;

use crate::contenders::in_work::IN_WORK;
use crate::measures::stamps;
use crate::measures::timing::{LineTimes, ARC, CONTENDERS, LMDB, MEMCPY, OURS};
use crate::numbers::with_commas;
use crate::workload::Shape;

/// What is measured.
#[derive(Clone, Copy, Debug, PartialEq, Eq, PartialOrd, Ord)]
pub enum What {
    Read,
    /// READ of so many pages that follow each other.
    LongRead(usize),
    View,
    /// A whole update of so many pages.
    Update(usize),
    /// The same beside tickets in work.
    InWork(usize),
    /// The bookkeeping of an update of so many pages.
    Memory(usize),
}

impl What {
    pub fn name(self) -> String {
        match self {
            What::Read => "READ".into(),
            What::LongRead(pages) => format!("READ of {pages} pages"),
            What::View => "VIEW".into(),
            What::Update(1) => "update of 1 page".into(),
            What::Update(pages) => format!("update of {pages} pages"),
            What::InWork(1) => format!("1 page, {IN_WORK} in work"),
            What::InWork(pages) => format!("{pages} pages, {IN_WORK} in work"),
            What::Memory(1) => "bytes, 1 page".into(),
            What::Memory(pages) => format!("bytes, {pages} pages"),
        }
    }
}

/// One row: nanoseconds a call, or bytes a version, for each contender that has the figure.
#[derive(Clone, Copy, Debug)]
pub struct Row {
    pub what: What,
    pub shape: Shape,
    pub figures: [Option<f64>; CONTENDERS],
}

impl Row {
    /// Ours as a multiple of another's figure.
    pub fn ratio(&self, to: usize) -> Option<f64> {
        Some(self.figures[OURS]? / self.figures[to]?)
    }

    pub fn line(&self) -> String {
        let mut line = front(self.what, self.shape);
        for figure in self.figures {
            line += &format!("{:>10}", figure.map_or("-".into(), shown));
        }
        line += "  ";
        for to in [MEMCPY, ARC, LMDB] {
            line += &format!("{:>10}", self.ratio(to).map_or("-".into(), shown_ratio));
        }
        line
    }
}

/// What a row begins with.
fn front(what: What, shape: Shape) -> String {
    format!(
        "{:<21}{:>6}{:>7}{:>9}  ",
        what.name(),
        with_commas(shape.page_size),
        with_commas(shape.blob),
        with_commas(shape.updates),
    )
}

fn heading_front() -> String {
    format!("{:<21}{:>6}{:>7}{:>9}  ", "what", "page", "blob", "updates")
}

/// A row of what is measured on one line and with 16, and the line above these rows.
pub fn line_of_lines(what: What, shape: Shape, times: LineTimes) -> String {
    let [one, on_one, on_all] = times;
    let times = times.map(shown).map(|time| format!("{time:>11}")).concat();
    let ratios = [on_one / one, on_all / one].map(shown_ratio);
    front(what, shape) + &times + &ratios.map(|ratio| format!("{ratio:>12}")).concat()
}

pub fn heading_of_lines() -> String {
    let columns = ["alone", "one of 16", "all of 16"];
    let columns = columns.map(|column| format!("{column:>11}")).concat();
    heading_front() + &columns + &format!("{:>12}{:>12}", "one/alone", "all/alone")
}

/// A row of stamps: nanoseconds a call, and what each update that resent the page adds; and the line above these rows.
pub fn line_of_stamps(setting: stamps::Setting, time: f64) -> String {
    let shape = setting.shape();
    let each = match setting.resent {
        0 => "-".into(),
        resent => shown(time / resent as f64),
    };
    format!(
        "{:<21}{:>6}{:>7}{:>9}  {:>9}{:>12}{:>12}",
        "STAMP",
        with_commas(shape.page_size),
        with_commas(shape.blob),
        with_commas(shape.updates),
        with_commas(setting.resent),
        shown(time),
        each,
    )
}

pub fn heading_of_stamps() -> String {
    heading_front() + &format!("{:>9}{:>12}{:>12}", "resent", "ours", "ours/resent")
}

/// The line above the rows.
pub fn heading() -> String {
    let mut line = heading_front();
    for name in ["ours", "memcpy", "Arc", "LMDB"] {
        line += &format!("{name:>10}");
    }
    line += "  ";
    for name in ["o/memcpy", "o/Arc", "o/LMDB"] {
        line += &format!("{name:>10}");
    }
    line
}

/// A figure: one decimal below 100, whole above.
pub fn shown(figure: f64) -> String {
    if figure < 100.0 {
        format!("{figure:.1}")
    } else {
        with_commas(figure.round() as usize)
    }
}

/// A ratio, to about three digits.
pub fn shown_ratio(ratio: f64) -> String {
    match ratio {
        r if r < 0.1 => format!("{r:.4}"),
        r if r < 10.0 => format!("{r:.2}"),
        r if r < 100.0 => format!("{r:.1}"),
        r => with_commas(r.round() as usize),
    }
}
