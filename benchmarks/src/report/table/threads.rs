//! The table of views by threads.

use super::{shown, shown_ratio};
use crate::measures::threads::{Row, Setting, Writer, LMDB, UPDATES_A_SECOND};
use crate::numbers::with_commas;

const NAMES: [&str; 4] = ["by calls", "snapshot", "filled", "LMDB"];

/// A row: views a second in millions, ours as a multiple of LMDB's, and how many updates a second the writer made beside them.
pub fn line((setting, rates): &Row) -> String {
    let mut line = front(*setting);
    for rates in rates {
        line += &format!("{:>10}", shown(rates.views / 1e6));
    }
    line += "  ";
    for ours in &rates[..LMDB] {
        let ratio = ours.views / rates[LMDB].views;
        line += &format!("{:>10}", shown_ratio(ratio));
    }
    line += "  ";
    for rates in rates {
        line += &match setting.writer {
            Writer::None => format!("{:>10}", "-"),
            Writer::Paced | Writer::FlatOut => format!("{:>10}", shown(rates.updates)),
        };
    }
    line
}

/// What a row begins with.
pub fn front(setting: Setting) -> String {
    let writer = match setting.writer {
        Writer::None => "none".into(),
        Writer::Paced => format!("{}/s", with_commas(UPDATES_A_SECOND as usize)),
        Writer::FlatOut => "flat out".into(),
    };
    format!("{:<9}{writer:<10}", setting.readers)
}

/// The lines above the rows.
pub fn heading() -> String {
    let columns = |names: &[&str]| -> String {
        let column = |name: &&str| format!("{name:>10}");
        names.iter().map(column).collect()
    };
    let ratios = NAMES[..LMDB].iter().map(|_| "/ LMDB").collect::<Vec<_>>();
    let (names, ratios) = (columns(&NAMES), columns(&ratios));
    let groups = format!(
        "{:19}{:>40}  {:30}  {:>40}",
        "", "millions of views a second", "", "updates a second beside them"
    );
    let names = format!("{:<9}{:<10}{names}  {ratios}  {names}", "readers", "writer");
    format!("{groups}\n{names}")
}
