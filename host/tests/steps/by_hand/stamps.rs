//! STAMP by content: the lowest version of the line from which on the page has the same bytes up to the version asked for.

use super::same_as_model;
use crate::model::text::hexadecimal;

/// Lines of a script in which every update is whole, and the stamps that are due.
pub struct Resent {
    pub lines: Vec<String>,
    due: Vec<String>,
    page_size: usize,
    tickets: u64,
}

impl Resent {
    /// In a store with pages of this size, and the most that the program keeps of all else.
    pub fn new(page_size: usize) -> Resent {
        let pages = (32_768 / page_size).min(256);
        Resent {
            lines: vec![format!("FORMAT,{page_size},{pages},2048,256")],
            due: vec![],
            page_size,
            tickets: 0,
        }
    }

    /// An update of a line from page `f` on, each page filled with its byte.
    pub fn update(&mut self, line: u64, f: u64, fills: &[u8]) {
        let page = |fill: &u8| vec![*fill; self.page_size];
        let pages: Vec<Vec<u8>> = fills.iter().map(page).collect();
        let pages: Vec<&[u8]> = pages.iter().map(|page| &page[..]).collect();
        self.update_of(line, f, &pages);
    }

    /// The same, of pages with these bytes.
    fn update_of(&mut self, line: u64, f: u64, pages: &[&[u8]]) {
        self.tickets += 1;
        let ticket = self.tickets;
        self.lines.push(format!("BEGIN,{}", pages.len()));
        for (i, page) in pages.iter().enumerate() {
            let bytes = hexadecimal(page);
            self.lines.push(format!("PUT,{ticket},{i},{bytes}"));
        }
        self.lines.push(format!("WRITE,{line},{ticket},{f}"));
        self.lines.extend(vec![format!("WEAVE,{ticket}"); 12]);
        self.lines.push(format!("PUBLISH,{line},0"));
    }

    /// These are the stamps of a version's pages, from page 0 on; and there is no page more.
    pub fn stamps(&mut self, line: u64, v: u64, due: &[u64]) {
        for page in 0..=due.len() {
            self.lines.push(format!("STAMP,{line},{v},{page}"));
        }
        let stamps = due.iter().map(|stamp| format!("stamp,{stamp}"));
        self.due.extend(stamps);
        self.due.push("refused,17".to_string());
    }

    /// Compares the program with the model, and the model with what is due by hand.
    pub fn agree(self) {
        let stamps: Vec<usize> = (0..self.lines.len())
            .filter(|at| self.lines[*at].starts_with("STAMP"))
            .collect();
        let (lines, due) = (self.lines.clone(), self.due);
        let answers = same_as_model(self.lines);
        for (at, due) in stamps.into_iter().zip(due) {
            assert_eq!(answers[at], due, "\n{}", lines[..=at].join("\n"));
        }
    }
}

#[test]
fn a_page_resent_unchanged_keeps_its_stamp() {
    let mut script = Resent::new(16);
    for fill in [1, 1, 1, 2, 2] {
        script.update(0, 0, &[fill]);
    }
    for (v, due) in (1..).zip([1, 1, 1, 4, 4]) {
        script.stamps(0, v, &[due]);
    }
    script.agree();
}

/// What was before the change does not count, though the bytes are the same.
#[test]
fn a_page_changed_back_is_new() {
    let mut script = Resent::new(16);
    for fill in [1, 2, 1, 1, 2, 1] {
        script.update(0, 0, &[fill]);
    }
    for (v, due) in (1..).zip([1, 2, 3, 3, 5, 6]) {
        script.stamps(0, v, &[due]);
    }
    script.agree();
}

/// A page past the end of the version before is new, whatever other pages hold, zeros too.
#[test]
fn a_page_past_the_end_of_the_version_before_is_new() {
    for fill in [0, 7] {
        let mut script = Resent::new(16);
        script.update(0, 0, &[fill]);
        script.update(0, 1, &[fill]);
        script.update(0, 1, &[fill, fill]);
        script.update(0, 3, &[fill, fill]);
        script.update(0, 0, &[fill; 5]);
        script.stamps(0, 1, &[1]);
        script.stamps(0, 2, &[1, 2]);
        script.stamps(0, 3, &[1, 2, 3]);
        script.stamps(0, 4, &[1, 2, 3, 4, 4]);
        script.stamps(0, 5, &[1, 2, 3, 4, 4]);
        script.agree();
    }
}

/// Page by page: of an update of two pages the unchanged one keeps its stamp.
#[test]
fn an_update_of_which_one_page_is_unchanged() {
    let mut script = Resent::new(16);
    script.update(0, 0, &[1, 2, 3, 4]);
    script.update(0, 1, &[2, 9]);
    script.update(0, 1, &[8, 9]);
    script.update(0, 0, &[1, 8, 9, 4]);
    script.update(0, 2, &[9, 5]);
    script.stamps(0, 2, &[1, 1, 2, 1]);
    script.stamps(0, 3, &[1, 3, 2, 1]);
    script.stamps(0, 4, &[1, 3, 2, 1]);
    script.stamps(0, 5, &[1, 3, 2, 5]);
    script.agree();
}

/// One byte of the page differs: the first, the last, or one between; in pages of every size that the program keeps.
#[test]
fn one_byte_of_a_page_differs() {
    for page_size in [16, 32, 64, 128, 256] {
        for at in [0, 1, page_size / 2 - 1, page_size / 2, page_size - 1] {
            let mut script = Resent::new(page_size);
            let page: Vec<u8> = (0..page_size).map(|i| i as u8).collect();
            let mut other = page.clone();
            other[at] ^= 128;
            let (one, two) = (vec![7; page_size], vec![8; page_size]);
            script.update_of(0, 0, &[&one, &page, &two]); // the page between two others
            for bytes in [&page, &other, &other, &page] {
                script.update_of(0, 1, &[bytes]);
            }
            for (v, due) in (1..).zip([1, 1, 3, 3, 5]) {
                script.stamps(0, v, &[1, due, 1]);
            }
            script.agree();
        }
    }
}

/// As many updates as the program keeps: one page resent by all, another written anew by each fourth.
#[test]
fn a_page_resent_256_times() {
    let mut script = Resent::new(16);
    script.lines[0] = "FORMAT,16,2048,2048,256".to_string();
    for k in 0..256u64 {
        script.update(0, 0, &[1, (k / 4) as u8]);
    }
    for v in 1..=256 {
        script.stamps(0, v, &[1, (v - 1) / 4 * 4 + 1]);
    }
    script.agree();
}

/// Only versions up to the one asked for count, and none that is in work.
#[test]
fn later_versions_make_no_difference() {
    let mut script = Resent::new(16);
    script.update(0, 0, &[1]);
    script.stamps(0, 1, &[1]);
    script.lines.push("BEGIN,1".to_string());
    script.lines.push(format!("PUT,2,0,{}", "02".repeat(16)));
    script.lines.push("WRITE,0,2,0".to_string());
    script.tickets = 2;
    script.stamps(0, 1, &[1]);
    script.update(0, 0, &[2]);
    script.stamps(0, 1, &[1]);
    script
        .lines
        .extend(["WEAVE,2", "PUBLISH,0,0", "PUBLISH,0,0"].map(String::from));
    script.stamps(0, 1, &[1]);
    script.stamps(0, 2, &[2]);
    script.stamps(0, 3, &[2]);
    script.agree();
}
