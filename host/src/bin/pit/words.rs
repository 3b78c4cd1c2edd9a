//! The words that the tool is called with.

use pit_host::{Line, PageIndex, Version};
use std::ffi::OsString;
use std::path::PathBuf;

/// One line on how it is called.
pub const USAGE: &str =
    "usage: pit info FOLDER | pit verify FOLDER | pit dump [--line N] [--hex] FOLDER VERSION PAGE";

/// What `--help` prints.
pub const HELP: &str = "\
usage: pit info FOLDER | pit verify FOLDER | pit dump [--line N] [--hex] FOLDER VERSION PAGE

Looks at the folder of a durable store. Nothing is changed and nothing locked, so a running host may have it open.

  info     what the folder holds: limits, room, lines, open tickets, windows, the journal, who has it open
  verify   reads every published version of every line whole, by SIZE, READ, VIEW and STAMP; makes the journal's calls
           again, and all updates, and compares the areas with what they leave. The largest stores take a minute or
           more; it tells how far it is
  dump     the bytes of a page of a published version, raw; with --hex as text; of line 0, or of line N

Ends with 0; with 1 where the folder cannot be read or something is wrong with it, which is said on standard error; and
with 2 where it is called otherwise.
";

/// What is asked for.
#[derive(Debug, PartialEq, Eq)]
pub enum Asked {
    Help,
    Info(PathBuf),
    Verify(PathBuf),
    Dump(PathBuf, Page),
}

/// A page of a version, and how it is shown.
#[derive(Debug, PartialEq, Eq)]
pub struct Page {
    pub line: Line,
    pub version: Version,
    pub page: PageIndex,
    pub hex: bool,
}

/// The options, and the words that are none.
#[derive(Default)]
struct Sorted {
    help: bool,
    hex: bool,
    line: Option<u64>,
    plain: Vec<OsString>,
}

/// What the words ask for, or what is wrong with them.
pub fn read(words: impl Iterator<Item = OsString>) -> Result<Asked, String> {
    let sorted = sort(words)?;
    if sorted.help {
        return Ok(Asked::Help);
    }
    let (name, rest) = sorted.plain.split_first().ok_or("nothing is asked for")?;
    let name = name.to_string_lossy();
    if name != "dump" && (sorted.hex || sorted.line.is_some()) {
        return Err(format!("{name} takes no options"));
    }
    match (&*name, rest) {
        ("info", [folder]) => Ok(Asked::Info(folder.into())),
        ("verify", [folder]) => Ok(Asked::Verify(folder.into())),
        ("dump", [folder, version, page]) => {
            let page = Page {
                line: Line(sorted.line.unwrap_or(0)),
                version: Version(number(version)?),
                page: PageIndex(number(page)?),
                hex: sorted.hex,
            };
            Ok(Asked::Dump(folder.into(), page))
        }
        ("info" | "verify", _) => Err(format!("{name} takes one folder")),
        ("dump", _) => Err("dump takes a folder, a version and a page".into()),
        _ => Err(format!("no such command: {name}")),
    }
}

fn sort(mut words: impl Iterator<Item = OsString>) -> Result<Sorted, String> {
    let mut sorted = Sorted::default();
    while let Some(word) = words.next() {
        match word.to_str() {
            Some("--help" | "-h") => sorted.help = true,
            Some("--hex") => sorted.hex = true,
            Some("--line") => {
                let line = words.next().ok_or("--line takes a number")?;
                sorted.line = Some(number(&line)?);
            }
            Some("--") => sorted.plain.extend(words.by_ref()),
            Some(other) if other.starts_with('-') => {
                return Err(format!("no such option: {other}"))
            }
            _ => sorted.plain.push(word),
        }
    }
    Ok(sorted)
}

fn number(word: &OsString) -> Result<u64, String> {
    let digits = word.to_str().filter(|word| !word.starts_with('+'));
    let number = digits.and_then(|digits| digits.parse().ok());
    number.ok_or_else(|| format!("not a number: {}", word.to_string_lossy()))
}

#[cfg(test)]
mod tests {
    use super::*;

    fn of(words: &str) -> Result<Asked, String> {
        read(words.split_whitespace().map(OsString::from))
    }

    #[test]
    fn words_are_read() {
        assert_eq!(of("info f"), Ok(Asked::Info("f".into())));
        assert_eq!(of("verify -- --hex"), Ok(Asked::Verify("--hex".into())));
        let page = |line, hex| {
            let (line, version, page) = (Line(line), Version(3), PageIndex(4));
            let page = Page {
                line,
                version,
                page,
                hex,
            };
            Ok(Asked::Dump("f".into(), page))
        };
        assert_eq!(of("dump f 3 4"), page(0, false));
        assert_eq!(of("dump --line 2 f 3 --hex 4"), page(2, true));
        assert_eq!(of("--help"), Ok(Asked::Help));
        assert_eq!(of("dump -h"), Ok(Asked::Help));
        assert!(HELP.starts_with(USAGE));
    }

    #[test]
    fn wrong_words_are_told() {
        let wrong = [
            ("", "nothing is asked for"),
            ("info", "info takes one folder"),
            ("verify a b", "verify takes one folder"),
            ("dump f 1", "dump takes a folder, a version and a page"),
            ("dump f one 1", "not a number: one"),
            ("dump f +1 1", "not a number: +1"),
            (
                "dump f 1 18446744073709551616",
                "not a number: 18446744073709551616",
            ),
            ("dump --line", "--line takes a number"),
            ("dump --line x f 1 1", "not a number: x"),
            ("info --hex f", "info takes no options"),
            ("open f", "no such command: open"),
            ("info --all f", "no such option: --all"),
        ];
        for (words, why) in wrong {
            assert_eq!(of(words), Err(why.to_string()), "{words}");
        }
    }
}
