//! `pit`, the tool that looks at a folder: what it prints, what it finds wrong, and that it changes nothing.

use crate::folder::Folder;
use crate::random::{first_seed, named, Random};
use crate::support::call::{self, Begin};
use crate::support::draw::{draw, Shown, CALLS};
use pit_host::{
    inspect, inspect_earlier, Comparison, Durable, Limits, Line, OpenBy, Options, PageIndex,
    PartsMut, Storage, Store, Version,
};
use std::collections::BTreeMap;
use std::ffi::OsStr;
use std::fs;
use std::path::{Path, PathBuf};
use std::process::{Command, Output, Stdio};
use std::thread;
use std::time::SystemTime;

const LIVE: Line = Line(0);
const USAGE: &str =
    "usage: pit info FOLDER | pit verify FOLDER | pit dump [--line N] [--hex] FOLDER VERSION PAGE\n";

/// A place for folders; and the one in it that is looked at.
fn place(name: &str) -> (Folder, PathBuf) {
    let place = Folder::new(&format!("tool-{name}"));
    let folder = place.0.join("folder");
    (place, folder)
}

/// Every file of a folder, with when it was last written.
fn files(folder: &Path) -> BTreeMap<PathBuf, (Vec<u8>, SystemTime)> {
    let entries = fs::read_dir(folder).into_iter().flatten();
    let file = |path: PathBuf| {
        let written = fs::metadata(&path).unwrap().modified().unwrap();
        (path.clone(), (fs::read(path).unwrap(), written))
    };
    entries.map(|entry| file(entry.unwrap().path())).collect()
}

fn tool<I: AsRef<OsStr>>(words: impl IntoIterator<Item = I>) -> Command {
    let mut tool = Command::new(env!("CARGO_BIN_EXE_pit"));
    tool.args(words).stdin(Stdio::null());
    tool
}

/// Whether a line only tells how far the tool is, as it does where it takes more than a second.
fn is_progress(line: &str) -> bool {
    let begins = [
        "pit: the journal's calls are made again",
        "pit: all updates are made again",
        "pit: versions read: ",
    ];
    begins.iter().any(|begin| line.starts_with(begin))
}

/// What the tool answers for a folder, which it leaves as it was. The folder's path is shown as `F`, and progress is not.
fn asked(words: &[&str], folder: &Path) -> (i32, String, String) {
    let before = files(folder);
    let path = folder.to_str().unwrap();
    let words = words
        .iter()
        .map(|word| if *word == "F" { path } else { *word });
    let output = tool(words).output().unwrap();
    assert!(files(folder) == before);
    let text = |bytes: Vec<u8>| {
        let text = String::from_utf8(bytes).unwrap().replace(path, "F");
        let lines = text.split_inclusive('\n');
        lines.filter(|line| !is_progress(line)).collect::<String>()
    };
    let Output {
        status,
        stdout,
        stderr,
    } = output;
    (status.code().unwrap(), text(stdout), text(stderr))
}

/// All three commands end with 1 and these words.
fn all_fail(folder: &Path, words: &str) {
    for command in [
        &["info", "F"][..],
        &["verify", "F"],
        &["dump", "F", "1", "0"],
    ] {
        let due = (1, String::new(), format!("pit: F: {words}\n"));
        assert_eq!(asked(command, folder), due, "{command:?}");
    }
}

/// The calls of [`make`], and what its versions are.
const ENTRIES: u64 = 29;
const VERIFIED: &str = "verified: 6 versions, 19 pages, 29 entries\n";

/// A store of three versions on line 0 and one more on line 1, windows, and two tickets in work.
fn make(folder: &Path) -> Durable {
    let store = Store::format(Limits::new(16, 32, 64, 16)).unwrap();
    let durable = Durable::create(folder, store, Options::new()).unwrap();
    let pages: [&[u8]; 3] = [&[1; 16], &[2; 16], &[3; 16]];
    durable.append_pages(LIVE, &pages).unwrap();
    durable
        .update(LIVE, PageIndex(1), &[b"a page of bytes."])
        .unwrap();
    durable
        .update(LIVE, PageIndex(1), &[b"a page of bytes."])
        .unwrap();
    let plan = durable.line_from(LIVE, Version(2));
    durable.update(plan, PageIndex(3), &[&[5; 16]]).unwrap();
    durable.windows_are("600,660\n10000,30\n");
    let ticket = durable.begin(3).unwrap();
    durable.put(ticket, 1, &[6; 16]).unwrap();
    let ticket = durable.begin(1).unwrap();
    durable.put(ticket, 0, &[7; 16]).unwrap();
    durable.write(LIVE, ticket, PageIndex(0)).unwrap();
    durable
}

#[test]
fn what_a_folder_holds() {
    let (_place, folder) = &place("info");
    drop(make(folder));
    let length = fs::metadata(folder.join("journal-1")).unwrap().len();
    let due = format!(
        "\
folder:      F
open by:     nobody
generation:  1: store-1, then journal-1
journal:     {length} bytes, {ENTRIES} entries since the saved store; the last is entry {ENTRIES}
at its end:  nothing to be cut off
limits:      32 pages of 16 bytes, 64 nodes, 16 updates, 16 lines
room:        22 pages, 46 nodes, 10 updates, 14 lines; 10 more updates as those before
windows:     600,660 10000,30
line 0:      version 3 published, 4 assigned; 48 bytes, 3 pages
line 1:      version 3 published, 3 assigned; 64 bytes, 4 pages; from line 0
in work:     2 tickets
ticket 5:    1 of 3 pages put, no version
ticket 6:    version 4 of line 0, 3 nodes left to weave
"
    );
    assert_eq!(asked(&["info", "F"], folder), (0, due, String::new()));
    let verified = (0, VERIFIED.into(), String::new());
    assert_eq!(asked(&["verify", "F"], folder), verified);
}

#[test]
fn a_page_is_dumped() {
    let (_place, folder) = &place("dump");
    drop(make(folder));
    let dumped = |words: &[&str]| asked(words, folder);
    let raw = (0, "a page of bytes.".to_string(), String::new());
    assert_eq!(dumped(&["dump", "F", "2", "1"]), raw);
    assert_eq!(dumped(&["dump", "F", "3", "1", "--line", "1"]), raw);
    let hex = "00000000  61 20 70 61 67 65 20 6f 66 20 62 79 74 65 73 2e  a page of bytes.\n";
    assert_eq!(
        dumped(&["dump", "--hex", "F", "2", "1"]),
        (0, hex.into(), String::new())
    );
    let hex = "00000000  05 05 05 05 05 05 05 05 05 05 05 05 05 05 05 05  ................\n";
    let line_1 = ["dump", "--hex", "--line", "1", "F", "3", "3"];
    assert_eq!(dumped(&line_1), (0, hex.into(), String::new()));

    let refused = |words: &[&str], why: &str| {
        let due = (1, String::new(), format!("pit: F: refused: {why}\n"));
        assert_eq!(dumped(words), due, "{words:?}");
    };
    refused(
        &["dump", "F", "4", "0"],
        "that version is not published on that line",
    );
    refused(
        &["dump", "F", "3", "3"],
        "the range or page is not inside that version",
    );
    refused(
        &["dump", "--line", "2", "F", "1", "0"],
        "no such line has begun",
    );
}

/// What a process that was killed leaves at the end is told, and stays.
#[test]
fn a_torn_end_is_told() {
    let (_place, folder) = &place("torn");
    drop(make(folder));
    let journal = folder.join("journal-1");
    let mut bytes = fs::read(&journal).unwrap();
    let whole = bytes.len();
    bytes.extend_from_within(64..100); // the front of an entry
    fs::write(&journal, bytes).unwrap();

    let entry = ENTRIES + 1;
    let torn =
        format!("36 bytes from byte {whole} on, which opening cuts off: entry {entry} is torn\n");
    let (status, told, errors) = asked(&["info", "F"], folder);
    assert!(told.contains(&format!("\nat its end:  {torn}")), "{told}");
    assert_eq!((status, errors), (0, String::new()));
    let due = format!("at the journal's end: {torn}{VERIFIED}");
    assert_eq!(asked(&["verify", "F"], folder), (0, due, String::new()));

    let (_, opened) = Durable::open(folder, Options::new()).unwrap();
    assert_eq!(
        opened.cut.map(|cut| (cut.offset, cut.bytes)),
        Some((whole as u64, 36))
    );
}

/// Flips a bit of a file.
fn damage(file: &Path, at: usize) {
    let mut bytes = fs::read(file).unwrap();
    bytes[at] ^= 4;
    fs::write(file, bytes).unwrap();
}

#[test]
fn damage_is_told() {
    let (_place, folder) = &place("damage");
    drop(make(folder));
    let (store, journal) = (folder.join("store-1"), folder.join("journal-1"));

    damage(&journal, 70);
    let was_synced =
        "the entry is damaged, and what was written after it says that it was on the disk";
    all_fail(
        folder,
        &format!("journal-1 at byte 64, entry 1: {was_synced}"),
    );
    damage(&journal, 70);
    damage(&journal, 0);
    all_fail(
        folder,
        "journal-1 at byte 0: the header is damaged or missing",
    );
    damage(&journal, 0);

    damage(&store, 100);
    all_fail(folder, "store-1: the file is damaged: its checksum differs");
    damage(&store, 100);
    let whole = fs::read(&store).unwrap();
    fs::write(&store, &whole[..391]).unwrap();
    all_fail(folder, "store-1: the file is cut off: 391 bytes of 392");
    fs::write(&store, whole).unwrap();
    assert_eq!(asked(&["verify", "F"], folder).0, 0);
}

#[test]
fn what_is_missing_is_told() {
    let (_place, folder) = &place("missing");
    let io = "the folder could not be opened or read: ";
    all_fail(
        folder,
        &format!("{io}No such file or directory (os error 2)"),
    );
    fs::create_dir(folder).unwrap();
    all_fail(folder, "no saved store is in the folder");
    fs::remove_dir(folder).unwrap();

    drop(make(folder));
    let [store, journal, lock] = ["store-1", "journal-1", "lock"].map(|name| folder.join(name));
    fs::remove_file(lock).unwrap();
    assert_eq!(asked(&["verify", "F"], folder).0, 0); // and makes none
    fs::remove_file(&journal).unwrap();
    all_fail(folder, "journal-1 is not in the folder");
    fs::create_dir(&journal).unwrap();
    let told = tool([OsStr::new("info"), folder.as_os_str()])
        .output()
        .unwrap();
    let words =
        "/journal-1: could not be opened, read or written: it is a folder, and no plain file\n";
    let told = String::from_utf8(told.stderr).unwrap();
    assert!(told.ends_with(words), "{told}");
    fs::remove_dir(journal).unwrap();
    all_fail(&store, &format!("{io}Not a directory (os error 20)"));
    fs::remove_file(store).unwrap();
    all_fail(folder, "no saved store is in the folder");
}

/// One process has it open, and the other ones look.
#[test]
fn a_folder_in_use_is_looked_at() {
    let (_place, folder) = &place("in-use");
    let durable = make(folder);
    let (status, told, errors) = asked(&["info", "F"], folder);
    let process = format!("\nopen by:     process {}\n", std::process::id());
    assert!(told.contains(&process), "{told}");
    assert!(
        told.contains("\nline 0:      version 3 published, 4 assigned;"),
        "{told}"
    );
    assert_eq!((status, errors), (0, String::new()));
    assert_eq!(asked(&["verify", "F"], folder).0, 0);
    assert_eq!(
        asked(&["dump", "F", "2", "1"], folder).1,
        "a page of bytes."
    );
    assert_eq!(
        inspect(folder).unwrap().open_by,
        OpenBy::Process(std::process::id())
    );

    durable.checkpoint().unwrap(); // and nobody has taken the lock from it
    assert!(Durable::open(folder, Options::new()).is_err());
    drop(durable);
    assert_eq!(inspect(folder).unwrap().open_by, OpenBy::Nobody);
    Durable::open(folder, Options::new()).unwrap();
}

/// Beside a writer whose store is saved anew every few updates, every look finds a whole store.
#[test]
fn a_folder_is_looked_at_while_it_is_written() {
    const UPDATES: u64 = 400;
    const LOOKS: usize = 20;
    let (_place, folder) = &place("written");
    let store = Store::format(Limits::new(16, UPDATES, UPDATES, UPDATES)).unwrap();
    let options = Options::new().checkpoint_at(2_000);
    let durable = Durable::create(folder, store, options).unwrap();
    thread::scope(|scope| {
        let writer = scope.spawn(|| {
            for version in 1..=UPDATES {
                let page = [version as u8; 16];
                durable.update(LIVE, PageIndex(0), &[&page]).unwrap();
            }
        });
        let (mut seen, mut looks) = (Version(0), 0);
        while looks < LOOKS || !writer.is_finished() {
            let known = durable.recent(LIVE).unwrap();
            let look = inspect(folder).unwrap().store;
            let recent = look.recent(LIVE).unwrap();
            assert!(
                recent >= known && recent >= seen,
                "{recent} after {known} and {seen}"
            );
            for version in (1..=recent.0).map(Version) {
                let first = look.with_view(LIVE, version, PageIndex(0), |page| page[0]);
                assert_eq!(first, Ok(version.0 as u8));
            }
            (seen, looks) = (recent, looks + 1);
        }
    });
    drop(durable); // which may still be saving
    assert_eq!(asked(&["verify", "F"], folder).0, 0);
}

#[test]
fn wrong_words_are_told() {
    for (words, why) in [
        (&[][..], "nothing is asked for"),
        (&["info"], "info takes one folder"),
        (&["look", "folder"], "no such command: look"),
        (
            &["dump", "folder", "1"],
            "dump takes a folder, a version and a page",
        ),
        (&["dump", "folder", "one", "0"], "not a number: one"),
        (&["verify", "--fast", "folder"], "no such option: --fast"),
    ] {
        let output = tool(words).output().unwrap();
        assert_eq!(output.status.code(), Some(2), "{words:?}");
        let told = String::from_utf8(output.stderr).unwrap();
        assert_eq!(told, format!("pit: {why}\n{USAGE}"));
        assert!(output.stdout.is_empty());
    }
    let output = tool(["--help"]).output().unwrap();
    assert!(output.status.success() && output.stderr.is_empty());
    assert!(output.stdout.starts_with(USAGE.as_bytes()));
}

/// A process that has ended leaves a pipe that nobody reads.
#[test]
fn a_closed_pipe_ends_it_quietly() {
    let mut ended = Command::new("true").stdin(Stdio::piped()).spawn().unwrap();
    let pipe = ended.stdin.take().unwrap();
    ended.wait().unwrap();
    let output = tool(["--help"]).stdout(Stdio::from(pipe)).output().unwrap();
    assert!(output.status.success() && output.stderr.is_empty());
}

/// A store whose file is whole, and which no calls left.
#[test]
fn areas_that_no_calls_leave_are_found() {
    let (place, folder) = &place("areas");
    let made = make(&place.0.join("made")).to_store();
    let verified = |change: fn(&mut PartsMut<'_>)| {
        let (state, windows, mut areas) = made.clone().into_parts();
        change(&mut areas.parts_mut());
        let store = Store::resume(state, windows, areas);
        drop(Durable::create(folder, store, Options::new()).unwrap());
        let answer = asked(&["verify", "F"], folder);
        fs::remove_dir_all(folder).unwrap();
        answer
    };
    let found = |place: &str| {
        let words = "the areas are not what the register's updates leave: they differ in";
        (1, String::new(), format!("pit: F: {words} {place}\n"))
    };
    assert_eq!(verified(|a| a.nodes[0] ^= 1), found("node place 0"));
    assert_eq!(verified(|a| a.nodes[13] ^= 1), found("node place 6"));
    let entry = verified(|a| a.register[1].entries.from0 ^= 1);
    assert_eq!(entry, found("record 2"));
    // a page that is not taken is not saved, and any bytes may stand in one that is put
    assert_eq!(verified(|a| a.pages[16 * 31] ^= 1).0, 0);
    assert_eq!(verified(|a| a.pages[0] ^= 1).0, 0);
}

/// Updates of one page, each with this byte.
fn fill(durable: &Durable, fills: &[u8]) {
    for byte in fills {
        durable.update(LIVE, PageIndex(0), &[&[*byte; 16]]).unwrap();
    }
}

/// The files of a generation, to be put back.
fn aside(folder: &Path, names: [&str; 2]) -> [(PathBuf, Vec<u8>); 2] {
    names.map(|name| {
        let path = folder.join(name);
        let bytes = fs::read(&path).unwrap();
        (path, bytes)
    })
}

fn put_back(files: &[(PathBuf, Vec<u8>)]) {
    files
        .iter()
        .for_each(|(path, bytes)| fs::write(path, bytes).unwrap());
}

/// A checkpoint whose process died before it removed what went before.
#[test]
fn an_earlier_generation_is_compared() {
    let (place, _) = place("earlier");
    let [folder, other] = ["folder", "other"].map(|name| place.0.join(name));
    let filled = |folder: &Path, fills: &[u8]| {
        let store = Store::format(Limits::new(16, 16, 16, 16)).unwrap();
        let durable = Durable::create(folder, store, Options::new()).unwrap();
        fill(&durable, fills);
        durable
    };
    let durable = filled(&folder, &[1, 2, 3]);
    let first = aside(&folder, ["store-1", "journal-1"]);
    durable.checkpoint().unwrap();
    fill(&durable, &[4]);
    drop(durable);
    let verified = |entries| format!("verified: 4 versions, 4 pages, {entries} entries\n");
    assert_eq!(asked(&["verify", "F"], &folder).1, verified(5));
    assert_eq!(inspect_earlier(&folder).unwrap(), []);

    put_back(&first);
    let earlier = inspect_earlier(&folder).unwrap();
    assert_eq!(earlier[0].comparison, Comparison::Same);
    let due = format!(
        "store-1 and 15 entries after it make store-2\n{}",
        verified(20)
    );
    assert_eq!(asked(&["verify", "F"], &folder), (0, due, String::new()));

    put_back(&first[..1]);
    fs::remove_file(folder.join("journal-1")).unwrap();
    let gone = "store-1 is left over, and journal-1 is gone: not compared\n";
    assert_eq!(
        asked(&["verify", "F"], &folder).1,
        format!("{gone}{}", verified(5))
    );

    // of another store with as many calls
    drop(filled(&other, &[1, 7, 3]));
    fs::copy(other.join("journal-1"), folder.join("journal-1")).unwrap();
    let (status, told, errors) = asked(&["verify", "F"], &folder);
    assert_eq!((status, &told[..]), (1, ""));
    let words = "pit: F: journal-1 at byte 0: the journal does not go on after the store";
    assert!(errors.starts_with(words), "{errors}");
    assert_eq!(asked(&["info", "F"], &folder).0, 0); // which opening does not read
}

#[test]
fn versions_that_were_not_kept_are_counted() {
    let (_place, folder) = &place("rebuilt");
    let store = Store::format(Limits::new(16, 8, 8, 8)).unwrap();
    let durable = Durable::create(folder, store, Options::new()).unwrap();
    fill(&durable, &[1, 2, 3, 4, 5]);
    let first = aside(folder, ["store-1", "journal-1"]);
    durable
        .rebuild(durable.limits(), &[(LIVE, Version(2))])
        .unwrap();
    fill(&durable, &[5, 6]);
    drop(durable);
    let not_kept = "3 versions were not kept when the store was rebuilt\n";
    let due = format!("{not_kept}verified: 4 versions, 4 pages, 10 entries\n");
    assert_eq!(asked(&["verify", "F"], folder), (0, due, String::new()));
    let told = asked(&["info", "F"], folder).1;
    let line =
        "version 7 published, 7 assigned; 16 bytes, 1 page; 3 earlier versions were not kept\n";
    assert!(told.contains(line), "{told}");
    assert_eq!(asked(&["dump", "F", "3", "0"], folder).0, 1);
    assert_eq!(
        asked(&["dump", "F", "2", "0"], folder).1,
        "\u{2}".repeat(16)
    );

    put_back(&first);
    let due = "store-1 was rebuilt into store-2\n";
    assert!(asked(&["verify", "F"], folder).1.starts_with(due));
}

/// Whatever the calls were, and in whatever order, the store is the one that its updates leave.
#[test]
fn drawn_stores_are_what_their_updates_leave() {
    let scenes = named("PIT_SCENES", 60);
    let first = first_seed("drawn_stores_are_what_their_updates_leave");
    let (place, _) = place("drawn");
    for seed in first..first + scenes {
        let folder = place.0.join(seed.to_string());
        drop(Durable::create(&folder, drawn(seed), Options::new()).unwrap());
        let (status, told, errors) = asked(&["verify", "F"], &folder);
        assert_eq!(status, 0, "PIT_SEED={seed}: {told}{errors}");
    }
}

/// A store with updates at every stage, on some lines. What it refuses makes no difference.
fn drawn(seed: u64) -> Store {
    let mut random = Random::new(seed);
    let mut store = Store::format(Limits::new(16, 120, 400, 30)).unwrap();
    for _ in 0..random.below(400) {
        let call = draw(&mut random, &Shown::of(&store), &CALLS);
        let _ = call::make(&mut store, &call);
    }
    store
}
