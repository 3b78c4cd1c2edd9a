//! The files of a folder: its locks, plain files alone, their modes, and a folder that is read alone.

use crate::folder::Folder;
use crate::support::call::{each, make_on, Call, Update};
use pit_host::{
    inspect, ByteOffset, Durable, Failure, FileError, Limits, Line, Minute, OpenBy, Options,
    PageIndex, Reader, Shared, Store, Ticket, Version,
};
use std::collections::BTreeMap;
use std::fs::{self, Permissions};
use std::os::unix::fs::{symlink, MetadataExt, PermissionsExt};
use std::path::{Path, PathBuf};
use std::process::{Command, Stdio};
use std::sync::mpsc;
use std::thread;
use std::time::Duration;

const LIVE: Line = Line(0);

fn store() -> Store {
    Store::format(Limits::new(16, 64, 128, 32)).unwrap()
}

/// A place for folders; and one in it with a store of two versions.
fn made(name: &str, options: Options) -> (Folder, PathBuf, Durable) {
    let place = Folder::new(&format!("folder-files-{name}"));
    let path = fs::canonicalize(&place.0).unwrap().join("folder");
    let durable = Durable::create(&path, store(), options).unwrap();
    fill(&durable);
    (place, path, durable)
}

/// Makes two versions.
fn fill(durable: &Durable) {
    durable.set_clock(|| Minute(0));
    durable.append_pages(LIVE, &[&[1; 16], &[2; 16]]).unwrap();
    durable.update(LIVE, PageIndex(1), &[&[3; 16]]).unwrap();
}

fn open(path: &Path) -> Result<Durable, Failure> {
    Durable::open(path, Options::new()).map(|(durable, _)| durable)
}

// This program again, as another process.

/// Runs a part of this program in a folder, after some words of the shell, and gives what it says.
fn as_another(part: &str, folder: &Path, before: &str) -> String {
    let mut command = Command::new("sh");
    command.args(["-c", &format!("{before}exec \"$@\""), "sh"]);
    command.arg(std::env::current_exe().unwrap());
    command.args([
        "--ignored",
        "--exact",
        "--nocapture",
        "plain_files::as_a_child",
    ]);
    command.env("PIT_CHILD", part).env("PIT_FOLDER", folder);
    let output = command.stdin(Stdio::null()).output().unwrap();
    assert!(output.status.success(), "{output:?}");
    let said = String::from_utf8(output.stdout).unwrap();
    let said = said.lines().find_map(|line| line.strip_prefix('@'));
    said.expect("it says something").to_string()
}

#[test]
#[ignore = "a part that other tests start"]
fn as_a_child() {
    let folder = PathBuf::from(std::env::var_os("PIT_FOLDER").unwrap_or_default());
    let said = match std::env::var("PIT_CHILD").as_deref() {
        Ok("opens") => open(&folder).map_or_else(|refused| refused.to_string(), |_| "open".into()),
        Ok("usual") => make_generations(&folder, Options::new()),
        Ok("group") => make_generations(&folder, Options::new().mode(0o640)),
        _ => return, // started by hand, it has no part
    };
    println!("\n@{said}");
}

// Locks.

#[test]
fn with_the_file_lock_removed_nobody_else_opens_the_folder() {
    let (_place, path, durable) = made("unlocked", Options::new());
    fs::remove_file(path.join("lock")).unwrap();
    let refused = open(&path).unwrap_err();
    assert!(matches!(refused, Failure::File(FileError::InUse { .. })));
    assert_eq!(as_another("opens", &path, ""), refused.to_string());
    assert!(!path.join("lock").exists());
    let made = Durable::create(&path, store(), Options::new()).unwrap_err();
    assert!(matches!(made, Failure::File(FileError::InUse { .. })));

    let open_by = inspect(&path).unwrap().open_by;
    if open_by != OpenBy::NotKnown {
        let own = std::process::id();
        assert_eq!(open_by, OpenBy::Process(own));
        let words = format!("the folder is open already, by process {own}");
        assert_eq!(refused.to_string(), words);
    }
    // it goes on, and nothing is lost
    let version = durable.update(LIVE, PageIndex(0), &[&[4; 16]]).unwrap();
    drop(durable);
    assert_eq!(open(&path).unwrap().recent(LIVE), Ok(version));
    assert_eq!(as_another("opens", &path, ""), "open");
}

/// Another file in the place of `lock` is noticed, as another folder in the folder's.
#[test]
fn another_lock_is_noticed() {
    let (_place, path, durable) = made("relocked", Options::new());
    fs::remove_file(path.join("lock")).unwrap();
    fs::write(path.join("lock"), "").unwrap();
    assert!(open(&path).is_err());
    let refused = durable.checkpoint().unwrap_err();
    assert!(matches!(refused, Failure::File(FileError::FolderMoved)));
}

// Plain files alone.

/// What a link leads to, which is never changed.
const PRECIOUS: &str = "another's";

fn links_to_precious(place: &Folder, at: &Path) {
    fs::write(place.path("precious"), PRECIOUS).unwrap();
    symlink(place.path("precious"), at).unwrap();
}

/// It was refused, in words that end so, and what the link led to is as it was.
fn refused_and_untouched(place: &Folder, refused: Failure, words: &str) {
    let refused = refused.to_string();
    assert!(refused.ends_with(words), "{refused}");
    assert_eq!(
        fs::read(place.path("precious")).unwrap(),
        PRECIOUS.as_bytes()
    );
}

const IS_A_LINK: &str =
    "could not be opened, read or written: it is a symbolic link, and no plain file";

#[test]
fn no_link_is_followed_where_a_folder_is_opened() {
    let (place, path, durable) = made("links", Options::new());
    drop(durable);
    for (name, words) in [
        ("lock", format!("folder/lock: {IS_A_LINK}")),
        ("journal-1", format!("folder/journal-1: {IS_A_LINK}")),
        ("store-1", format!("folder/store-1: {IS_A_LINK}")),
    ] {
        let (at, aside) = (path.join(name), place.path("aside"));
        fs::rename(&at, &aside).unwrap();
        links_to_precious(&place, &at);
        refused_and_untouched(&place, open(&path).unwrap_err(), &words);
        // a link that leads to nothing, and one to the very file
        for target in [place.path("nowhere"), aside.clone()] {
            fs::remove_file(&at).unwrap();
            symlink(&target, &at).unwrap();
            refused_and_untouched(&place, open(&path).unwrap_err(), &words);
        }
        assert!(!place.path("nowhere").exists());
        fs::rename(&aside, &at).unwrap();
        open(&path).unwrap();
    }
}

/// A second name of somebody's file cannot be told from the file, so it is locked, and not written.
#[test]
fn nothing_is_written_to_a_lock_with_another_name() {
    let (place, path, durable) = made("hard-link", Options::new());
    drop(durable);
    fs::write(place.path("precious"), PRECIOUS).unwrap();
    fs::remove_file(path.join("lock")).unwrap();
    fs::hard_link(place.path("precious"), path.join("lock")).unwrap();
    open(&path).unwrap();
    assert_eq!(
        fs::read_to_string(place.path("precious")).unwrap(),
        PRECIOUS
    );
}

#[test]
fn no_link_is_followed_where_a_folder_goes_on() {
    let (place, path, durable) = made("next-links", Options::new());
    let generation = || inspect(&path).unwrap().found.generation;
    let journal = path.join("journal-2");
    links_to_precious(&place, &journal);
    let words = format!("folder/journal-2: {IS_A_LINK}");
    refused_and_untouched(&place, durable.checkpoint().unwrap_err(), &words);
    let rebuilt = durable.rebuild(durable.limits(), &[]);
    refused_and_untouched(&place, rebuilt.unwrap_err(), &words);
    assert!(fs::read_link(&journal).is_ok());
    fs::remove_file(&journal).unwrap();
    durable.checkpoint().unwrap();
    assert_eq!(generation(), 2);

    let saved = path.join("store-3");
    links_to_precious(&place, &saved);
    let words = format!("folder/store-3: {IS_A_LINK}");
    refused_and_untouched(&place, durable.checkpoint().unwrap_err(), &words);
    assert!(fs::read_link(&saved).is_ok());
    fs::remove_file(&saved).unwrap();
    durable.checkpoint().unwrap();
    assert_eq!(generation(), 4);
}

/// A rebuild that fails notes in the journal before it that it has ended: in that file itself.
#[test]
fn no_link_is_followed_where_a_rebuild_fails() {
    let (place, path, durable) = made("rebuild-links", Options::new());
    let (journal, aside) = (path.join("journal-1"), place.path("aside"));
    symlink("nowhere", path.join("store-2")).unwrap(); // so that no store is saved there
    fs::rename(&journal, &aside).unwrap();
    links_to_precious(&place, &journal);
    let rebuilt = durable.rebuild(durable.limits(), &[]);
    let words = format!("folder/store-2: {IS_A_LINK}");
    refused_and_untouched(&place, rebuilt.unwrap_err(), &words);
    let failed = durable.begin(1).unwrap_err();
    assert!(matches!(
        failed,
        Failure::File(FileError::JournalFailed { .. })
    ));
    fs::rename(&aside, &journal).unwrap();
    durable.reopen().unwrap();
    assert_eq!(durable.recent(LIVE), Ok(Version(2)));
    durable.rebuild(durable.limits(), &[]).unwrap();
}

/// What is left of a journal that was only begun makes room for the next one; no other file does.
#[test]
fn the_next_journal_is_a_new_file() {
    let (_place, path, durable) = made("next", Options::new());
    let next = path.join("journal-2");
    for there in [&[7; 65][..], &[7; 1_000]] {
        fs::write(&next, there).unwrap();
        let refused = durable.checkpoint().unwrap_err();
        match refused {
            Failure::File(FileError::Io { path, .. }) => assert_eq!(path, next),
            other => panic!("{other}"),
        }
        assert_eq!(fs::read(&next).unwrap(), there);
    }
    fs::write(&next, [7; 64]).unwrap();
    let held = fs::File::open(&next).unwrap();
    durable.checkpoint().unwrap();
    assert_eq!(held.metadata().unwrap().len(), 64); // it is another one
    drop(durable);
    assert_eq!(open(&path).unwrap().recent(LIVE), Ok(Version(2)));
}

#[test]
fn a_new_folder_is_not_made_over_links() {
    let place = Folder::new("folder-files-new-links");
    let path = place.path("folder");
    fs::create_dir(&path).unwrap();
    for name in ["lock", "journal-1"] {
        let at = path.join(name);
        links_to_precious(&place, &at);
        let refused = Durable::create(&path, store(), Options::new()).unwrap_err();
        refused_and_untouched(&place, refused, &format!("folder/{name}: {IS_A_LINK}"));
        fs::remove_file(&at).unwrap();
    }
    Durable::create(&path, store(), Options::new()).unwrap();
}

/// What this gives, at once: the test fails where it waits for something.
fn at_once<T: Send + 'static>(act: impl FnOnce() -> T + Send + 'static) -> T {
    let (send, receive) = mpsc::channel();
    thread::spawn(move || send.send(act()));
    let given = receive.recv_timeout(Duration::from_secs(20));
    given.expect("an answer, and no panic")
}

fn pipe(path: &Path) {
    assert!(Command::new("mkfifo").arg(path).status().unwrap().success());
}

/// All ways to look at a folder, and what they find wrong.
fn looks(path: &Path) -> [Option<String>; 3] {
    let words = |failure: Failure| failure.to_string();
    [
        open(path).err().map(words),
        Reader::open(path).err().map(words),
        inspect(path).err().map(words),
    ]
}

/// What the tool says is wrong with a folder.
fn tool_fails(command: &str, folder: &Path) -> String {
    let mut tool = Command::new(env!("CARGO_BIN_EXE_pit"));
    let answer = tool.arg(command).arg(folder).output().unwrap();
    assert_eq!(answer.status.code(), Some(1));
    String::from_utf8(answer.stderr).unwrap()
}

#[test]
fn a_pipe_is_not_waited_for() {
    let (place, path, durable) = made("pipes", Options::new());
    drop(durable);
    let what = "could not be opened, read or written: it is a pipe, and no plain file";
    for (name, words) in [
        ("lock", format!("{}: {what}", path.join("lock").display())),
        (
            "store-1",
            format!("{}: {what}", path.join("store-1").display()),
        ),
        (
            "journal-1",
            format!("{}: {what}", path.join("journal-1").display()),
        ),
    ] {
        let (at, aside) = (path.join(name), place.path("aside"));
        fs::rename(&at, &aside).unwrap();
        pipe(&at);
        let folder = path.clone();
        let [opened, read, inspected] = at_once(move || looks(&folder));
        assert_eq!(opened.as_ref(), Some(&words));
        assert_eq!(inspected.as_ref(), Some(&words));
        assert_eq!(read, Some(words.clone()).filter(|_| name != "lock"));
        for command in ["info", "verify"] {
            let told = tool_fails(command, &path);
            assert!(told.ends_with(&format!("{words}\n")), "{told}");
            assert_eq!(told.matches(path.to_str().unwrap()).count(), 1, "{told}");
        }
        fs::rename(&aside, &at).unwrap();
        open(&path).unwrap();
    }
}

#[test]
fn a_pipe_is_not_waited_for_by_who_saves_or_loads() {
    let (place, path, durable) = made("next-pipes", Options::new());
    pipe(&path.join("journal-2"));
    let handle = durable.clone();
    let refused = at_once(move || handle.checkpoint().unwrap_err());
    assert!(refused.to_string().contains("journal-2: "), "{refused}");
    let file = place.path("pipe");
    pipe(&file);
    for loaded in [
        at_once({
            let file = file.clone();
            move || Store::load(file).map(drop)
        }),
        at_once(move || Shared::load(file).map(drop)),
    ] {
        let words = loaded.unwrap_err().to_string();
        assert!(
            words.ends_with("it is a pipe, and no plain file"),
            "{words}"
        );
    }
}

/// A folder in a file's place, and a socket.
#[test]
fn what_else_is_no_plain_file_is_told() {
    let (place, path, durable) = made("no-files", Options::new());
    drop(durable);
    let (at, aside) = (path.join("store-1"), place.path("aside"));
    fs::rename(&at, &aside).unwrap();
    fs::create_dir(&at).unwrap();
    let told = |what: &str| {
        for words in looks(&path).into_iter().flatten() {
            let due = format!("it is {what}, and no plain file");
            assert!(words.ends_with(&due), "{words}");
        }
    };
    told("a folder");
    fs::remove_dir(&at).unwrap();
    let _socket = std::os::unix::net::UnixListener::bind(&at).unwrap();
    told("a socket");
    fs::rename(&aside, &at).unwrap();
    open(&path).unwrap();
}

// Modes.

fn mode(path: impl AsRef<Path>) -> u32 {
    fs::metadata(path).unwrap().permissions().mode() & 0o7777
}

/// The modes of all files in a folder, by their names.
fn modes(folder: &Path) -> BTreeMap<String, u32> {
    let entries = fs::read_dir(folder).unwrap().map(|entry| entry.unwrap());
    entries
        .map(|entry| {
            let name = entry.file_name().into_string().unwrap();
            (name, mode(entry.path()))
        })
        .collect()
}

/// A folder of four generations, each with files of just this mode. Gives the folder's own.
fn make_generations(folder: &Path, options: Options) -> String {
    let check = |generation: u64, was_closed: bool| {
        let store = format!("store-{generation}");
        let journal = format!("journal-{generation}");
        let mut due = vec![journal, "lock".into(), store];
        due.extend(was_closed.then(|| "closed".to_string()));
        let due = due.into_iter().map(|name| (name, options.mode));
        assert_eq!(modes(folder), due.collect());
    };
    let durable = Durable::create(folder, store(), options).unwrap();
    check(1, false);
    durable.append_pages(LIVE, &[&[1; 16]]).unwrap();
    durable.checkpoint().unwrap();
    check(2, false);
    durable.rebuild(durable.limits(), &[]).unwrap();
    check(3, false);
    drop(durable);
    let (durable, _) = Durable::open(folder, options).unwrap();
    check(3, true);
    durable.checkpoint().unwrap();
    check(4, true);
    format!("{:o}", mode(folder))
}

#[test]
fn files_have_the_mode_of_the_options_whatever_the_mask_is() {
    let place = Folder::new("folder-files-modes");
    for mask in ["000", "022", "077", "777"] {
        for (part, due) in [("usual", "700"), ("group", "750")] {
            let path = place.path(&format!("{part}-{mask}"));
            let said = as_another(part, &path, &format!("umask {mask}; "));
            assert_eq!(said, due, "{mask}");
        }
    }
    // what there is, is kept: the folder's own mode, and the files' to be read by their owner
    let path = place.path("there");
    fs::create_dir(&path).unwrap();
    fs::set_permissions(&path, Permissions::from_mode(0o711)).unwrap();
    let none = Options::new().mode(0);
    drop(Durable::create(&path, store(), none).unwrap());
    assert_eq!(mode(&path), 0o711);
    assert!(modes(&path).values().all(|mode| *mode == 0o600));
    let all = Options::new().mode(0o7_7777);
    drop(Durable::create(place.path("all"), store(), all).unwrap());
    assert!(modes(&place.path("all"))
        .values()
        .all(|mode| *mode == 0o777));
}

#[test]
fn an_old_lock_is_closed_to_others_and_the_next_generation_too() {
    let (_place, path, durable) = made("old", Options::new());
    drop(durable);
    for name in ["lock", "store-1", "journal-1"] {
        fs::set_permissions(path.join(name), Permissions::from_mode(0o664)).unwrap();
    }
    let group = Options::new().mode(0o640);
    drop(Durable::open(&path, group).unwrap());
    assert_eq!(mode(path.join("lock")), 0o640);
    let durable = open(&path).unwrap();
    assert_eq!(mode(path.join("lock")), 0o600);
    assert_eq!(mode(path.join("journal-1")), 0o664);
    durable.checkpoint().unwrap();
    assert!(modes(&path).values().all(|mode| *mode == 0o600));
    drop(durable);
    drop(Durable::open(&path, group).unwrap()); // nothing is opened to more
    assert_eq!(mode(path.join("lock")), 0o600);
}

// Reading alone.

/// Everything of a folder that a look could change: names, bytes, modes, and when a file and what is known of it last changed.
type Whole = BTreeMap<PathBuf, (Vec<u8>, u32, [i64; 4])>;

fn whole(folder: &Path) -> Whole {
    let of = |path: PathBuf| {
        let found = fs::metadata(&path).unwrap();
        let written = [found.mtime(), found.mtime_nsec()];
        let times = [written[0], written[1], found.ctime(), found.ctime_nsec()];
        let bytes = fs::read(&path).unwrap_or_default(); // none of the folder itself
        (path, (bytes, found.mode(), times))
    };
    let entries = fs::read_dir(folder).unwrap();
    let paths = entries.map(|entry| entry.unwrap().path());
    paths.chain([folder.to_path_buf()]).map(of).collect()
}

/// What all calls that would change the store answer.
fn changes(reader: &Reader) -> Vec<Result<(), Failure>> {
    let (ticket, page, minute) = (Ticket(1), vec![7; 16], Minute(0));
    let mut calls = each(LIVE, Version(1), [ticket; 3], &page);
    calls.retain(Call::changes);
    calls.extend([
        Call::Begin(0),
        Call::Update(Update {
            line: LIVE,
            at: None,
            pages: vec![page],
            minute,
        }),
        Call::Finish(ticket, minute),
        Call::Rebuild(reader.limits(), vec![], vec![]),
    ]);
    let made = calls.iter().map(|call| make_on(reader, call).map(drop));
    let due = reader.publish_due(LIVE).map(drop);
    made.chain([due]).collect()
}

/// The folder is read, and nothing in it changes. Gives what is read of its last version.
fn read_alone(path: &Path, place: &Folder) -> (Version, Vec<u8>) {
    let before = whole(path);
    let (reader, opened) = Reader::open(path).unwrap();
    for refused in changes(&reader) {
        let refused = refused.unwrap_err();
        assert!(matches!(refused, Failure::File(FileError::ReadOnly)));
        assert_eq!(refused.to_string(), "the folder was opened to read alone");
    }
    let last = reader.recent(LIVE).unwrap();
    let snapshot = reader.snapshot(LIVE, last).unwrap();
    let mut bytes = vec![0; snapshot.size() as usize];
    snapshot.read(ByteOffset(0), &mut bytes).unwrap();

    assert_eq!(reader.save(place.path("saved")).unwrap(), last);
    let saved = Shared::load(place.path("saved")).unwrap();
    assert!(saved.to_store() == reader.to_store());
    let seen = inspect(path).unwrap();
    assert!(seen.store.to_store() == reader.to_store() && seen.found == opened);
    drop((snapshot, reader));
    assert!(whole(path) == before);
    (last, bytes)
}

/// What is read of a folder that [`fill`] was called on.
fn due() -> (Version, Vec<u8>) {
    (Version(2), [[1; 16], [3; 16]].concat())
}

#[test]
fn a_folder_is_read_alone_and_nothing_in_it_changes() {
    let (place, path, durable) = made("reader", Options::new());
    let due = due();
    assert_eq!(read_alone(&path, &place), due); // while it is open
    drop(durable);
    assert_eq!(read_alone(&path, &place), due);

    // what opening would cut off or remove stays too
    let journal = path.join("journal-1");
    let mut bytes = fs::read(&journal).unwrap();
    let length = bytes.len() as u64;
    bytes.extend_from_within(64..100);
    fs::write(&journal, bytes).unwrap();
    fs::remove_file(path.join("lock")).unwrap();
    for name in [".pit-1-1.new", "journal-0", "journal-2", "store-0"] {
        fs::write(path.join(name), "").unwrap();
    }
    for name in ["journal-1", "store-1"] {
        fs::set_permissions(path.join(name), Permissions::from_mode(0o400)).unwrap();
    }
    fs::set_permissions(&path, Permissions::from_mode(0o500)).unwrap();
    assert_eq!(read_alone(&path, &place), due);
    let (_, opened) = Reader::open(&path).unwrap();
    let cut = opened.cut.expect("a torn entry");
    assert_eq!((cut.offset, cut.bytes, cut.torn), (length, 36, true));
    fs::set_permissions(&path, Permissions::from_mode(0o700)).unwrap();
}

#[test]
fn what_is_no_store_is_not_read() {
    let place = Folder::new("folder-files-none");
    let refused = Reader::open(place.path("nowhere")).unwrap_err();
    let words = format!(
        "{}: the folder could not be",
        place.path("nowhere").display()
    );
    assert!(refused.to_string().starts_with(&words), "{refused}");
    let refused = Reader::open(&place.0).unwrap_err();
    assert!(matches!(refused, Failure::File(FileError::NoStore)));
    assert_eq!(place.names(), [""; 0]);
}

// A disk of a test's own.

/// A disk in memory, of a megabyte and so many files; none where this process may not have one.
struct Disk(Folder);

impl Disk {
    fn new(name: &str, files: u64) -> Option<Disk> {
        let size = format!("size=1m,nr_inodes={files}");
        Disk::mounted(name, &["-t", "tmpfs", "-o", &size, "none"])
    }

    /// The same disk in another place, where nothing can be written.
    fn read_only(&self, name: &str) -> Disk {
        let place = self.0 .0.to_str().unwrap();
        let disk = Disk::mounted(name, &["--bind", "-o", "ro", place]).unwrap();
        assert!(fs::write(disk.0.path("new"), "").is_err());
        disk
    }

    fn mounted(name: &str, what: &[&str]) -> Option<Disk> {
        let at = Folder::new(&format!("folder-files-{name}"));
        let mut mount = Command::new("mount");
        mount.args(what).arg(&at.0).stderr(Stdio::null());
        match mount.status() {
            Ok(status) if status.success() => Some(Disk(at)),
            _ => {
                eprintln!("{name}: not run, since no disk can be mounted here");
                None
            }
        }
    }

    /// Makes files, each in this many bytes, until there is no room for another.
    fn fill(&self, bytes: usize) {
        let is_full = |k| {
            let path = self.0.path(&format!("{bytes}-{k}"));
            fs::write(path, vec![0; bytes]).is_err()
        };
        assert!((0..10_000).any(is_full));
    }
}

impl Drop for Disk {
    fn drop(&mut self) {
        let _ = Command::new("umount").arg("-l").arg(&self.0 .0).status();
    }
}

fn made_on(disk: &Disk) -> PathBuf {
    let path = disk.0.path("folder");
    fill(&Durable::create(&path, store(), Options::new()).unwrap());
    path
}

/// Without a file `lock`, and no room to make one, the folder's own lock is enough.
#[test]
fn a_disk_without_room_for_another_file_is_opened() {
    let disk = match Disk::new("no-files-left", 12) {
        Some(disk) => disk,
        None => return,
    };
    let path = made_on(&disk);
    fs::remove_file(path.join("lock")).unwrap();
    disk.fill(0);
    let durable = open(&path).unwrap();
    assert!(!path.join("lock").exists());
    let refused = open(&path).unwrap_err();
    assert!(matches!(refused, Failure::File(FileError::InUse { .. })));
    let version = durable.update(LIVE, PageIndex(0), &[&[4; 16]]).unwrap();
    assert!(durable.checkpoint().is_err());
    drop(durable);
    for name in ["0-0", "0-1", "0-2"] {
        fs::remove_file(disk.0.path(name)).unwrap();
    }
    let durable = open(&path).unwrap();
    assert_eq!(durable.recent(LIVE), Ok(version));
    durable.checkpoint().unwrap();
}

#[test]
fn a_full_disk_and_one_that_is_read_only_are_read() {
    let disk = match Disk::new("full", 1_000) {
        Some(disk) => disk,
        None => return,
    };
    let elsewhere = Folder::new("folder-files-elsewhere");
    let path = made_on(&disk);
    let due = due();
    disk.fill(4_096);
    assert_eq!(read_alone(&path, &elsewhere), due);
    let read_only = disk.read_only("read-only");
    let path = read_only.0.path("folder");
    assert_eq!(read_alone(&path, &elsewhere), due);
    assert!(open(&path).is_err());
}
