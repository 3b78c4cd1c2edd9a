//! This program again, as a process that is killed: what it is started as, and what it says before it is killed.

use crate::random::Random;
use std::io::{BufRead, BufReader, Write};
use std::path::Path;
use std::process::{Child, Command, Stdio};
use std::thread;
use std::time::Duration;

/// What a process of this program is to do, and where.
pub struct Part<'a> {
    pub name: &'a str,
    pub folder: &'a Path,
    pub seed: u64,
    /// How many processes have worked in the folder before.
    pub run: u64,
}

/// Limits of the shell that the process is started under; none where it is empty.
pub fn start(part: &Part<'_>, limits: &str) -> Child {
    let mut command = Command::new("sh");
    command.args(["-c", &format!("{limits}exec \"$@\""), "sh"]);
    command.arg(std::env::current_exe().unwrap());
    command.args([
        "--ignored",
        "--exact",
        "--nocapture",
        "kills::child::as_a_child",
    ]);
    command.env("PIT_CHILD", part.name);
    command.env("PIT_CHILD_FOLDER", part.folder);
    command.env("PIT_CHILD_SEED", part.seed.to_string());
    command.env("PIT_CHILD_RUN", part.run.to_string());
    command.stdin(Stdio::null()).stdout(Stdio::piped());
    command.spawn().unwrap()
}

#[test]
#[ignore = "a part that other tests start"]
fn as_a_child() {
    let variable = |name: &str| std::env::var(name).unwrap_or_default();
    let number = |name: &str| variable(name).parse().unwrap_or(0);
    let (name, folder) = (variable("PIT_CHILD"), variable("PIT_CHILD_FOLDER"));
    let part = Part {
        name: &name,
        folder: Path::new(&folder),
        seed: number("PIT_CHILD_SEED"),
        run: number("PIT_CHILD_RUN"),
    };
    say("started"); // on a line of its own
    match part.name {
        "alone" => super::alone::work(&part),
        "crowd" => super::crowd::work(&part),
        "full journal" => super::full::fill_the_journal(&part),
        "full disk" => super::full::fill_the_disk(&part),
        "holds" => super::held::hold(&part),
        _ => (), // started by hand, it has no part
    }
}

/// Tells the process that has started this one, at once and in one piece.
pub fn say(words: &str) {
    let line = format!("\n@{words}\n");
    let mut out = std::io::stdout().lock();
    out.write_all(line.as_bytes()).unwrap();
    out.flush().unwrap();
}

/// When a process is killed: after it has said so much, and some time.
#[derive(Clone, Copy, Debug)]
pub struct KillPoint {
    said: usize,
    then: Duration,
}

impl KillPoint {
    /// When it has ended.
    pub const NEVER: KillPoint = KillPoint {
        said: usize::MAX,
        then: Duration::ZERO,
    };

    /// Also while it starts; now and then never, if it ends before.
    pub fn draw(random: &mut Random, most: u64) -> KillPoint {
        let said = match random.below(8) {
            0 => random.below(3),
            1 => 2 * most,
            _ => random.below(most),
        };
        let scale = 1 << random.below(13);
        let micros = random.below(scale);
        KillPoint {
            said: said as usize,
            then: Duration::from_micros(micros),
        }
    }
}

/// Kills a process at some moment. Gives what it has said up to its end, and whether it was killed.
pub fn kill(mut child: Child, at: KillPoint) -> (Vec<String>, bool) {
    let out = BufReader::new(child.stdout.take().unwrap());
    let lines = out.lines().map(|line| line.unwrap());
    let mut said = lines.filter_map(|line| line.strip_prefix('@').map(str::to_string));
    let mut all: Vec<String> = said.by_ref().take(at.said).collect();
    thread::sleep(at.then);
    let _ = child.kill(); // it may have ended
    all.extend(said);
    let end = child.wait().unwrap();
    assert!(
        end.success() || end.code().is_none(),
        "it failed by itself: {end}, after {:?}",
        all.last()
    );
    (all, !end.success())
}
