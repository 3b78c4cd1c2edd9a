//! The commands at the top of the repository, and cargo's, as a user has them: what they install or ask for, what works
//! before anything is built, and `./steps --try`.

use std::fs;
use std::io::{BufRead, BufReader, Write};
use std::path::{Path, PathBuf};
use std::process::{Command, Output, Stdio};

/// A path of the repository.
fn top(path: &str) -> PathBuf {
    Path::new(env!("CARGO_MANIFEST_DIR")).join("..").join(path)
}

/// A folder of programs, removed again: a machine's whole `PATH`.
struct Machine(PathBuf);

impl Machine {
    fn new(name: &str) -> Machine {
        let folder = format!("pit-commands-{name}-{}", std::process::id());
        let machine = Machine(std::env::temp_dir().join(folder));
        fs::create_dir_all(&machine.0).unwrap();
        machine
    }

    /// Puts a program there, by the lines of its script. Another process writes it: what this one has open for writing,
    /// a process that another test starts just then would hold for a moment, and the system runs no such file.
    fn has(&self, program: &str, script: &str) {
        let write = "printf '#!/bin/sh\\n%s\\n' \"$1\" >\"$0\" && chmod +x \"$0\"";
        let mut sh = Command::new("sh");
        sh.args(["-c", write]).arg(self.0.join(program)).arg(script);
        assert!(sh.status().unwrap().success());
    }

    /// Asks for tools as the commands do, and tells whether they are there in the end.
    fn needs(&self, tools: &str) -> Output {
        let script = format!("say() {{ echo \"$*\"; }}; . \"$0\"; need {tools} || echo \"$lacks\"");
        let mut sh = Command::new("/bin/sh");
        sh.args(["-c", &script]).arg(top("tools/needs.sh"));
        sh.env_clear().env("PATH", &self.0).output().unwrap()
    }
}

impl Drop for Machine {
    fn drop(&mut self) {
        let _ = fs::remove_dir_all(&self.0);
    }
}

fn text(bytes: &[u8]) -> String {
    String::from_utf8_lossy(bytes).into_owned()
}

#[test]
fn root_installs_what_is_missing_and_tells_it() {
    let machine = Machine::new("root");
    machine.has("id", "echo 0");
    machine.has("cargo", "");
    // it fetches its lists first, and leaves the tools of its packages
    let fetches = "[ \"$1\" != update ] || : >\"${0%/*}/lists\"";
    let installs = "[ ! -e \"${0%/*}/lists\" ] || for tool in cc valgrind; do
        printf '#!/bin/sh\\necho /lib/crt1.o\\n' >\"${0%/*}/$tool\"; /bin/chmod +x \"${0%/*}/$tool\"; done";
    machine.has("apt-get", &format!("echo \"$*\"\n{fetches}\n{installs}"));
    machine.has("true", "");

    let end = machine.needs("cargo cc valgrind");
    assert_eq!(text(&end.stdout), "");
    let install = "install -y --no-install-recommends gcc libc6-dev valgrind libc6-dbg";
    let told = format!(
        "not found: cc valgrind; installing: apt-get {install}\nupdate -qq\n{install} -qq\n"
    );
    assert_eq!(text(&end.stderr), told);
    assert_eq!(text(&machine.needs("cargo cc valgrind").stderr), "");
}

#[test]
fn others_are_told_one_line() {
    let machine = Machine::new("others");
    machine.has("id", "echo 1000");
    machine.has("apt-get", "echo called");
    machine.has("rustc", "");
    let end = machine.needs("rt cargo rustc cc");
    assert_eq!(
        text(&end.stdout),
        "not found: rt cargo cc; run as root: apt-get install -y --no-install-recommends cargo gcc libc6-dev \
         (rt is of the Rattle kit: put it on PATH)\n"
    );
    assert_eq!(text(&end.stderr), "");
}

#[test]
fn where_apt_get_fails_root_is_told_what_stays_missing() {
    let machine = Machine::new("fails");
    machine.has("id", "echo 0");
    machine.has("apt-get", "exit 100");
    let end = machine.needs("valgrind");
    assert_eq!(
        text(&end.stdout),
        "not found: valgrind; run as root: apt-get install -y --no-install-recommends valgrind libc6-dbg\n"
    );
    assert!(text(&end.stderr).ends_with("apt-get has failed\n"));
}

/// A compiler without the C library's files, as where they were left out, links nothing.
#[test]
fn a_compiler_alone_is_not_enough() {
    let machine = Machine::new("alone");
    machine.has("id", "echo 1000");
    machine.has("cc", "echo crt1.o");
    assert!(text(&machine.needs("cc").stdout).contains("gcc libc6-dev"));
}

/// What `./steps` answers to an input, and what it tells.
fn steps(words: &[&str], input: &[u8]) -> (String, String, bool) {
    let mut steps = Command::new(top("steps"));
    steps.args(words).stdin(Stdio::piped());
    steps.stdout(Stdio::piped()).stderr(Stdio::piped());
    let mut steps = steps.spawn().unwrap();
    let mut pipe = steps.stdin.take().unwrap();
    let _ = pipe.write_all(input); // where it reads none, its end is seen below
    drop(pipe);
    let end = steps.wait_with_output().unwrap();
    (text(&end.stdout), text(&end.stderr), end.status.success())
}

#[test]
fn usage() {
    let (help, told, well) = steps(&["--help"], b"");
    assert!(help.starts_with("usage: ./steps ") && help.lines().count() == 1);
    assert!(told.is_empty() && well);
    let (answers, told, well) = steps(&["--prove"], b"");
    assert!(answers.is_empty() && told == help && !well);
}

/// The README's first command, as it stands there; and one's own input, at once. Both are said not to be proved.
#[test]
fn a_try_answers_ones_own_input_without_proof() {
    let readme = fs::read_to_string(top("README.md")).unwrap();
    let command = readme.split("```sh\n").nth(1);
    let command = command.and_then(|block| block.split("```").next()).unwrap();
    assert!(command.contains("./steps --try"));
    let mut sh = Command::new("sh");
    let end = sh.args(["-c", command]).current_dir(top("")).output();
    let end = end.unwrap();
    assert!(end.status.success(), "{}", text(&end.stderr));
    assert_eq!(text(&end.stdout).lines().last(), Some("bytes,2222"));
    assert!(text(&end.stderr).contains("NOT PROVED"));

    let input = b"FORMAT,16,2,2,2\nBEGIN,1\nPUT,1,0,ab\nRECENT,0";
    let (answers, told, well) = steps(&["--try"], input);
    assert!(well, "{told}");
    assert_eq!(answers, "ok\nticket,1\nrefused,11\nrecent,0\n");
    let last = told.lines().last().expect("it tells");
    assert!(last.starts_with("steps: NOT PROVED"), "{told}");
}

/// Each answer comes before the next line is asked for, so that a person can go on from it.
#[test]
fn a_try_answers_line_by_line() {
    let mut steps = Command::new(top("steps"));
    steps.arg("--try").stdin(Stdio::piped());
    steps.stdout(Stdio::piped()).stderr(Stdio::null());
    let mut steps = steps.spawn().unwrap();
    let mut input = steps.stdin.take().unwrap();
    let mut answers = BufReader::new(steps.stdout.take().unwrap()).lines();
    for (line, answer) in [("FORMAT,16,2,2,2", "ok"), ("BEGIN,1", "ticket,1")] {
        writeln!(input, "{line}").unwrap();
        assert_eq!(answers.next().unwrap().unwrap(), answer);
    }
    drop(input);
    assert!(answers.next().is_none() && steps.wait().unwrap().success());
}
