//! The step program as a child process: the one that `PIT_STEPS` names, else `target/bin/steps` at the
//! top of the repository.

use std::io::{Read, Write};
use std::path::{Path, PathBuf};
use std::process::{Child, ChildStdin, Command, Stdio};
use std::sync::mpsc::{channel, Receiver, RecvTimeoutError, Sender};
use std::sync::Mutex;
use std::thread;
use std::time::{Duration, Instant};

/// How long the program may stay silent while an answer or its end is due.
const PATIENCE: Duration = Duration::from_secs(20);

fn path() -> PathBuf {
    let path = match std::env::var_os("PIT_STEPS") {
        Some(named) => PathBuf::from(named),
        None => Path::new(env!("CARGO_MANIFEST_DIR")).join("../target/bin/steps"),
    };
    if !path.is_file() {
        missing(&path);
    }
    path
}

/// Ends all tests with one line, since none can run without the program: a line from each would only hide it.
fn missing(path: &Path) -> ! {
    static SAID: Mutex<()> = Mutex::new(());
    let _once = SAID.lock(); // others wait here for the end
    let _ = writeln!(
        std::io::stderr(),
        "{} is missing: run ./steps </dev/null at the top of the repository, which builds it, or name one by PIT_STEPS",
        path.display()
    );
    std::process::exit(1)
}

/// Hands on what the program writes, block by block, until it closes its output.
fn hand_on(mut output: impl Read, blocks: Sender<Vec<u8>>) {
    let mut block = [0; 8192];
    while let Ok(length @ 1..) = output.read(&mut block) {
        if blocks.send(block[..length].to_vec()).is_err() {
            return;
        }
    }
}

/// A running program. It is stopped when this is dropped.
pub struct Session {
    child: Child,
    input: Option<ChildStdin>,
    blocks: Receiver<Vec<u8>>,
    unread: Vec<u8>,
}

impl Session {
    pub fn start() -> Session {
        let path = path();
        let mut child = Command::new(&path)
            .stdin(Stdio::piped())
            .stdout(Stdio::piped())
            .spawn()
            .unwrap_or_else(|e| panic!("{}: {e}", path.display()));
        let (sender, blocks) = channel();
        let output = child.stdout.take().expect("piped");
        thread::spawn(move || hand_on(output, sender));
        Session {
            input: child.stdin.take(),
            child,
            blocks,
            unread: vec![],
        }
    }

    /// Sends bytes as they are, at once.
    pub fn send(&mut self, bytes: &[u8]) {
        let input = self.input.as_mut().expect("the input is open");
        let sent = input.write_all(bytes).and_then(|()| input.flush());
        sent.expect("the program takes its input");
    }

    /// The next answer line, without its line feed; it must come with no more input than was sent.
    pub fn answer(&mut self) -> String {
        loop {
            if let Some(end) = self.unread.iter().position(|b| *b == b'\n') {
                let line: Vec<u8> = self.unread.drain(..=end).collect();
                return String::from_utf8_lossy(&line[..end]).into_owned();
            }
            let block = self.block().expect("an answer is due");
            self.unread
                .extend(block.expect("an answer is due, and the output ended"));
        }
    }

    /// Closes the input and gives what is left of the output, after the program's good end.
    pub fn end(mut self) -> String {
        self.input = None;
        assert_eq!(self.rest(), Ok(()));
        String::from_utf8_lossy(&self.unread).into_owned()
    }

    /// The most memory that the program has held, in KiB.
    pub fn most_memory(&self) -> u64 {
        let status = std::fs::read_to_string(format!("/proc/{}/status", self.child.id()));
        let status = status.expect("the program runs");
        let line = status.lines().find(|line| line.starts_with("VmHWM:"));
        let number = line.and_then(|line| line.split_whitespace().nth(1));
        number.and_then(|n| n.parse().ok()).expect("VmHWM, in kB")
    }

    /// The next block of output; none at its end. A silent program is stopped, so that nobody waits for it.
    fn block(&mut self) -> Result<Option<Vec<u8>>, String> {
        match self.blocks.recv_timeout(PATIENCE) {
            Ok(block) => Ok(Some(block)),
            Err(RecvTimeoutError::Disconnected) => Ok(None),
            Err(RecvTimeoutError::Timeout) => {
                let _ = self.child.kill();
                Err("the program keeps silent".to_string())
            }
        }
    }

    /// Takes all output that is left and waits for the program's end.
    fn rest(&mut self) -> Result<(), String> {
        while let Some(block) = self.block()? {
            self.unread.extend(block);
        }
        let deadline = Instant::now() + PATIENCE;
        loop {
            match self.child.try_wait().expect("the program is ours") {
                Some(status) if status.success() => return Ok(()),
                Some(status) => return Err(format!("the program ended with {status}")),
                None if Instant::now() > deadline => {
                    return Err("the program does not end".to_string())
                }
                None => thread::sleep(Duration::from_millis(1)),
            }
        }
    }
}

impl Drop for Session {
    fn drop(&mut self) {
        let _ = self.child.kill();
        let _ = self.child.wait();
    }
}

/// Everything that the program answers to an input, and how it ended if not well.
pub fn run(input: &[u8]) -> (Vec<u8>, Result<(), String>) {
    let mut session = Session::start();
    let stdin = session.input.take();
    let end = thread::scope(|scope| {
        // A program that ends early is seen by its answers.
        scope.spawn(move || stdin.map(|mut pipe| pipe.write_all(input)));
        let end = session.rest();
        if end.is_err() {
            let _ = session.child.kill();
        }
        end
    });
    (std::mem::take(&mut session.unread), end)
}
