//! Readers: each remembers all that it was answered, and asks again later.

use super::PAGE_SIZE;
use crate::random::Random;
use crate::support::call::{make_on, Answer, Call};
use pit_host::{ByteOffset, Error, Line, PageIndex, Shared, Version};
use std::sync::RwLock;
use std::thread;

/// What a reader's call answers, on a version that was published then.
pub type Answered = Result<Answer, Error>;

/// Makes it.
pub fn ask(shared: &Shared, asked: &Call) -> Answered {
    make_on(shared, asked).map_err(|failure| failure.error().expect("a refusal"))
}

pub struct Reader<'a> {
    shared: &'a Shared,
    random: Random,
    /// For each line that it has met, the last version that was published.
    newest: Vec<Version>,
    answers: Vec<(Call, Answered)>,
}

impl<'a> Reader<'a> {
    pub fn new(shared: &'a Shared, random: Random) -> Reader<'a> {
        Reader {
            shared,
            random,
            newest: vec![Version(0)],
            answers: vec![],
        }
    }

    /// Makes so many reads beside the writers, and as many after the last of them has ended; then all of them again.
    pub fn ride(mut self, reads: u64, writing: &RwLock<()>) -> Vec<(Call, Answered)> {
        for _ in 0..reads {
            self.look();
        }
        drop(writing.read()); // it is held for writing as long as anybody writes
        for _ in 0..reads {
            self.look();
        }
        for (asked, answer) in &self.answers {
            assert_eq!(ask(self.shared, asked), *answer, "{asked:?} a second time");
        }
        self.answers
    }

    /// A read of a published version, the newest most often; and an old one again.
    fn look(&mut self) {
        for _ in 0..self.random.below(12) {
            thread::yield_now();
        }
        let line = self.line();
        let recent = self.recent(line);
        let version = if self.random.one_in(2) {
            recent.0
        } else {
            self.random.below(recent.0 + 1)
        };
        let asked = self.draw(line, version);
        let answer = ask(self.shared, &asked);
        self.answers.push((asked, answer));
        let at = self.random.below(self.answers.len() as u64);
        let (asked, answer) = &self.answers[at as usize];
        assert_eq!(ask(self.shared, asked), *answer, "{asked:?} a second time");
    }

    /// Line 0 half the time, else any that has begun. A line that it has met is there for good.
    fn line(&mut self) -> Line {
        let met = self.newest.len() as u64;
        match self.shared.recent(Line(met)) {
            Ok(_) => self.newest.push(Version(0)),
            Err(refused) => assert_eq!(refused, Error::NoSuchLine),
        }
        let met = self.newest.len() as u64;
        Line(self.random.below(2) * self.random.below(met))
    }

    /// The last published version: never lower than before, and the one after it is published only if it is higher then.
    fn recent(&mut self, line: Line) -> Version {
        let recent = self.shared.recent(line).expect("a line that has begun");
        let newest = &mut self.newest[line.0 as usize];
        assert!(recent >= *newest, "{recent} after {newest} on line {line}");
        *newest = recent;
        let next = self.shared.size(line, Version(recent.0 + 1));
        let now = self.shared.recent(line).expect("a line that has begun");
        assert!(next == Err(Error::NotPublished) || now > recent, "{next:?}");
        recent
    }

    /// A call on a version; its page or range is inside the version, but for one in ten.
    fn draw(&mut self, line: Line, version: u64) -> Call {
        let size = self.shared.size(line, Version(version));
        let size = size.expect("a published version");
        let outside = u64::from(self.random.one_in(10));
        let page = self.random.below(size / PAGE_SIZE + outside + 1);
        let page = page.saturating_sub(1 - outside);
        let offset = self.random.below(size + 1);
        let len = self.random.below(size - offset + 1) + outside;
        let (version, page) = (Version(version), PageIndex(page));
        match self.random.below(8) {
            0 => Call::Size(line, version),
            1 | 2 => Call::Stamp(line, version, page),
            3 | 4 => Call::View(line, version, page),
            _ => Call::Read(line, version, ByteOffset(offset), len, len as usize),
        }
    }
}
