//! Isolation of lines: a planner is answered the same whatever is done on other lines meanwhile, but for ticket, page and line
//! numbers. Each run is made twice, alone and among others, and the planner's answers are compared with the numbers matched.
//! The windows are the site's and no line's: a call that sets them is in both runs. `PIT_SEED` names the first seed.

use crate::random::{first_seed, Random};
use crate::support::call::{make_one, Answer, Begin, Call};
use crate::support::draw::{draw, Mix, Open, Shown, SINGLE};
use crate::updates::{limits, update, LIVE};
use pit_host::{Line, LineVersion, Minute, Node, PageIndex, Store, Ticket, Version};

const RUNS: u64 = 300;
const ACTS: u64 = 120;

/// What the planner does: single calls on its own line, which it knows as line 0, and its tickets, which it counts from 1; and the
/// windows that the site sets meanwhile.
const MIX: Mix = Mix {
    lines: 0,
    assign: 12,
    weave: 40,
    publish: 24,
    windows: 14,
    reads: 24,
    most: 2,
    ..SINGLE
};
const WEEK: u64 = 10_080;

/// The planner on its line, with its tickets and what it was answered.
struct Planner {
    line: Line,
    tickets: Vec<Ticket>,
    answers: Vec<String>,
}

impl Planner {
    /// What it knows of the store, in its own numbers.
    fn shown(&self, store: &Store) -> Shown {
        let (of, register) = (store.state().line(self.line), store.areas().register());
        let open = (1..)
            .map(Ticket)
            .zip(&self.tickets)
            .filter_map(|(own, ticket)| {
                let open = Open::of(register, *ticket)?;
                Some(Open {
                    ticket: own,
                    ..open
                })
            });
        Shown {
            lines: vec![(of.published, of.blob)],
            open: open.collect(),
            ..Shown::of(store)
        }
    }

    /// A call in the store's numbers. Another line than its own is none that has begun.
    fn in_the_store(&self, call: &Call) -> Call {
        let line = |line: Line| match line.0 {
            0 => self.line,
            other => Line(other.saturating_add(16)),
        };
        let ticket = |ticket: Ticket| {
            let at = (ticket.0 as usize).wrapping_sub(1);
            self.tickets.get(at).copied().unwrap_or(ticket)
        };
        call.renumbered(line, ticket)
    }

    fn act(&mut self, store: &mut Store, call: &Call) {
        let made = self.in_the_store(call);
        let answer = match make_one(store, &made) {
            Ok(Answer::Ticket(ticket)) => {
                self.tickets.push(ticket);
                "begun".to_string()
            }
            Ok(Answer::Node(node)) => self.matched(store, &made, &node),
            Ok(answer) => format!("{answer:?}"),
            Err(refused) => format!("refused {}", refused.number()),
        };
        self.answers.push(format!("{call:?}: {answer}"));
    }

    /// A node with the numbers matched: its own line has no number, and a leaf's page number is counted from its ticket's first.
    fn matched(&self, store: &Store, weave: &Call, node: &Node) -> String {
        let matched = |number: LineVersion| match number.line() {
            line if line == self.line => format!("own {}", number.version()),
            _ => number.to_string(),
        };
        let (left, right) = (u64::from(node.left), u64::from(node.right));
        let numbers = if node.span == 1 {
            let ticket = weave.numbers()[0];
            let first = store.areas().register()[ticket as usize - 1].number;
            format!("page {}, {right}", left - first)
        } else {
            [left, right].map(|n| matched(LineVersion(n))).join(", ")
        };
        let (first, span, rest) = (node.first, node.span, node.rest);
        format!("{:?}", (matched(node.version), first, span, numbers, rest))
    }
}

/// What a page is filled with: mostly one of a few bytes, so that pages are often resent.
fn fill(random: &mut Random) -> u8 {
    match random.below(4) {
        0 => random.next() as u8,
        _ => random.pick(&[1, 2, 9, 10]),
    }
}

/// What others do meanwhile, on the lines that are not the planner's: an update as far as it comes, or a new line.
fn disturb(random: &mut Random, store: &mut Store, planner: Option<Line>) {
    let begun = store.state().begun;
    let line = Line(random.below(begun));
    if Some(line) == planner {
        return;
    }
    let recent = store.recent(line).expect("a line that has begun");
    if random.one_in(6) && begun < 15 {
        let version = Version(random.below(recent.0 + 1));
        store.line_from(line, version);
        return;
    }
    let n = 1 + random.below(3);
    let ticket = store.begin(n).expect("room for all");
    for i in 0..n {
        let put = store.put(ticket, i, &[fill(random); 16]);
        put.expect("each page once");
    }
    let size = store.state().line(line).blob;
    let first = PageIndex(random.below(size + 1));
    let nodes = store
        .write(line, ticket, first)
        .expect("room for all")
        .nodes;
    let woven = nodes - u64::from(random.one_in(4));
    for _ in 0..woven {
        store.weave(ticket).expect("a node is left");
    }
    let minute = Minute(random.below(WEEK));
    let published = store.publish(line, minute);
    published.map(drop).expect("a line that has begun"); // or it is held
}

/// The planner's answers in a run of a seed: alone, or among others.
fn run(seed: u64, among_others: bool) -> Vec<String> {
    let (mut random, mut others) = (Random::new(seed), Random::new(!seed));
    let mut store = Store::format(limits(4_096, 65_536, 1_024)).expect("limits in range");
    // what is shared: versions of line 0, and of a line from there
    let mut lines = vec![LIVE];
    for k in 0..4 {
        let at = (k > 0).then(|| random.below(2));
        let line = lines[random.below(lines.len() as u64) as usize];
        update(&mut store, line, at, &[k as u8 + 1, k as u8 + 9]).expect("room for all");
        if k == 1 {
            lines.push(store.line_from(LIVE, Version(1)));
        }
    }
    let source = lines[random.below(2) as usize];
    let start = Version(random.below(store.recent(source).expect("a line").0 + 1));
    for _ in 0..others.below(6) * u64::from(among_others) {
        disturb(&mut others, &mut store, None);
    }
    let line = store.line_from(source, start);
    let mut planner = Planner {
        line,
        tickets: vec![],
        answers: vec![],
    };
    for _ in 0..ACTS {
        let call = draw(&mut random, &planner.shown(&store), &MIX);
        planner.act(&mut store, &call);
        if among_others && others.one_in(3) {
            disturb(&mut others, &mut store, Some(line));
        }
    }
    for (version, page) in (1..8).flat_map(|v| (0..4).map(move |page| (v, page))) {
        let stamp = Call::Stamp(Line(0), Version(version), PageIndex(page));
        planner.act(&mut store, &stamp);
    }
    planner.answers
}

#[test]
fn others_reach_a_lines_answers_only_by_numbers() {
    let first = first_seed("others_reach_a_lines_answers_only_by_numbers");
    let (mut published, mut held, mut stamped) = (0, 0, 0);
    for seed in (0..RUNS).map(|i| first.wrapping_add(i)) {
        let (alone, among_others) = (run(seed, false), run(seed, true));
        for (at, answer) in among_others.iter().enumerate() {
            assert_eq!(alone[at], *answer, "PIT_SEED={seed}, answer {at}");
        }
        let with = |end: &str| alone.iter().filter(|answer| answer.contains(end)).count();
        published += with(": Published(Now(");
        held += with(": Published(Held");
        let stamps = alone.iter().filter(|answer| answer.starts_with("Stamp"));
        stamped += stamps
            .filter(|answer| answer.contains(": Version("))
            .count();
    }
    println!("{published} versions published, {held} times held, {stamped} stamps");
    assert!(stamped > 5 * RUNS as usize, "{stamped} stamps");
    assert!(published > RUNS as usize, "{published} versions published");
    assert!(held > RUNS as usize, "{held} times held");
}
