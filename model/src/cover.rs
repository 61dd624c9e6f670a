//! Counts of what random scripts meet: calls with their answers, faults of refusal 9, and what gathering finds.

use crate::array::Answer;
use crate::faults::IN_RESTART;
use crate::generate::generate;
use crate::rng::Rng;
use crate::script::Command;
use crate::segments::MET;
use std::collections::BTreeMap;
use std::time::{Duration, Instant};

#[derive(Default)]
pub struct Cover {
    /// By call, answer, and a word on what the call met. A fault of refusal 9 that is its zone's only one counts under "9 alone" too.
    pairs: BTreeMap<(usize, String, &'static str), u64>,
    /// By call and what gathering met: all calls, and those that were not refused.
    met: BTreeMap<(usize, usize), (u64, u64)>,
    pub calls: u64,
}

/// The calls, each with the answers that it can give and what it can meet in each.
type Row = (&'static str, &'static [(&'static str, &'static [&'static str])]);

const LANDING: &[&str] = &[
    "no segment",
    "landing",
    "above",
    "outside",
    "in offline",
    "in none",
    "notdata",
    "notbelow",
];

const READING: &[&str] = &[
    "state",
    "outside",
    "in offline",
    "in none",
    "in several",
    "notdata",
    "notbelow",
    "decode",
];

const CALLS: [Row; 9] = [
    (
        "write",
        &[
            ("sent", &["", "opens", "opens unlike zones"]),
            ("cut", &[""]),
            ("1", &["narrow"]),
            ("2", &["buffer", "list", "block"]),
            ("3", &[""]),
            ("4", &[""]),
            ("6", &["stamp", "serial", "serial before 7"]),
            ("7", &["eight", "group", "segment"]),
            ("8", &["one", "one before 7", "two", "two before 7"]),
            ("9", &["state"]),
            ("10", &[""]),
        ],
    ),
    (
        "land",
        &[
            ("landed", &["", "completes", "footers", "odd footers"]),
            ("cut", &["", "completes", "footers", "odd footers"]),
            ("1", &["narrow"]),
            ("2", &["buffer", "list"]),
            ("3", &[""]),
            ("5", &["number", "not waiting"]),
            ("9", LANDING),
            ("9 alone", LANDING),
            ("10", &[""]),
        ],
    ),
    (
        "close",
        &[
            ("closed", &["", "few zones"]),
            ("1", &["narrow"]),
            ("2", &["buffer", "list"]),
            ("3", &[""]),
            ("5", &["none filling", "scarce"]),
            ("9", &["outside", "in offline", "in none"]),
            ("10", &[""]),
        ],
    ),
    (
        "reclaim",
        &[
            ("copied", &["", "opens", "opens unlike zones"]),
            ("reset", &[""]),
            ("cut", &[""]),
            ("1", &["narrow"]),
            ("2", &["buffer", "list"]),
            ("3", &[""]),
            ("5", &["none sealed", "all in flight"]),
            ("6", &["serial", "serial before 7"]),
            ("7", &["eight", "group", "segment"]),
            ("8", &["", "before 7"]),
            ("9", &["state", "outside", "in offline", "in none", "notdata"]),
            ("10", &[""]),
        ],
    ),
    (
        "read",
        &[
            ("part", &["spare", "footer"]),
            ("never", &["never"]),
            ("lost", &["decoded spare", "decoded footer"]),
            ("1", &["narrow"]),
            ("2", &["buffer", "list"]),
            ("4", &[""]),
            ("9", READING),
            ("10", &[""]),
        ],
    ),
    (
        "fill",
        &[
            ("filled", &["spare", "footer", "decoded spare", "decoded footer", "never"]),
            ("1", &["narrow"]),
            ("2", &["buffer", "list"]),
            ("4", &[""]),
            ("9", READING),
            ("10", &[""]),
        ],
    ),
    (
        "restart",
        &[
            ("restarted", &["none missing", "missing", "footers", "rewrite", "rewrite of none"]),
            ("cut", &["none missing", "footers", "rewrite", "rewrite of none"]),
            ("1", &["", "narrow"]),
            ("2", &["buffer", "list"]),
            ("6", &[""]),
            ("8", &[""]),
            ("9", IN_RESTART),
            ("9 alone", IN_RESTART),
            ("10", &[""]),
        ],
    ),
    (
        "rebuild",
        &[
            ("rebuilt", &[""]),
            ("cut", &[""]),
            ("1", &["", "narrow"]),
            ("2", &["buffer", "list"]),
            ("9", IN_RESTART),
            ("9 alone", IN_RESTART),
            ("10", &[""]),
        ],
    ),
    (
        "empty",
        &[
            ("closed", &["", "few zones"]),
            ("nothing", &[""]),
            ("1", &["narrow"]),
            ("2", &["buffer", "list"]),
            ("3", &[""]),
            ("4", &[""]),
            ("5", &["scarce"]),
            ("9", &["state", "outside", "in offline", "in none"]),
            ("10", &[""]),
        ],
    ),
];

fn index(command: &Command) -> usize {
    match command {
        Command::WriteLen(_, 0, _) => 8,
        Command::Write(..) | Command::WriteLen(..) => 0,
        Command::Land(..) => 1,
        Command::Close(..) => 2,
        Command::Reclaim(..) => 3,
        Command::Read(..) => 4,
        Command::Fill(..) => 5,
        Command::Restart(..) => 6,
        _ => 7,
    }
}

fn word(answer: &Answer) -> String {
    match answer {
        Answer::Sent { .. } => "sent".into(),
        Answer::Landed(_) => "landed".into(),
        Answer::Closed(_) => "closed".into(),
        Answer::Nothing => "nothing".into(),
        Answer::Copied { .. } => "copied".into(),
        Answer::Reset(_) => "reset".into(),
        Answer::Part(..) => "part".into(),
        Answer::Never => "never".into(),
        Answer::Lost(_) => "lost".into(),
        Answer::Filled(_) => "filled".into(),
        Answer::Restarted(_) => "restarted".into(),
        Answer::Rebuilt => "rebuilt".into(),
        Answer::Cut => "cut".into(),
        Answer::Refused(k) => k.to_string(),
        Answer::Bad(..) => "9".into(),
    }
}

impl Cover {
    pub fn note(&mut self, command: &Command, answer: &Answer, note: &'static str, met: u8) {
        let i = index(command);
        self.calls += 1;
        match answer {
            Answer::Bad(_, words) => {
                let words = words.list();
                for why in &words {
                    self.count(i, "9".into(), why);
                }
                let alone = CALLS[i].1.iter().any(|row| row.0 == "9 alone");
                if alone && words.len() == 1 {
                    self.count(i, "9 alone".into(), words[0]);
                }
            }
            _ => self.count(i, word(answer), note),
        }
        let done = !matches!(answer, Answer::Bad(..) | Answer::Refused(_));
        for k in (0..MET.len()).filter(|k| met >> k & 1 == 1) {
            let counts = self.met.entry((i, k)).or_default();
            counts.0 += 1;
            counts.1 += done as u64;
        }
    }

    fn count(&mut self, call: usize, answer: String, note: &'static str) {
        *self.pairs.entry((call, answer, note)).or_default() += 1;
    }

    /// Prints the table; what should have been met, and how often it was.
    fn print(&self) -> Vec<(String, u64)> {
        let mut lines = vec![];
        let mut seen = self.pairs.clone();
        for (i, (name, answers)) in CALLS.iter().enumerate() {
            for (answer, notes) in answers.iter() {
                let take = |note: &&'static str| seen.remove(&(i, answer.to_string(), *note)).unwrap_or(0);
                let counts: Vec<u64> = notes.iter().map(take).collect();
                let line = |(note, &n): (&&str, &u64)| (format!("{name} {answer} {note}"), n);
                lines.extend(notes.iter().zip(&counts).map(line));
                let number = answer.starts_with(|c: char| c.is_ascii_digit());
                let what = if number { format!("refused {answer}") } else { answer.to_string() };
                let parts: Vec<String> = notes
                    .iter()
                    .zip(&counts)
                    .filter(|(note, _)| !note.is_empty())
                    .map(|(note, n)| format!("{note} {n}"))
                    .collect();
                println!("{name:8} {what:15} {:9}  {}", counts.iter().sum::<u64>(), parts.join(", "));
            }
        }
        for ((i, answer, note), n) in seen {
            println!("unexpected: {} {answer} {note}: {n}", CALLS[i].0);
            lines.push((format!("unexpected {} {answer} {note}", CALLS[i].0), 0));
        }
        self.print_met(&mut lines);
        lines
    }

    /// What gathering met in each call that gathers. A restart and a rebuild never go on with a remaining serial twice on a drive.
    fn print_met(&self, lines: &mut Vec<(String, u64)>) {
        for (k, what) in MET.iter().enumerate() {
            println!("{what}, in all calls and in those not refused:");
            for (i, (name, _)) in CALLS.iter().enumerate().skip(1) {
                let (all, done) = self.met.get(&(i, k)).copied().unwrap_or((0, 0));
                println!("  {name:8} {all:9} {done:9}");
                let refused = k == 3 && (i == 6 || i == 7);
                lines.push((format!("{name}: {what}"), if refused { all } else { done }));
            }
        }
    }
}

/// Counts for so many seconds or calls, over all kinds or one; true if every possible line was met.
pub fn coverage(seconds: u64, calls: u64, seed: u64, only: Option<&str>) -> bool {
    let mut cover = Cover::default();
    let mut rng = Rng::new(seed);
    let start = Instant::now();
    let mut scripts = 0u64;
    while cover.calls < calls && start.elapsed() < Duration::from_secs(seconds) {
        let kind = only.unwrap_or(*rng.pick(&["run", "hostile", "hostile", "fill", "small"]));
        let calls = *rng.pick(&[60, 200, 600]);
        generate(kind, rng.next(), calls, None, &mut cover);
        scripts += 1;
    }
    println!("{scripts} scripts, {} calls", cover.calls);
    let lines = cover.print();
    let rare: Vec<String> = lines.iter().filter(|l| l.1 < 20).map(|(line, n)| format!("{line} {n}")).collect();
    println!(
        "met fewer than 20 times: {}",
        if rare.is_empty() { "none".into() } else { rare.join("; ") }
    );
    let unreached = lines.iter().filter(|l| l.1 == 0).count();
    println!("{unreached} unreached");
    unreached == 0
}
