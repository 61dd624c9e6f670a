//! Random histories on the model with lists of offline zones that never change, checked against demands 2 and 3, and for offline zones that take no part.

use crate::array::{Answer, Array};
use crate::choose::{draw_good, draw_l, draw_small, due, Chooser, Setup, Style};
use crate::oracle::{Drives, Says};
use crate::params::Params;
use crate::rng::Rng;
use crate::script::Command::{self, *};
use crate::script::{block, run, Outcome};
use crate::twin;
use std::panic::{catch_unwind, AssertUnwindSafe};
use std::time::{Duration, Instant};

/// What is read at an address: the number of the send, and the stamp; or none for never written.
type Seen = Option<(usize, u64)>;

/// What a finished restart reads at each address.
type Reading = Vec<Seen>;

struct Send {
    seed: u64,
    stamp: u64,
    prefix: u64,
}

/// What the host knows: sends in their order, acknowledgements, and the last finished restart.
struct Host {
    sends: Vec<Send>,
    /// By address, rising.
    sent_at: Vec<Vec<usize>>,
    acknowledged: Vec<Option<usize>>,
    /// Stripes in flight, each with the drives that have it and the sends in it.
    stripes: Vec<(u64, u64, Vec<(u64, usize)>)>,
    last: Option<Reading>,
    /// By address: sent to since the last finished restart.
    since: Vec<bool>,
}

#[derive(Default)]
pub struct Counts {
    pub histories: u64,
    /// Histories with some zone offline.
    pub offline: u64,
    pub calls: u64,
    pub restarts: u64,
    pub cuts: u64,
    pub copies: u64,
    pub tables: u64,
    pub rebuilds: u64,
    pub resets: u64,
    pub twins: u64,
}

fn prefix(bytes: &[u8]) -> u64 {
    u64::from_be_bytes(bytes[..8].try_into().unwrap())
}

impl Host {
    fn new(p: &Params) -> Host {
        let l = p.l as usize;
        Host {
            sends: vec![],
            sent_at: vec![vec![]; l],
            acknowledged: vec![None; l],
            stripes: vec![],
            last: None,
            since: vec![false; l],
        }
    }

    /// The block as it was sent, and the stamp with which it was.
    fn send_of(&self, p: &Params, a: usize, bytes: &[u8], stamp: u64) -> Result<usize, String> {
        let first = prefix(bytes);
        let found = self.sent_at[a].iter().rev().find(|&&i| self.sends[i].prefix == first);
        match found {
            Some(&i) if block(self.sends[i].seed, p.b) == bytes => match self.sends[i].stamp {
                sent if sent == stamp => Ok(i),
                sent => Err(format!("address {a}: reads stamp {stamp}, the block was sent with {sent}")),
            },
            _ => Err(format!("address {a}: reads a block never sent there")),
        }
    }

    /// The two read calls at one address.
    fn read(&self, array: &Array, a: usize) -> Result<Seen, String> {
        let p = &array.p;
        let mut bytes = vec![0x5a; p.b];
        let first = array.read(a as u64);
        let Answer::Filled(filled) = array.fill(a as u64, &mut bytes) else {
            return Err(format!("address {a}: the second read is refused"));
        };
        let stamp = match first {
            Answer::Never => {
                if bytes.iter().any(|&b| b != 0) || filled != 0 {
                    return Err(format!("address {a}: never written, but not zeros"));
                }
                return Ok(None);
            }
            Answer::Part(at, stamp) => {
                if array.image[at..at + p.b] != bytes {
                    return Err(format!("address {a}: the two reads differ"));
                }
                stamp
            }
            Answer::Lost(stamp) => stamp,
            other => return Err(format!("address {a}: the first read answers {other:?}")),
        };
        if stamp != filled {
            return Err(format!("address {a}: the two reads give the stamps {stamp} and {filled}"));
        }
        self.send_of(p, a, &bytes, stamp).map(|i| Some((i, stamp)))
    }

    /// No earlier than the latest acknowledged.
    fn floor(&self, a: usize, found: Seen) -> Result<(), String> {
        match (found, self.acknowledged[a]) {
            (None, Some(_)) => Err(format!("address {a}: never written, but acknowledged")),
            (Some((i, _)), Some(k)) if i < k => Err(format!("address {a}: reads send {i}, but {k} was acknowledged")),
            _ => Ok(()),
        }
    }

    /// Demand 3 after a finished restart; `before` is what the finished restart before it read, where nothing was sent between.
    fn check(&self, array: &Array, before: &dyn Fn(usize) -> Option<Seen>) -> Result<Reading, String> {
        let mut reading = vec![];
        for a in 0..array.p.l as usize {
            let found = self.read(array, a)?;
            self.floor(a, found)?;
            if let Some(old) = before(a) {
                if old != found {
                    return Err(format!(
                        "address {a}: reads {found:?}, the restart before read {old:?} and nothing was sent"
                    ));
                }
            }
            reading.push(found);
        }
        Ok(reading)
    }

    /// What must be read again: the last finished restart's reading where nothing was sent since.
    fn before(&self) -> impl Fn(usize) -> Option<Seen> + '_ {
        move |a| match &self.last {
            Some(last) if !self.since[a] => Some(last[a]),
            _ => None,
        }
    }
}

/// The stamp that the first read gives.
fn stamp_of(answer: Answer) -> Option<u64> {
    match answer {
        Answer::Never => Some(0),
        Answer::Part(_, stamp) | Answer::Lost(stamp) => Some(stamp),
        _ => None,
    }
}

/// What the drives say with this drive missing.
fn says(array: &Array, missing: Option<usize>) -> Says {
    let drives = Drives {
        p: &array.p,
        image: &array.image,
        pointers: &array.pointers,
        offline: &array.offline,
        missing,
    };
    drives.says()
}

/// Demand 2: the tables in memory, and the stamps that they lead to, are what the drives say.
fn check_tables(array: &Array) -> Result<(), String> {
    let says = says(array, array.state.missing);
    if says.addresses != array.addresses {
        return Err("the address table is not what the drives say".into());
    }
    if says.compact != array.compact {
        return Err("the compact table is not what the drives say".into());
    }
    for (a, &stamp) in says.stamps.iter().enumerate() {
        let first = array.read(a as u64);
        if stamp_of(first) != Some(stamp) {
            return Err(format!(
                "address {a}: the first read answers {first:?}, the drives say stamp {stamp}"
            ));
        }
    }
    Ok(())
}

/// A violation, with the commands after the history that show it.
struct Violation {
    what: String,
    extra: Vec<Command>,
}

struct History<'a> {
    array: Array,
    chooser: Chooser,
    host: Host,
    script: Vec<Command>,
    counts: &'a mut Counts,
}

fn call(array: &mut Array, command: &Command) -> Option<Answer> {
    match run(array, command) {
        Outcome::Answer(answer, _) => Some(answer),
        _ => None,
    }
}

/// The uncounted stripes that a restart in order finds.
fn uncounted(array: &Array, command: &Command) -> u64 {
    let p = &array.p;
    match *command {
        Restart(m, _) if m == 255 || m < p.n as u64 => {
            let missing = (m != 255).then_some(m as usize);
            says(array, missing).uncounted
        }
        _ => 0,
    }
}

/// Parameters with a list, mostly one with offline zones.
fn draw(rng: &mut Rng) -> Setup {
    loop {
        let setup = draw_any(rng);
        if setup.offline.iter().any(|&byte| byte != 0) || rng.chance(15) {
            return setup;
        }
    }
}

fn draw_any(rng: &mut Rng) -> Setup {
    if rng.chance(60) {
        return draw_small(rng);
    }
    let n = rng.between(3, 5);
    let z = rng.between(4, 7);
    let s = rng.between(1, 8);
    let g = if rng.chance(80) { rng.between(1, 4) } else { rng.between(1, 10) };
    let good = draw_good(rng, z);
    let l = draw_l(rng, n, s, good);
    Setup::with(rng, Params::new(n, 128, z, s, g, l).unwrap())
}

impl History<'_> {
    /// The values that a restart may name.
    fn choices(array: &Array, untrusted: Option<usize>) -> Vec<u64> {
        match untrusted {
            Some(d) => vec![d as u64],
            None => std::iter::once(255).chain(0..array.p.n as u64).collect(),
        }
    }

    /// One call of the history, with its checks.
    fn step(&mut self) -> Result<(), Violation> {
        let command = self.chooser.next(&self.array);
        let storing = matches!(command, Write(..) | Land(..) | Reclaim(..) | Restart(..) | Rebuild(..));
        if storing && self.chooser.rng.below(48) == 0 {
            self.cut_everywhere(&command)?;
        }
        self.script.push(command);
        let before = if self.chooser.rng.below(16) == 0 {
            Some(self.array.clone())
        } else {
            None
        };
        let uncounted = uncounted(&self.array, &command);
        let flat = |what: String| Violation { what, extra: vec![] };
        let seed = self.chooser.rng.next();
        let Some(answer) = twin::both(&mut self.array, &command, seed).map_err(flat)? else {
            return Ok(());
        };
        self.chooser.observe(&command, &answer);
        self.counts.calls += 1;
        self.counts.twins += 1;
        self.judge(&command, &answer).map_err(flat)?;
        if let Answer::Restarted(n) = answer {
            if n != uncounted {
                return Err(flat(format!("{n} stripes uncounted, {uncounted} on the drives")));
            }
        }
        if let (Answer::Refused(_), Some(old)) = (answer, before) {
            if old.buffers() != self.array.buffers() || format!("{:?}", old.state) != format!("{:?}", self.array.state) {
                return Err(flat("a refusal changed something".into()));
            }
        }
        if !self.array.state.out_of_range() {
            self.counts.tables += 1;
            check_tables(&self.array).map_err(flat)?;
        }
        if self.chooser.rng.below(48) == 0 && !self.chooser.busy() {
            let extra = vec![];
            let (array, untrusted) = (self.array.clone(), self.chooser.untrusted);
            self.every_choice(&array, untrusted, &extra, 2)?;
        }
        Ok(())
    }

    /// Follows the host's knowledge and judges the answer.
    fn judge(&mut self, command: &Command, answer: &Answer) -> Result<(), String> {
        let p = self.array.p;
        let host = &mut self.host;
        match (*command, *answer) {
            (_, Answer::Bad(z, why)) => return Err(format!("{command} is refused 9, zone {z} ({})", why.list().join(", "))),
            (_, Answer::Refused(6)) => return Err(format!("{command} is refused 6")),
            (Restart(m, _), Answer::Refused(k)) if m == 255 || m < p.n as u64 => return Err(format!("{command} is refused {k}")),
            (_, Answer::Refused(_)) => {}
            (_, Answer::Cut) => {
                self.counts.cuts += 1;
                host.stripes.clear();
            }
            (Write(a, seed, _), Answer::Sent { stamp, stripe, drive }) => {
                let i = host.sends.len();
                host.sends.push(Send {
                    seed,
                    stamp,
                    prefix: prefix(&block(seed, p.b)),
                });
                host.sent_at[a as usize].push(i);
                host.since[a as usize] = true;
                if drive >= p.n || stripe >= p.s {
                    return Err("a stripe or drive out of range".into());
                }
                match host.stripes.iter_mut().find(|s| s.0 == stripe as u64) {
                    Some(s) => s.2.push((a, i)),
                    None => host.stripes.push((stripe as u64, 0, vec![(a, i)])),
                }
            }
            (Reclaim(_), Answer::Copied { stripe, .. }) => {
                if !host.stripes.iter().any(|s| s.0 == stripe as u64) {
                    host.stripes.push((stripe as u64, 0, vec![]));
                }
            }
            (Reclaim(_), Answer::Reset(_)) => self.counts.resets += 1,
            (Land(d, s, _), Answer::Landed(n)) => {
                let Some(k) = host.stripes.iter().position(|x| x.0 == s) else {
                    return Err("a stripe landed that isn't in flight".into());
                };
                let stripe = &mut host.stripes[k];
                if stripe.1 >> d & 1 == 1 {
                    return Err("a chunk landed twice".into());
                }
                stripe.1 |= 1 << d;
                let complete = stripe.1.count_ones() as usize == p.n;
                let expected = if complete { stripe.2.len() as u64 } else { 0 };
                if n != expected {
                    return Err(format!("{n} acknowledged, {expected} due"));
                }
                if complete {
                    for (a, i) in host.stripes.remove(k).2 {
                        let old = &mut host.acknowledged[a as usize];
                        *old = (*old).max(Some(i));
                    }
                }
            }
            (Restart(..), Answer::Restarted(_)) => {
                self.counts.restarts += 1;
                host.stripes.clear();
                let reading = host.check(&self.array, &host.before())?;
                host.last = Some(reading);
                host.since.fill(false);
            }
            (Fill(a, _), Answer::Filled(_)) => {
                let found = host.read(&self.array, a as usize)?;
                host.floor(a as usize, found)?;
            }
            (Rebuild(..), Answer::Rebuilt) => self.counts.rebuilds += 1,
            _ => {}
        }
        Ok(())
    }

    /// Tries every restart on copies of the drives.
    fn every_choice(&mut self, array: &Array, untrusted: Option<usize>, extra: &[Command], depth: u32) -> Result<(), Violation> {
        for m in Self::choices(array, untrusted) {
            let mut copy = array.clone();
            let mut extra = extra.to_vec();
            self.restart_copy(&mut copy, m, &mut extra, None)?;
            if depth > 0 && self.chooser.rng.chance(30) {
                self.go_on(copy, m, extra, depth - 1)?;
            }
        }
        Ok(())
    }

    /// A call on a copy of the array; now and then on a twin too.
    fn call_copy(&mut self, copy: &mut Array, command: &Command, extra: &[Command]) -> Result<Option<Answer>, Violation> {
        if !self.chooser.rng.chance(25) {
            return Ok(call(copy, command));
        }
        self.counts.twins += 1;
        let seed = self.chooser.rng.next();
        twin::both(copy, command, seed).map_err(|what| Violation {
            what,
            extra: extra.to_vec(),
        })
    }

    /// One restart in full on a copy, checked. `last` is the reading of a finished restart on the same copy.
    fn restart_copy(&mut self, copy: &mut Array, m: u64, extra: &mut Vec<Command>, last: Option<&Reading>) -> Result<Reading, Violation> {
        if m != 255 && self.chooser.rng.chance(50) {
            let junk = DriveJunk(m, self.chooser.rng.next());
            run(copy, &junk);
            extra.push(junk);
        }
        let command = Restart(m, u64::MAX);
        extra.push(command);
        self.counts.copies += 1;
        let uncounted = uncounted(copy, &command);
        let answer = self.call_copy(copy, &command, extra)?;
        let checked = match answer {
            Some(Answer::Restarted(n)) if n != uncounted => Err(format!("{n} stripes uncounted, {uncounted} on the drives")),
            Some(Answer::Restarted(_)) => match last {
                Some(last) => self.host.check(copy, &|a| Some(last[a])),
                None => self.host.check(copy, &self.host.before()),
            },
            other => Err(format!("{command} answers {other:?}")),
        };
        checked.and_then(|r| check_tables(copy).map(|_| r)).map_err(|what| Violation {
            what,
            extra: extra.clone(),
        })
    }

    /// After a finished restart on a copy: a rebuild cut anywhere and repeated, or a restart cut, then every choice.
    fn go_on(&mut self, mut copy: Array, m: u64, mut extra: Vec<Command>, depth: u32) -> Result<(), Violation> {
        let reading = {
            let host = &self.host;
            host.check(&copy, &|_| None).map_err(|what| Violation {
                what,
                extra: extra.clone(),
            })?
        };
        if m == 255 {
            for next in Self::choices(&copy, None) {
                let mut again = copy.clone();
                let mut extra = extra.clone();
                self.restart_copy(&mut again, next, &mut extra, Some(&reading))?;
            }
            return Ok(());
        }
        let total = due(&copy, &Rebuild(m, u64::MAX));
        let cut = self.chooser.rng.below(total + 1);
        let mut cut_copy = copy.clone();
        let mut cut_extra = extra.clone();
        let command = Rebuild(m, cut);
        cut_extra.push(command);
        let answer = self.call_copy(&mut cut_copy, &command, &cut_extra)?;
        if answer == Some(Answer::Cut) {
            self.restart_copy(&mut cut_copy, m, &mut cut_extra, Some(&reading))?;
            copy = cut_copy;
            extra = cut_extra;
        }
        let command = Rebuild(m, u64::MAX);
        extra.push(command);
        if self.call_copy(&mut copy, &command, &extra)? != Some(Answer::Rebuilt) {
            return Err(Violation {
                what: format!("{command} does not finish"),
                extra,
            });
        }
        check_tables(&copy).map_err(|what| Violation {
            what,
            extra: extra.clone(),
        })?;
        for next in Self::choices(&copy, None) {
            let mut again = copy.clone();
            let mut extra = extra.clone();
            self.restart_copy(&mut again, next, &mut extra, Some(&reading))?;
            if depth > 0 && next == 255 {
                self.go_on(again, next, extra, depth - 1)?;
            }
        }
        Ok(())
    }

    /// The call cut at every store count on a copy, each time with every choice of restart after it.
    fn cut_everywhere(&mut self, command: &Command) -> Result<(), Violation> {
        let at = |count: u64| match *command {
            Write(a, seed, _) => Write(a, seed, count),
            Land(d, s, _) => Land(d, s, count),
            Reclaim(_) => Reclaim(count),
            Restart(m, _) => Restart(m, count),
            Rebuild(d, _) => Rebuild(d, count),
            other => other,
        };
        let total = due(&self.array, &at(u64::MAX));
        for count in 0..total {
            let mut copy = self.array.clone();
            let command = at(count);
            let extra = vec![command];
            let answer = self.call_copy(&mut copy, &command, &extra)?;
            if answer != Some(Answer::Cut) || !copy.addresses.iter().chain(&copy.compact).all(|&b| b == 0) {
                return Err(Violation {
                    what: format!("{command} answers {answer:?} with {total} stores due"),
                    extra,
                });
            }
            self.counts.cuts += 1;
            let untrusted = match command {
                Rebuild(d, _) => Some(d as usize),
                _ => self.chooser.untrusted,
            };
            self.every_choice(&copy, untrusted, &extra, 1)?;
            // A restart after the cut that is cut itself.
            if untrusted.is_none() && self.chooser.rng.chance(30) {
                let total = due(&copy, &Restart(255, u64::MAX));
                if total > 0 {
                    let again = Restart(255, self.chooser.rng.below(total));
                    call(&mut copy, &again);
                    self.counts.cuts += 1;
                    self.every_choice(&copy, None, &[command, again], 1)?;
                }
            }
        }
        Ok(())
    }
}

/// Runs histories for so many seconds; true if none broke a demand.
pub fn simulate(seconds: u64, seed: u64) -> bool {
    let mut counts = Counts::default();
    let mut rng = Rng::new(seed);
    let start = Instant::now();
    let mut violation = None;
    while violation.is_none() && start.elapsed() < Duration::from_secs(seconds) {
        let setup = draw(&mut rng);
        let style = if rng.chance(30) { Style::Fill } else { Style::Run };
        let mut chooser = Chooser::new(Rng::new(rng.next()), style);
        chooser.refusals = 50;
        let mut array = Array::none();
        let script = setup.commands(&mut chooser.rng);
        for command in &script {
            run(&mut array, command);
        }
        let mut h = History {
            array,
            chooser,
            host: Host::new(&setup.p),
            script,
            counts: &mut counts,
        };
        h.counts.histories += 1;
        h.counts.offline += setup.offline.iter().any(|&byte| byte != 0) as u64;
        for _ in 0..rng.between(50, 1500) {
            let step = catch_unwind(AssertUnwindSafe(|| h.step()));
            if let Err(v) = step.unwrap_or(Err(Violation {
                what: "the model panics".into(),
                extra: vec![],
            })) {
                violation = Some((v.what, [h.script, v.extra].concat()));
                break;
            }
        }
    }
    let spent = start.elapsed().as_secs_f64();
    println!(
        "{} calls in {} histories ({} with offline zones), {} restarts in them and {} on copies, {} rebuilds, \
         {} zones reclaimed, {} cuts, {} table checks, {} twins, {} violations, {:.0} calls a second",
        counts.calls,
        counts.histories,
        counts.offline,
        counts.restarts,
        counts.copies,
        counts.rebuilds,
        counts.resets,
        counts.cuts,
        counts.tables,
        counts.twins,
        violation.is_some() as u64,
        counts.calls as f64 / spent.max(0.001),
    );
    if let Some((what, script)) = &violation {
        println!("violation: {what}");
        for command in script {
            println!("{command}");
        }
    }
    violation.is_none()
}
