//! Chooses the next call of a sensible history, within the premises of demand 3.

use crate::array::{Answer, Array};
use crate::calls::Need;
use crate::params::Params;
use crate::rng::Rng;
use crate::script::Command::{self, *};
use crate::script::{IMAGE, OFFLINE, POINTERS};
use std::collections::VecDeque;

/// What the host does more and less of for a while; weights are relative.
#[derive(Clone)]
struct Mood {
    write: u64,
    land: u64,
    close: u64,
    reclaim: u64,
    read: u64,
    restart: u64,
    refused: u64,
    /// Percent of storing calls that are cut.
    cut: u64,
    /// Percent of restarts that name a drive.
    lose: u64,
    /// Addresses written: the first so many of L, from a moving start.
    spread: u64,
    start: u64,
    /// Which chunks land first.
    order: Order,
}

#[derive(Clone, Copy)]
enum Order {
    Any,
    /// Those of all drives but one.
    Slow(usize),
    /// Those of the newest stripe.
    Newest,
    /// Those of the oldest stripe.
    Oldest,
    /// Those of all stripes but the oldest, but rarely of that.
    Hold,
}

#[derive(Clone, Copy, PartialEq, Eq)]
pub enum Style {
    Run,
    Fill,
}

pub struct Chooser {
    pub rng: Rng,
    style: Style,
    mood: Mood,
    left: u64,
    /// The drive that each restart has to name missing.
    pub untrusted: Option<usize>,
    seeds: u64,
    queue: VecDeque<Command>,
    /// Share of calls that are refused, in percent of the usual.
    pub refusals: u64,
}

/// Parameters, and the list of offline zones that goes with them.
#[derive(Clone)]
pub struct Setup {
    pub p: Params,
    pub offline: Vec<u8>,
}

impl Setup {
    /// A list for given parameters, which keeps L within the narrow bound.
    pub fn with(rng: &mut Rng, p: Params) -> Setup {
        let good = (4..p.z).find(|&good| p.most(good) >= p.l).unwrap_or(p.z);
        let offline = draw_offline(rng, &p, good);
        Setup { p, offline }
    }

    /// The commands that start an array with this list. Offline zones may hold anything.
    pub fn commands(&self, rng: &mut Rng) -> Vec<Command> {
        let mut out = vec![params_command(&self.p)];
        let junk = rng.chance(40);
        for (i, &byte) in self.offline.iter().enumerate().filter(|(_, &byte)| byte != 0) {
            out.push(Poke(OFFLINE, i as u64, byte));
            if junk && rng.chance(60) {
                out.push(Poke(POINTERS, 4 * i as u64 + rng.below(4), rng.next() as u8));
            }
        }
        out
    }
}

/// Offline zones at random; so many or more are good on each drive.
pub fn draw_offline(rng: &mut Rng, p: &Params, good: usize) -> Vec<u8> {
    let mut offline = vec![0; p.n * p.z];
    let same = rng.chance(20);
    for d in 0..p.n {
        let dead = if same { p.z - good } else { rng.index(p.z - good + 1) };
        for _ in 0..dead {
            offline[d * p.z + rng.index(p.z)] = *rng.pick(&[1, 1, 2, 128, 255]);
        }
    }
    offline
}

/// The good zones that L is drawn for.
pub fn draw_good(rng: &mut Rng, z: u64) -> u64 {
    if rng.chance(30) {
        z
    } else {
        rng.between(4, z)
    }
}

/// L within the bound of so many good zones, often at its end or just above that of one zone less.
pub fn draw_l(rng: &mut Rng, n: u64, s: u64, good: u64) -> u64 {
    let one = s * (n - 1);
    let most = (good - 3) * one;
    match rng.below(10) {
        0..=4 => most,
        5 => most - one + 1,
        _ => rng.between(1, most),
    }
}

/// Random parameters over the ranges that a test can afford.
pub fn draw_params(rng: &mut Rng) -> Setup {
    let n = rng.between(3, 8);
    let b = match rng.below(100) {
        0..=74 => 128,
        75..=87 => 256,
        88..=93 => 512,
        94..=95 => 1024,
        96..=97 => 2048,
        _ => 4096,
    };
    let n = if b > 512 {
        n.min(4)
    } else if rng.chance(50) {
        rng.between(3, 4)
    } else {
        n
    };
    let z = rng.between(4, 8);
    let s = if rng.chance(60) { rng.between(1, 5) } else { rng.between(1, 14) };
    let g = match rng.below(10) {
        0..=3 => rng.between(1, 4),
        4..=6 => rng.between(1, s),
        7 => s,
        8 => rng.between(1, 16),
        _ => rng.between(1, 256),
    };
    // Now and then eight stripes of a group can be in flight.
    let (s, g) = if rng.chance(12) { (s + 8, s + 8) } else { (s, g) };
    let good = draw_good(rng, z);
    let l = draw_l(rng, n, s, good);
    let p = Params::new(n, b, z, s, g, l).expect("drawn in range");
    Setup::with(rng, p)
}

/// The small box, or another whose image is not much longer.
pub fn draw_small(rng: &mut Rng) -> Setup {
    let small = Params::new(3, 128, 4, 4, 2, 8).unwrap();
    if rng.chance(30) {
        return Setup::with(rng, small);
    }
    loop {
        let n = rng.between(3, 4);
        let z = rng.between(4, 7);
        let s = rng.between(1, 7);
        let g = if rng.chance(80) { rng.between(1, 4) } else { rng.between(1, 256) };
        let good = draw_good(rng, z);
        let l = draw_l(rng, n, s, good);
        let p = Params::new(n, 128, z, s, g, l).unwrap();
        if p.lengths()[IMAGE] <= small.lengths()[IMAGE] * 4 / 3 {
            return Setup::with(rng, p);
        }
    }
}

pub fn params_command(p: &Params) -> Command {
    Params([p.n as u64, p.b as u64, p.z as u64, p.s as u64, p.g as u64, p.l])
}

impl Chooser {
    pub fn new(rng: Rng, style: Style) -> Chooser {
        let mood = Mood {
            write: 0,
            land: 0,
            close: 0,
            reclaim: 0,
            read: 0,
            restart: 0,
            refused: 0,
            cut: 0,
            lose: 0,
            spread: 1,
            start: 0,
            order: Order::Any,
        };
        Chooser {
            rng,
            style,
            mood,
            left: 0,
            untrusted: None,
            seeds: 0,
            queue: VecDeque::new(),
            refusals: 100,
        }
    }

    /// After new parameters.
    pub fn begin(&mut self) {
        self.untrusted = None;
        self.queue.clear();
        self.left = 0;
    }

    pub fn seed(&mut self) -> u64 {
        self.seeds += 1;
        self.rng.below(1 << 32) * 1000 + self.seeds % 1000
    }

    fn new_mood(&mut self, p: &Params) {
        let rng = &mut self.rng;
        let fill = self.style == Style::Fill;
        self.left = rng.between(10, 120);
        let spread = match rng.below(4) {
            0 => 1 + rng.below(p.l.min(3)),
            1 => 1 + rng.below(p.l),
            _ => p.l,
        };
        self.mood = Mood {
            write: *rng.pick(&[30, 60, 60, 100]),
            land: *rng.pick(&[20, 80, 150, 300]),
            close: *rng.pick(&[0, 2, 5, 20]),
            reclaim: if fill {
                *rng.pick(&[20, 60, 150])
            } else {
                *rng.pick(&[0, 10, 40, 100])
            },
            read: if fill { 4 } else { *rng.pick(&[5, 15]) },
            restart: if fill { *rng.pick(&[0, 1, 3]) } else { *rng.pick(&[0, 2, 6, 20]) },
            refused: *rng.pick(&[2, 6]),
            cut: if fill { *rng.pick(&[0, 0, 3]) } else { *rng.pick(&[0, 2, 6, 25]) },
            lose: *rng.pick(&[0, 15, 40, 70]),
            spread,
            start: rng.below(p.l),
            order: match rng.below(8) {
                0 | 1 => Order::Slow(rng.index(p.n)),
                2 => Order::Newest,
                3 => Order::Oldest,
                4 | 5 => Order::Hold,
                _ => Order::Any,
            },
        };
    }

    /// A count that cuts nothing.
    fn enough(&mut self, due: Option<u64>) -> u64 {
        match (self.rng.below(4), due) {
            (0, Some(due)) => due,
            (1, Some(due)) => due.saturating_add(self.rng.below(4)),
            (0 | 1, None) => 1_000_000,
            (2, _) => 1_000_000,
            _ => u64::MAX,
        }
    }

    /// The store count for a call, given with any count: now and then one that cuts it.
    fn count(&mut self, array: &Array, cut: u64, call: impl Fn(u64) -> Command) -> Command {
        if !self.rng.chance(cut) && !self.rng.chance(10) {
            let count = self.enough(None);
            return call(count);
        }
        let due = due(array, &call(u64::MAX));
        if due > 0 && self.rng.chance(if cut > 0 { 90 } else { 0 }) {
            call(self.rng.below(due))
        } else {
            let count = self.enough(Some(due));
            call(count)
        }
    }

    pub fn address(&mut self, p: &Params) -> u64 {
        (self.mood.start + self.rng.below(self.mood.spread)) % p.l
    }

    /// A restart in order.
    fn restart(&mut self, array: &Array) -> Command {
        let p = &array.p;
        let named = match self.untrusted {
            Some(d) => Some(d),
            None if self.rng.chance(self.mood.lose) => Some(self.rng.index(p.n)),
            None => None,
        };
        match named {
            Some(d) => {
                self.spoil(array, d);
                let count = self.enough(Some(0));
                self.queue.push_back(Restart(d as u64, count));
                self.queue.pop_front().unwrap()
            }
            None => {
                let cut = if self.mood.cut > 0 { 30 } else { 0 };
                self.count(array, cut, |count| Restart(255, count))
            }
        }
    }

    /// The drive named missing may hold anything.
    fn spoil(&mut self, array: &Array, d: usize) {
        match self.rng.below(10) {
            0..=3 => {
                let seed = self.seed();
                self.queue.push_back(DriveJunk(d as u64, seed));
            }
            4 => {
                // A new drive: its pointers are 0.
                let from = 4 * array.p.z * d;
                for at in from..from + 4 * array.p.z {
                    if array.pointers[at] != 0 {
                        self.queue.push_back(Poke(POINTERS, at as u64, 0));
                    }
                }
            }
            5 => {
                // Pointers within the capacity, at random.
                for z in 0..array.p.z {
                    let at = 4 * (d * array.p.z + z);
                    let to = (self.rng.index(array.p.cap + 1) as u32).to_be_bytes();
                    for i in 0..4 {
                        if array.pointers[at + i] != to[i] {
                            self.queue.push_back(Poke(POINTERS, (at + i) as u64, to[i]));
                        }
                    }
                }
            }
            _ => {}
        }
    }

    /// Chunks that wait, each as drive and stripe.
    pub fn waiting(array: &Array) -> Vec<(usize, usize)> {
        let mut out = vec![];
        for f in array.state.flights.iter().flatten() {
            for d in 0..array.p.n {
                if array.waiting(d as u64, f.stripe as u64).is_some() {
                    out.push((d, f.stripe));
                }
            }
        }
        out
    }

    /// The next command. Only changes of a drive that is then named missing come between the calls.
    pub fn next(&mut self, array: &Array) -> Command {
        if let Some(command) = self.queue.pop_front() {
            return command;
        }
        if self.left == 0 {
            self.new_mood(&array.p);
        }
        self.left -= 1;
        if array.state.out_of_range() {
            return self.restart(array);
        }
        if array.state.missing.is_some() {
            return self.read_only(array);
        }
        self.healthy(array)
    }

    fn read_only(&mut self, array: &Array) -> Command {
        let p = &array.p;
        let d = array.state.missing.unwrap() as u64;
        match self.rng.below(100) {
            0..=29 => Read(self.rng.below(p.l)),
            30..=54 => {
                let seed = self.seed();
                Fill(self.rng.below(p.l), seed)
            }
            55..=59 => self.refused(array),
            60..=64 => self.restart(array),
            65..=69 => {
                let a = self.rng.below(p.l);
                match self.rng.below(4) {
                    0 => Write(a, self.seed(), u64::MAX),
                    1 => Land(self.rng.below(p.n as u64), self.rng.below(p.s as u64), 1),
                    2 => self.closing(array, 0),
                    _ => Reclaim(u64::MAX),
                }
            }
            70..=84 => {
                let cut = if self.mood.cut > 0 { 40 } else { 0 };
                self.count(array, cut, |count| Rebuild(d, count))
            }
            _ if self.untrusted.is_none() => self.restart(array),
            _ => {
                let cut = if self.mood.cut > 0 { 20 } else { 0 };
                self.count(array, cut, |count| Rebuild(d, count))
            }
        }
    }

    fn healthy(&mut self, array: &Array) -> Command {
        let p = array.p;
        let waiting = Self::waiting(array);
        let m = self.mood.clone();
        let refused = m.refused * self.refusals / 100;
        // Weight a call down where it would be refused.
        let need = array.need();
        let empty = array.empty_zones();
        let scarce = empty <= 1 || need == Need::Segment && empty <= 2;
        let crowded = array.too_many(need).is_some();
        let write = if scarce {
            m.write / 10
        } else if crowded {
            m.write / 5
        } else {
            m.write
        };
        let land = if waiting.is_empty() { 0 } else { m.land };
        let close = if matches!(need, Need::Filling(_)) {
            m.close + if waiting.is_empty() { 5 } else { 0 }
        } else {
            m.close / 8
        };
        let reclaim = match array.chosen(&array.gather(None)) {
            None => m.reclaim / 20,
            Some(c) if c.live.is_empty() => m.reclaim.max(20),
            Some(c) if !c.waiting() || crowded => m.reclaim / 8,
            Some(_) if scarce => m.reclaim.max(40),
            Some(_) => m.reclaim,
        };
        let total = write + land + close + reclaim + m.read + m.restart + refused;
        if total == 0 {
            return self.restart(array);
        }
        let mut at = self.rng.below(total);
        let mut is = |weight: u64| {
            let hit = at < weight;
            at = at.wrapping_sub(weight);
            hit
        };
        if is(write) {
            let a = self.address(&p);
            let seed = self.seed();
            if need == Need::Segment {
                self.count(array, m.cut, |count| Write(a, seed, count))
            } else {
                Write(a, seed, if self.rng.chance(15) { 0 } else { u64::MAX })
            }
        } else if is(land) {
            let newest = waiting.iter().map(|w| w.1).max();
            let oldest = waiting.iter().map(|w| w.1).min();
            let first = |&(d, s): &(usize, usize)| match m.order {
                Order::Any => true,
                Order::Slow(slow) => d != slow,
                Order::Newest => Some(s) == newest,
                Order::Oldest => Some(s) == oldest,
                Order::Hold => Some(s) != oldest,
            };
            let quick: Vec<_> = waiting.iter().copied().filter(first).collect();
            let from = if quick.is_empty() || self.rng.chance(5) { &waiting } else { &quick };
            let (d, s) = *self.rng.pick(from);
            self.count(array, m.cut, |count| Land(d as u64, s as u64, count))
        } else if is(close) {
            let count = if self.rng.chance(50) { 0 } else { u64::MAX };
            self.closing(array, count)
        } else if is(reclaim) {
            self.count(array, m.cut, Reclaim)
        } else if is(m.read) {
            let a = self.rng.below(p.l);
            if self.rng.chance(50) {
                Read(a)
            } else {
                Fill(a, self.seed())
            }
        } else if is(m.restart) {
            self.restart(array)
        } else {
            self.refused(array)
        }
    }

    /// A closing, or the write of no bytes that means one; its address is seldom out of range.
    pub fn closing(&mut self, array: &Array, count: u64) -> Command {
        if self.rng.chance(50) {
            return Close(count);
        }
        let l = array.p.l;
        let a = if self.rng.chance(4) { self.beyond(l) } else { self.rng.below(l) };
        WriteLen(a, 0, count)
    }

    /// A number that is out of range as an address, drive or stripe.
    pub fn beyond(&mut self, first: u64) -> u64 {
        match self.rng.below(6) {
            0 => first,
            1 => first + self.rng.below(300),
            2 => u64::MAX,
            3 => u64::MAX - self.rng.below(4),
            4 => first + (self.rng.below(4) << 32),
            _ => first + (1 + self.rng.below(3)) * 256,
        }
    }

    /// A call that is mostly refused, and changes no premise if it isn't.
    fn refused(&mut self, array: &Array) -> Command {
        let p = &array.p;
        let n = p.n as u64;
        let s = p.s as u64;
        match self.rng.below(9) {
            0 => Write(self.beyond(p.l), self.seed(), self.rng.below(4)),
            1 => Read(self.beyond(p.l)),
            2 => Fill(self.beyond(p.l), self.seed()),
            3 => Land(self.rng.below(n), self.rng.below(s), u64::MAX),
            4 => {
                if self.rng.chance(50) {
                    Land(self.beyond(n), self.rng.below(s), self.rng.below(3))
                } else {
                    Land(self.rng.below(n), self.beyond(s), self.rng.below(3))
                }
            }
            5 => {
                let count = self.rng.below(2);
                self.closing(array, count)
            }
            6 => {
                let m = self.beyond(n);
                Restart(if m == 255 { 256 } else { m }, u64::MAX)
            }
            7 => {
                // Rebuild of a drive that wasn't named.
                let d = if self.rng.chance(50) { self.beyond(n) } else { self.rng.below(n) };
                if array.state.missing.map(|m| m as u64) == Some(d) {
                    Rebuild(n, 0)
                } else {
                    Rebuild(d, self.rng.below(9))
                }
            }
            _ => Rebuild(255, u64::MAX),
        }
    }

    /// Keeps to the premise on the missing drive.
    pub fn observe(&mut self, command: &Command, answer: &Answer) {
        match (command, answer) {
            (Restart(m, _), Answer::Restarted(_)) if *m != 255 => self.untrusted = Some(*m as usize),
            (Rebuild(_, _), Answer::Rebuilt) => self.untrusted = None,
            (Rebuild(d, _), Answer::Cut) => self.untrusted = Some(*d as usize),
            _ => {}
        }
    }

    pub fn busy(&self) -> bool {
        !self.queue.is_empty()
    }
}

/// The stores that a call has due; 0 for a call that stores nothing or is refused.
pub fn due(array: &Array, command: &Command) -> u64 {
    let mut copy = array.clone();
    copy.due = 0;
    crate::script::run(&mut copy, command);
    copy.due
}
