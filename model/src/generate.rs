//! Random scripts: sensible, hostile, filling and small ones. `hostile` has the changes of buffers between calls.

use crate::array::{Answer, Array};
use crate::choose::{draw_offline, draw_params, draw_small, params_command, Chooser, Setup, Style};
use crate::cover::Cover;
use crate::params::{Params, LENT};
use crate::rng::Rng;
use crate::script::Command::{self, *};
use crate::script::{run, Outcome, ADDRESSES, COMPACT, IMAGE, INFLIGHT, OFFLINE};

pub const KINDS: [&str; 4] = ["run", "hostile", "fill", "small"];

pub struct Generator<'a> {
    pub script: Vec<Command>,
    pub array: Array,
    pub chooser: Chooser,
    calls: u64,
    hostile: bool,
    /// The parameters stay the same through the script.
    fixed: bool,
    /// The array that the script is about.
    setup: Setup,
    /// Pokes that undo the last change.
    pub undo: Vec<Command>,
    /// Restarts refused one after the other.
    stuck: u64,
    cover: &'a mut Cover,
}

/// A script of about `calls` calls.
pub fn generate(kind: &str, seed: u64, calls: u64, given: Option<Params>, cover: &mut Cover) -> Vec<Command> {
    let mut rng = Rng::new(seed ^ kind.bytes().fold(0, |x, b| x * 256 + b as u64));
    let small = kind == "small" || kind == "hostile" && rng.chance(40);
    let setup = match given {
        Some(p) => Setup::with(&mut rng, p),
        None if small => draw_small(&mut rng),
        None => draw_params(&mut rng),
    };
    let (style, hostile) = match kind {
        "run" => (Style::Run, false),
        "fill" => (Style::Fill, false),
        "hostile" => (if rng.chance(30) { Style::Fill } else { Style::Run }, true),
        _ => *rng.pick(&[
            (Style::Run, false),
            (Style::Run, false),
            (Style::Run, true),
            (Style::Fill, true),
            (Style::Fill, false),
        ]),
    };
    let mut g = Generator {
        script: vec![],
        array: Array::none(),
        chooser: Chooser::new(rng, style),
        calls: 0,
        hostile,
        fixed: given.is_some() || kind == "small",
        setup,
        undo: vec![],
        stuck: 0,
        cover,
    };
    if g.rng().chance(4) {
        g.begin_out_of_order();
    }
    g.begin();
    while g.calls < calls {
        g.step();
    }
    g.script
}

impl Generator<'_> {
    pub fn rng(&mut self) -> &mut Rng {
        &mut self.chooser.rng
    }

    pub fn emit(&mut self, command: Command) -> Option<Answer> {
        self.script.push(command);
        match run(&mut self.array, &command) {
            Outcome::Answer(answer, _) => {
                self.calls += 1;
                self.chooser.observe(&command, &answer);
                self.cover.note(&command, &answer, self.array.note.get(), self.array.met.get());
                if let Restart(..) = command {
                    self.stuck = match answer {
                        Answer::Refused(_) | Answer::Bad(..) => self.stuck + 1,
                        _ => 0,
                    };
                }
                Some(answer)
            }
            _ => None,
        }
    }

    // Parameters and lists.

    /// Starts over, with this script's parameters and list.
    pub fn begin(&mut self) {
        if self.hostile && self.rng().chance(30) {
            self.bad_params();
        }
        for command in self.setup.clone().commands(self.rng()) {
            self.emit(command);
        }
        self.begun();
    }

    fn begun(&mut self) {
        self.chooser.begin();
        self.undo.clear();
        self.stuck = 0;
        // Memory may hold anything before the first restart.
        if self.rng().chance(30) {
            for buf in [ADDRESSES, COMPACT, INFLIGHT, IMAGE] {
                if self.rng().chance(50) {
                    let seed = self.chooser.seed();
                    self.emit(Junk(buf, seed));
                }
            }
        }
    }

    /// An array whose list is out of order, and a few calls, each refused 10 or 1.
    fn begin_out_of_order(&mut self) {
        let p = self.setup.p;
        self.emit(params_command(&p));
        let list = self.bad_list();
        for i in (0..list.len()).filter(|&i| list[i] != 0) {
            self.emit(Poke(OFFLINE, i as u64, list[i]));
        }
        for _ in 0..1 + self.rng().below(9) {
            let i = self.rng().below(8);
            self.one_of_each(i);
        }
    }

    /// A list with too few good zones on some drive: three or fewer, or fewer than L's bound needs where there are more.
    fn bad_list(&mut self) -> Vec<u8> {
        let p = self.array.p;
        let d = self.rng().index(p.n);
        let narrow = (4..p.z).rev().find(|&good| p.most(good) < p.l);
        let good = match narrow {
            Some(good) if self.rng().chance(70) => good,
            _ => self.rng().index(4),
        };
        let mut list = draw_offline(self.rng(), &p, good.max(4));
        let zones = &mut list[d * p.z..(d + 1) * p.z];
        while zones.iter().filter(|&&byte| byte == 0).count() > good {
            let z = self.rng().index(p.z);
            zones[z] = 1 + self.rng().below(255) as u8;
        }
        list
    }

    /// Parameters of which one or more are out of range.
    fn bad_params(&mut self) {
        let p = self.setup.p;
        let Params(mut v) = params_command(&p) else { return };
        for _ in 0..1 + self.rng().below(2) {
            let i = self.rng().index(6);
            let most = p.most(p.z);
            let bad: &[u64] = match i {
                0 => &[0, 1, 2, 9, 255, 256 + 3, u64::MAX],
                1 => &[0, 32, 64, 127, 129, 192, 8192, 4097, 1 << 33, u64::MAX],
                2 => &[0, 3, 1025, 1 << 32, u64::MAX],
                3 => &[0, 65536, 1 << 32, u64::MAX],
                4 => &[0, 257, 512, u64::MAX],
                _ => &[0, most + 1, u64::MAX],
            };
            v[i] = *self.rng().pick(bad);
        }
        self.emit(Params(v));
    }

    // Steps.

    fn step(&mut self) {
        if !self.hostile || self.chooser.busy() {
            let command = self.chooser.next(&self.array);
            self.emit(command);
            return;
        }
        if self.stuck >= 3 {
            self.recover();
            return;
        }
        match self.rng().below(1000) {
            0..=729 => {
                let command = self.chooser.next(&self.array);
                self.emit(command);
            }
            730..=759 => self.any_call(),
            760..=774 => self.lengths(),
            775..=782 => self.lists(),
            783..=787 => {
                let len = self.length(self.array.p.b as u64);
                let l = self.array.p.l;
                let a = self.rng().below(l);
                self.emit(WriteLen(a, len, u64::MAX));
            }
            788..=794 => self.on_zero_state(),
            795..=796 => {
                if !self.fixed && self.rng().chance(50) {
                    self.setup = draw_params(self.rng());
                }
                self.begin();
            }
            _ => self.change(),
        }
    }

    /// A restart was refused again and again: take the change back, or start over.
    fn recover(&mut self) {
        self.stuck = 0;
        if !self.undo.is_empty() && self.rng().chance(70) {
            self.take_back();
        } else {
            self.begin();
        }
    }

    pub fn take_back(&mut self) {
        for command in std::mem::take(&mut self.undo) {
            self.emit(command);
        }
    }

    // Odd calls.

    fn number(&mut self, below: u64) -> u64 {
        if self.rng().chance(60) {
            self.rng().below(below)
        } else {
            self.chooser.beyond(below)
        }
    }

    pub fn any_count(&mut self) -> u64 {
        match self.rng().below(4) {
            0 => self.rng().below(3),
            1 => self.rng().below(40),
            _ => u64::MAX,
        }
    }

    pub fn closing(&mut self, count: u64) -> Command {
        self.chooser.closing(&self.array, count)
    }

    /// Any call with any numbers.
    fn any_call(&mut self) {
        let p = self.array.p;
        let count = self.any_count();
        let seed = self.chooser.seed();
        let a = self.number(p.l);
        let d = self.number(p.n as u64);
        let s = self.number(p.s as u64);
        let command = match self.rng().below(9) {
            0 => Write(a, seed, count),
            1 => Land(d, s, count),
            2 => self.closing(count),
            3 => Reclaim(count),
            4 => Read(a),
            5 => Fill(a, seed),
            6 => Restart(if self.rng().chance(60) { 255 } else { d }, count),
            7 => Rebuild(d, count),
            _ => Rebuild(self.array.state.missing.unwrap_or(0) as u64, count),
        };
        self.emit(command);
    }

    /// A few calls, sensible and odd ones.
    pub fn some_calls(&mut self, most: u64) {
        for _ in 0..1 + self.rng().below(most) {
            if self.rng().chance(60) {
                let command = self.chooser.next(&self.array);
                self.emit(command);
            } else {
                self.any_call();
            }
        }
    }

    fn length(&mut self, whole: u64) -> u64 {
        match self.rng().below(6) {
            0 => 0,
            1 => whole - 1,
            2 => whole + 1,
            3 => whole,
            4 => self.rng().below(whole),
            _ => whole + self.rng().below(100),
        }
    }

    /// Lends buffers at other lengths for a few calls.
    fn lengths(&mut self) {
        let whole = self.array.p.lengths();
        let mut cut = vec![];
        for _ in 0..1 + self.rng().below(2) {
            let buf = if self.rng().chance(30) { OFFLINE } else { self.rng().index(LENT) };
            let len = self.length(whole[buf] as u64);
            self.emit(CutLen(buf, Some(len)));
            cut.push(buf);
        }
        self.each_or_some();
        for buf in cut {
            self.emit(CutLen(buf, None));
        }
    }

    /// Lends a list that is out of order for a few calls.
    fn lists(&mut self) {
        if self.array.state.missing.is_none() && self.rng().chance(40) {
            let n = self.array.p.n as u64;
            let d = self.rng().below(n);
            self.emit(Restart(d, 0));
        }
        let list = self.bad_list();
        self.forge(|a| a.offline = list);
        self.each_or_some();
        self.take_back();
    }

    /// One call of each, or some calls.
    fn each_or_some(&mut self) {
        if self.rng().chance(50) {
            for i in 0..8 {
                self.one_of_each(i);
            }
        } else {
            self.some_calls(4);
        }
    }

    pub fn one_of_each(&mut self, i: u64) {
        let p = self.array.p;
        let a = self.rng().below(p.l);
        let seed = self.chooser.seed();
        let named = self.array.state.missing.unwrap_or(0) as u64;
        let (d, s) = match Chooser::waiting(&self.array).first() {
            Some(&(d, s)) => (d as u64, s as u64),
            None => (0, 0),
        };
        let missing = self.array.state.missing.map_or(255, |d| d as u64);
        let command = match i {
            0 => Write(a, seed, u64::MAX),
            1 => Land(d, s, u64::MAX),
            2 => self.closing(u64::MAX),
            3 => Reclaim(u64::MAX),
            4 => Read(a),
            5 => Fill(a, seed),
            6 => Rebuild(named, u64::MAX),
            _ => Restart(missing, u64::MAX),
        };
        self.emit(command);
    }

    /// Cuts a restart, then calls on the all-zero state. A restart with nothing to store can't be cut; a write that opens a segment can.
    fn on_zero_state(&mut self) {
        if !self.array.state.out_of_range() {
            self.emit(Restart(255, 0));
        }
        if !self.array.state.out_of_range() {
            let l = self.setup.p.l;
            let a = self.rng().below(l);
            let seed = self.chooser.seed();
            self.emit(Write(a, seed, 0));
        }
        for _ in 0..1 + self.rng().below(5) {
            let i = self.rng().below(7);
            self.one_of_each(i);
        }
    }

    pub fn any_restart(&mut self) -> Command {
        let n = self.array.p.n as u64;
        let m = if self.rng().chance(60) { 255 } else { self.rng().below(n) };
        let count = self.any_count();
        Restart(m, count)
    }
}
