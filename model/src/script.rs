//! The script language: commands as text, answers as lines.

use crate::array::{Answer, Array};
use crate::params::{Params, LENT};
use std::fmt::{self, Write as _};

pub const BUFFERS: [&str; LENT] = ["image", "pointers", "addresses", "compact", "inflight", "offline"];

pub const IMAGE: usize = 0;
pub const POINTERS: usize = 1;
pub const ADDRESSES: usize = 2;
pub const COMPACT: usize = 3;
pub const INFLIGHT: usize = 4;
pub const OFFLINE: usize = 5;

/// The byte stream of a seed.
pub fn stream(seed: u64, out: &mut [u8]) {
    let mut x = seed;
    for b in out {
        x = x.wrapping_mul(6364136223846793005).wrapping_add(1442695040888963407);
        *b = (x >> 56) as u8;
    }
}

pub fn block(seed: u64, b: usize) -> Vec<u8> {
    let mut out = vec![0; b];
    stream(seed, &mut out);
    out
}

const PRIME: u64 = 0x100000001b3;

/// 64-bit FNV-1a of the bytes with zeros behind them up to `len`, or of their first `len`.
pub fn hash(bytes: &[u8], len: u64) -> u64 {
    let mut h: u64 = 0xcbf29ce484222325;
    for &b in &bytes[..(bytes.len() as u64).min(len) as usize] {
        h = (h ^ b as u64).wrapping_mul(PRIME);
    }
    // A zero byte only multiplies.
    let mut behind = len.saturating_sub(bytes.len() as u64);
    let mut power = PRIME;
    while behind > 0 {
        if behind & 1 == 1 {
            h = h.wrapping_mul(power);
        }
        power = power.wrapping_mul(power);
        behind >>= 1;
    }
    h
}

#[derive(Clone, Copy, PartialEq, Eq, Debug)]
pub enum Command {
    Params([u64; 6]),
    Junk(usize, u64),
    Poke(usize, u64, u8),
    DriveJunk(u64, u64),
    /// None lends the whole buffer.
    CutLen(usize, Option<u64>),
    Write(u64, u64, u64),
    WriteLen(u64, u64, u64),
    Land(u64, u64, u64),
    Close(u64),
    Reclaim(u64),
    Read(u64),
    Fill(u64, u64),
    Restart(u64, u64),
    Rebuild(u64, u64),
}

use Command::*;

impl Command {
    pub fn parse(line: &str) -> Option<Command> {
        let words: Vec<&str> = line.split_ascii_whitespace().collect();
        let (name, args) = words.split_first()?;
        let digits = |w: &str| !w.is_empty() && w.bytes().all(|c| c.is_ascii_digit());
        let num = |i: usize| args.get(i).filter(|w| digits(w)).and_then(|w| w.parse::<u64>().ok());
        let buf = || args.first().and_then(|w| BUFFERS.iter().position(|b| b == w));
        let (arity, command) = match *name {
            "params" => (6, Params([num(0)?, num(1)?, num(2)?, num(3)?, num(4)?, num(5)?])),
            "junk" => (2, Junk(buf()?, num(1)?)),
            "poke" => (3, Poke(buf()?, num(1)?, u8::try_from(num(2)?).ok()?)),
            "drivejunk" => (2, DriveJunk(num(0)?, num(1)?)),
            "cutlen" if args.get(1) == Some(&"-1") => (2, CutLen(buf()?, None)),
            "cutlen" => (2, CutLen(buf()?, Some(num(1)?))),
            "write" => (3, Write(num(0)?, num(1)?, num(2)?)),
            "writelen" => (3, WriteLen(num(0)?, num(1)?, num(2)?)),
            "land" => (3, Land(num(0)?, num(1)?, num(2)?)),
            "close" => (1, Close(num(0)?)),
            "reclaim" => (1, Reclaim(num(0)?)),
            "read" => (1, Read(num(0)?)),
            "fill" => (2, Fill(num(0)?, num(1)?)),
            "restart" => (2, Restart(num(0)?, num(1)?)),
            "rebuild" => (2, Rebuild(num(0)?, num(1)?)),
            _ => return None,
        };
        (args.len() == arity).then_some(command)
    }
}

impl fmt::Display for Command {
    fn fmt(&self, out: &mut fmt::Formatter) -> fmt::Result {
        match *self {
            Params([n, b, z, s, g, l]) => write!(out, "params {n} {b} {z} {s} {g} {l}"),
            Junk(buf, seed) => write!(out, "junk {} {seed}", BUFFERS[buf]),
            Poke(buf, at, byte) => write!(out, "poke {} {at} {byte}", BUFFERS[buf]),
            DriveJunk(d, seed) => write!(out, "drivejunk {d} {seed}"),
            CutLen(buf, None) => write!(out, "cutlen {} -1", BUFFERS[buf]),
            CutLen(buf, Some(len)) => write!(out, "cutlen {} {len}", BUFFERS[buf]),
            Write(a, seed, count) => write!(out, "write {a} {seed} {count}"),
            WriteLen(a, len, count) => write!(out, "writelen {a} {len} {count}"),
            Land(d, s, count) => write!(out, "land {d} {s} {count}"),
            Close(count) => write!(out, "close {count}"),
            Reclaim(count) => write!(out, "reclaim {count}"),
            Read(a) => write!(out, "read {a}"),
            Fill(a, seed) => write!(out, "fill {a} {seed}"),
            Restart(m, count) => write!(out, "restart {m} {count}"),
            Rebuild(d, count) => write!(out, "rebuild {d} {count}"),
        }
    }
}

/// What one command gave.
pub enum Outcome {
    Ok,
    /// Parameters outside their ranges.
    NoParams,
    /// A command that names no drive, or buffers beyond reason.
    Error,
    /// A call's answer, with the block that the second read filled.
    Answer(Answer, Option<Vec<u8>>),
}

/// Carries out one command.
pub fn run(array: &mut Array, command: &Command) -> Outcome {
    match *command {
        Params([n, b, z, s, g, l]) => match Params::new(n, b, z, s, g, l) {
            None => return Outcome::NoParams,
            // More than a test machine can lend.
            Some(p) if p.lengths().iter().sum::<usize>() > 1 << 32 => return Outcome::Error,
            Some(p) => *array = Array::new(p),
        },
        Junk(buf, seed) => stream(seed, array.buffer_mut(buf)),
        Poke(buf, at, byte) => {
            let bytes = array.buffer_mut(buf);
            if !bytes.is_empty() {
                let at = (at % bytes.len() as u64) as usize;
                bytes[at] = byte;
            }
        }
        DriveJunk(d, seed) => {
            if d >= array.p.n as u64 {
                return Outcome::Error;
            }
            junk_drive(array, d as usize, seed);
        }
        CutLen(buf, len) => array.lent[buf] = len,
        _ => {
            array.note.set("");
            array.met.set(0);
            let (answer, filled) = call(array, command);
            return Outcome::Answer(answer, filled);
        }
    }
    Outcome::Ok
}

/// Junk on one drive and in its pointers.
pub fn junk_drive(array: &mut Array, d: usize, seed: u64) {
    let image = array.image.len() / array.p.n;
    stream(seed, &mut array.image[d * image..(d + 1) * image]);
    let pointers = 4 * array.p.z;
    stream(seed.wrapping_add(1), &mut array.pointers[d * pointers..(d + 1) * pointers]);
}

fn call(array: &mut Array, command: &Command) -> (Answer, Option<Vec<u8>>) {
    let b = array.p.b;
    let answer = match *command {
        Write(a, seed, count) => array.write(a, &block(seed, b), count),
        WriteLen(a, len, count) => array.write(a, &vec![0; len.min(b as u64 + 1) as usize], count),
        Land(d, s, count) => array.land(d, s, count),
        Close(_) => array.close(),
        Reclaim(count) => array.reclaim(count),
        Read(a) => array.read(a),
        Fill(a, seed) => {
            let mut lent = block(seed, b);
            let answer = array.fill(a, &mut lent);
            return (answer, Some(lent));
        }
        Restart(m, count) => array.restart(m, count),
        Rebuild(d, count) => array.rebuild(d, count),
        _ => unreachable!("not a call"),
    };
    (answer, None)
}

/// The line that a command prints; why: behind a call's line stand, set off by ` # `, the words on what it met.
pub fn line(array: &mut Array, command: &Command, why: bool) -> String {
    let (answer, filled) = match run(array, command) {
        Outcome::Ok => return "ok".into(),
        Outcome::NoParams => return "refused 1".into(),
        Outcome::Error => return "error".into(),
        Outcome::Answer(answer, filled) => (answer, filled),
    };
    let mut out = match answer {
        Answer::Sent { stamp, stripe, drive } => format!("sent {stamp} {stripe} {drive}"),
        Answer::Landed(n) => format!("landed {n}"),
        Answer::Closed(s) => format!("closed {s}"),
        Answer::Nothing => "nothing".into(),
        Answer::Copied { stamp, stripe, drive } => format!("copied {stamp} {stripe} {drive}"),
        Answer::Reset(z) => format!("reset {z}"),
        Answer::Part(at, stamp) => format!("part {at} {stamp}"),
        Answer::Never => "never 0".into(),
        Answer::Lost(stamp) => format!("lost {stamp}"),
        Answer::Filled(stamp) => {
            let lent = filled.unwrap_or_default();
            format!("filled {:016x} {stamp}", hash(&lent, lent.len() as u64))
        }
        Answer::Restarted(n) => format!("restarted {n}"),
        Answer::Rebuilt => "rebuilt".into(),
        Answer::Cut => "cut".into(),
        Answer::Refused(k) => format!("refused {k}"),
        Answer::Bad(z, _) => format!("refused 9 {z}"),
    };
    out.push_str(" |");
    // The offline list is not among the hashes.
    for (i, bytes) in array.buffers().iter().enumerate().take(LENT - 1) {
        let len = array.lent[i].unwrap_or(bytes.len() as u64);
        write!(out, " {:016x}", hash(bytes, len)).unwrap();
    }
    if why {
        let words = match answer {
            Answer::Bad(_, words) => words.list().join(", "),
            _ => array.note.get().into(),
        };
        write!(out, " # {words}").unwrap();
    }
    out
}
