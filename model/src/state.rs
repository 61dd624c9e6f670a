//! What the engine remembers between calls (01, "The calls"; `docs/DECISIONS.md` says how the state is coded).

use crate::params::{FLIGHTS, PADDING};

/// What a filled data position of a stripe in flight is.
#[derive(Clone, Copy, PartialEq, Eq, Debug, Default)]
pub enum Kind {
    #[default]
    Write,
    Copy,
    Padding,
}

/// A stripe in flight.
#[derive(Clone, Copy, Debug)]
pub struct Flight {
    pub stripe: usize,
    /// Data positions filled so far.
    pub filled: usize,
    pub addresses: [u64; 7],
    pub stamps: [u64; 7],
    pub kinds: [Kind; 7],
    /// One bit for each drive that has landed its chunk.
    pub landed: u8,
    /// The offset at which each drive landed it.
    pub offsets: [usize; 8],
}

impl Flight {
    pub fn new(stripe: usize) -> Flight {
        Flight {
            stripe,
            filled: 0,
            addresses: [PADDING; 7],
            stamps: [0; 7],
            kinds: [Kind::Write; 7],
            landed: 0,
            offsets: [0; 8],
        }
    }

    /// Whether a filled position has this address with this stamp.
    pub fn holds(&self, address: u64, stamp: u64) -> bool {
        (0..self.filled).any(|i| self.addresses[i] == address && self.stamps[i] == stamp)
    }
}

/// The state. Its all-zero value has next stamp 0, which no restart gives.
#[derive(Clone, Debug)]
pub struct State {
    /// The drive that the last finished restart named missing.
    pub missing: Option<usize>,
    /// None: the count has ended.
    pub next_stamp: Option<u64>,
    pub next_serial: Option<u64>,
    /// The serial of the open segment (02, item 4: segments are serials).
    pub open: Option<u64>,
    pub next_stripe: usize,
    /// By eighth of the in-flight buffer.
    pub flights: [Option<Flight>; FLIGHTS],
}

impl State {
    /// All zeros: before the first restart and after a cut.
    pub fn zero() -> State {
        State {
            missing: None,
            next_stamp: Some(0),
            next_serial: Some(0),
            open: None,
            next_stripe: 0,
            flights: [None; FLIGHTS],
        }
    }

    /// A state number is out of range.
    pub fn out_of_range(&self) -> bool {
        self.next_stamp == Some(0)
    }

    pub fn in_flight(&self) -> usize {
        self.flights.iter().flatten().count()
    }

    /// The eighth of the stripe `s` in flight.
    pub fn slot_of(&self, s: usize) -> Option<usize> {
        self.flights.iter().position(|f| f.as_ref().is_some_and(|f| f.stripe == s))
    }

    /// The eighth of the stripe that still has open data positions.
    pub fn filling(&self, data: usize) -> Option<usize> {
        self.flights.iter().position(|f| f.as_ref().is_some_and(|f| f.filled < data))
    }

    pub fn holds(&self, address: u64, stamp: u64) -> bool {
        self.flights.iter().flatten().any(|f| f.holds(address, stamp))
    }
}
