//! Segments, gathered by serial from the good zones that are not empty (02, item 4; 01, "Restart and rebuild" steps 1 and 2).

use crate::array::Array;
use std::collections::BTreeMap;

/// What a gathering can meet, one bit each, for the coverage table.
pub const MET: [&str; 4] = [
    "a serial absent from a drive",
    "such a serial in two zones of a drive",
    "a copy of another segment",
    "a remaining serial in two zones of a drive",
];

/// A serial that every present drive bears.
#[derive(Clone)]
pub struct Segment {
    pub serial: u64,
    /// By the header on the lowest present drive.
    pub copied: u64,
    /// The zone numbers in the header on the lowest present drive, by drive, as they stand.
    pub named: Vec<usize>,
    /// Its zone on each drive: the lowest that bears its serial, on the missing drive the one that is named.
    pub zones: Vec<usize>,
    /// All zones that bear its serial, each with its drive, rising.
    pub bearing: Vec<(usize, usize)>,
}

impl Segment {
    /// Some present drive bears its serial in more than one zone.
    pub fn is_twice(&self) -> bool {
        twice(&self.bearing)
    }
}

fn twice(bearing: &[(usize, usize)]) -> bool {
    bearing.windows(2).any(|w| w[0].0 == w[1].0)
}

/// Where the zone of a place belongs.
#[derive(Clone, Copy, PartialEq, Eq)]
enum Home {
    None,
    /// The remaining segment of this index.
    One(usize),
    Several,
}

/// What the drives hold with this drive missing.
pub struct Segments {
    pub missing: Option<usize>,
    /// Left by steps 1 and 2, by rising serial.
    pub remaining: Vec<Segment>,
    /// Dropped serials, rising, each with all zones that bear it.
    pub dropped: Vec<Vec<(usize, usize)>>,
    /// By drive and zone.
    homes: Vec<Home>,
    zones: usize,
}

impl Segments {
    /// The index of the remaining segment with this serial.
    pub fn of(&self, serial: u64) -> Option<usize> {
        self.remaining.iter().position(|s| s.serial == serial)
    }

    /// The index of the one remaining segment whose zone on drive `d` is `z`; none where there is none or more than one.
    pub fn home(&self, d: usize, z: usize) -> Option<usize> {
        match self.homes[d * self.zones + z] {
            Home::One(i) => Some(i),
            _ => None,
        }
    }

    /// More than one remaining segment has this zone; so only on the missing drive.
    pub fn is_shared(&self, d: usize, z: usize) -> bool {
        self.homes[d * self.zones + z] == Home::Several
    }
}

impl Array {
    pub fn present(&self, missing: Option<usize>) -> Vec<usize> {
        (0..self.p.n).filter(|&d| Some(d) != missing).collect()
    }

    /// The segments that the drives hold with this drive missing.
    pub fn gather(&self, missing: Option<usize>) -> Segments {
        let present = self.present(missing);
        let mut left = vec![];
        let mut dropped = BTreeMap::new();
        for (serial, bearing) in self.serials(&present) {
            if present.iter().all(|&d| bearing.iter().any(|&(e, _)| e == d)) {
                left.push(self.segment(serial, bearing, missing));
            } else {
                self.meet(0);
                if twice(&bearing) {
                    self.meet(1);
                }
                dropped.insert(serial, bearing);
            }
        }
        let serials: Vec<u64> = left.iter().map(|s| s.serial).collect();
        let is_copy = |s: &Segment| s.copied != 0 && s.copied != s.serial && serials.contains(&s.copied);
        let (copies, remaining): (Vec<_>, Vec<_>) = left.into_iter().partition(is_copy);
        for copy in copies {
            self.meet(2);
            dropped.insert(copy.serial, copy.bearing);
        }
        if remaining.iter().any(|s| s.is_twice()) {
            self.meet(3);
        }
        let homes = self.homes(&remaining);
        Segments {
            missing,
            remaining,
            dropped: dropped.into_values().collect(),
            homes,
            zones: self.p.z,
        }
    }

    fn meet(&self, what: usize) {
        self.met.set(self.met.get() | 1 << what);
    }

    /// By serial, the zones of these drives that bear it, by drive and zone.
    fn serials(&self, present: &[usize]) -> BTreeMap<u64, Vec<(usize, usize)>> {
        let mut out: BTreeMap<u64, Vec<(usize, usize)>> = BTreeMap::new();
        for &d in present {
            for z in (0..self.p.z).filter(|&z| self.is_used(d, z)) {
                out.entry(self.serial(d, z)).or_default().push((d, z));
            }
        }
        out
    }

    /// A serial on every present drive. The first zone that bears it is the one on the lowest present drive.
    fn segment(&self, serial: u64, bearing: Vec<(usize, usize)>, missing: Option<usize>) -> Segment {
        let (lowest, first) = bearing[0];
        let named = self.named(lowest, first);
        let zone = |d: usize| match bearing.iter().find(|&&(e, _)| e == d) {
            Some(&(_, z)) => z,
            None => named[d],
        };
        debug_assert!((0..self.p.n).all(|d| Some(d) == missing || bearing.iter().any(|b| b.0 == d)));
        Segment {
            serial,
            copied: self.copied(lowest, first),
            zones: (0..self.p.n).map(zone).collect(),
            named,
            bearing,
        }
    }

    fn homes(&self, remaining: &[Segment]) -> Vec<Home> {
        let p = &self.p;
        let mut homes = vec![Home::None; p.n * p.z];
        for (i, segment) in remaining.iter().enumerate() {
            for (d, &z) in segment.zones.iter().enumerate() {
                if z < p.z && self.good(d, z) {
                    let home = &mut homes[d * p.z + z];
                    *home = if *home == Home::None { Home::One(i) } else { Home::Several };
                }
            }
        }
        homes
    }

    /// All present zones of the segment are full.
    pub fn is_sealed(&self, segment: &Segment, missing: Option<usize>) -> bool {
        (0..self.p.n).all(|d| Some(d) == missing || self.pointer(d, segment.zones[d]) == self.p.cap)
    }
}
