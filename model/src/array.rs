//! The lent buffers, the bytes on the drives, and single stores (01, "The array", "What a zone holds", "Store count"; 02, item 4).

use crate::faults::Words;
use crate::params::{Params, LENT, SPARE};
use crate::state::State;
use std::cell::Cell;

/// Record of a data block.
#[derive(Clone, Copy, PartialEq, Eq, Debug, Default)]
pub struct Record {
    pub address: u64,
    pub stamp: u64,
    pub stripe: u32,
}

impl Record {
    pub fn read(bytes: &[u8]) -> Record {
        Record {
            address: be64(&bytes[0..8]),
            stamp: be64(&bytes[8..16]),
            stripe: be32(&bytes[16..20]),
        }
    }

    pub fn bytes(&self) -> [u8; SPARE] {
        let mut out = [0; SPARE];
        out[0..8].copy_from_slice(&self.address.to_be_bytes());
        out[8..16].copy_from_slice(&self.stamp.to_be_bytes());
        out[16..20].copy_from_slice(&self.stripe.to_be_bytes());
        out
    }
}

pub fn be32(b: &[u8]) -> u32 {
    u32::from_be_bytes(b[..4].try_into().unwrap())
}

pub fn be64(b: &[u8]) -> u64 {
    u64::from_be_bytes(b[..8].try_into().unwrap())
}

pub fn xor_into(to: &mut [u8], from: &[u8]) {
    for (t, f) in to.iter_mut().zip(from) {
        *t ^= f;
    }
}

/// What a call answers.
#[derive(Clone, Copy, PartialEq, Eq, Debug)]
pub enum Answer {
    Sent {
        stamp: u64,
        stripe: usize,
        drive: usize,
    },
    Landed(u64),
    Closed(usize),
    /// An empty write where no stripe was filling.
    Nothing,
    Copied {
        stamp: u64,
        stripe: usize,
        drive: usize,
    },
    /// With the segment's zone on drive 0.
    Reset(usize),
    /// Where the block lies in the image, and the stamp of its record.
    Part(usize, u64),
    Never,
    /// On the missing drive, with the decoded stamp.
    Lost(u64),
    /// With the stamp; 0 if never written.
    Filled(u64),
    Restarted(u64),
    Rebuilt,
    Cut,
    Refused(u8),
    /// Refusal 9: the lowest bad zone, and its faults for the coverage table.
    Bad(usize, Words),
}

/// Stores in the order in which they are due.
#[derive(Default)]
pub struct Stores {
    list: Vec<Store>,
    bytes: Vec<u8>,
}

enum Store {
    Reset {
        drive: usize,
        zone: usize,
    },
    /// A block with its spare, from this offset of `bytes`.
    Put {
        drive: usize,
        zone: usize,
        from: usize,
    },
}

impl Stores {
    pub fn reset(&mut self, drive: usize, zone: usize) {
        self.list.push(Store::Reset { drive, zone });
    }

    /// Adds the store of a zero block; the caller fills the returned bytes, block and spare.
    pub fn put(&mut self, p: &Params, drive: usize, zone: usize) -> &mut [u8] {
        let from = self.bytes.len();
        self.bytes.resize(from + p.stride(), 0);
        self.list.push(Store::Put { drive, zone, from });
        &mut self.bytes[from..]
    }
}

/// Everything the host lends, with the state.
#[derive(Clone)]
pub struct Array {
    pub p: Params,
    pub image: Vec<u8>,
    pub pointers: Vec<u8>,
    pub addresses: Vec<u8>,
    pub compact: Vec<u8>,
    pub inflight: Vec<u8>,
    /// One byte for each drive and zone; any but 0 marks an offline zone (02, item 4).
    pub offline: Vec<u8>,
    pub state: State,
    /// The length lent of each buffer where it is not the whole.
    pub lent: [Option<u64>; LENT],
    /// Stores that the last storing call had due, for choosing where to cut.
    pub due: u64,
    /// A word on what the last call met, for the coverage table.
    pub note: Cell<&'static str>,
    /// What the last call met in gathering, as bits of `segments::MET`.
    pub met: Cell<u8>,
}

impl Array {
    /// Before any parameters: every call is refused 1.
    pub fn none() -> Array {
        Array::with(Params::default(), [(); LENT].map(|_| vec![]))
    }

    pub fn new(p: Params) -> Array {
        Array::with(p, p.lengths().map(|len| vec![0; len]))
    }

    fn with(p: Params, buffers: [Vec<u8>; LENT]) -> Array {
        let [image, pointers, addresses, compact, inflight, offline] = buffers;
        Array {
            p,
            image,
            pointers,
            addresses,
            compact,
            inflight,
            offline,
            state: State::zero(),
            lent: [None; LENT],
            due: 0,
            note: Cell::new(""),
            met: Cell::new(0),
        }
    }

    pub fn buffers(&self) -> [&Vec<u8>; LENT] {
        [
            &self.image,
            &self.pointers,
            &self.addresses,
            &self.compact,
            &self.inflight,
            &self.offline,
        ]
    }

    pub fn buffer_mut(&mut self, i: usize) -> &mut Vec<u8> {
        match i {
            0 => &mut self.image,
            1 => &mut self.pointers,
            2 => &mut self.addresses,
            3 => &mut self.compact,
            4 => &mut self.inflight,
            _ => &mut self.offline,
        }
    }

    // Refusals that every call shares.

    /// A refusal, with a word on its reason.
    pub fn refuse(&self, k: u8, why: &'static str) -> Answer {
        self.note.set(why);
        Answer::Refused(k)
    }

    /// Refusals 1 and 2, with the length of the block lent to this call; then 10, then 1 for the narrow bound of L (02, item 4).
    pub fn in_order(&self, block: Option<usize>) -> Result<(), Answer> {
        if self.p.n == 0 {
            return Err(self.refuse(1, "parameters"));
        }
        let lengths = self.p.lengths();
        let wrong = |i: usize| self.lent[i].is_some_and(|len| len != lengths[i] as u64);
        if (0..LENT - 1).any(wrong) {
            return Err(self.refuse(2, "buffer"));
        }
        if wrong(LENT - 1) {
            return Err(self.refuse(2, "list"));
        }
        if block.is_some_and(|len| len != self.p.b) {
            return Err(self.refuse(2, "block"));
        }
        let good = self.fewest_good();
        if good < 4 {
            return Err(self.refuse(10, ""));
        }
        if self.p.l > self.p.most(good) {
            return Err(self.refuse(1, "narrow"));
        }
        Ok(())
    }

    // Zones: offline ones are never looked at, and are not empty.

    pub fn good(&self, d: usize, z: usize) -> bool {
        self.offline[d * self.p.z + z] == 0
    }

    /// The fewest good zones on any drive.
    pub fn fewest_good(&self) -> usize {
        (0..self.p.n)
            .map(|d| (0..self.p.z).filter(|&z| self.good(d, z)).count())
            .min()
            .unwrap_or(0)
    }

    pub fn pointer(&self, d: usize, z: usize) -> usize {
        be32(&self.pointers[4 * (d * self.p.z + z)..]) as usize
    }

    pub fn set_pointer(&mut self, d: usize, z: usize, to: usize) {
        let at = 4 * (d * self.p.z + z);
        self.pointers[at..at + 4].copy_from_slice(&(to as u32).to_be_bytes());
    }

    /// A good zone with pointer 0.
    pub fn is_empty(&self, d: usize, z: usize) -> bool {
        self.good(d, z) && self.pointer(d, z) == 0
    }

    /// A good zone with a pointer above 0.
    pub fn is_used(&self, d: usize, z: usize) -> bool {
        self.good(d, z) && self.pointer(d, z) > 0
    }

    /// The fewest empty good zones on any drive.
    pub fn empty_zones(&self) -> usize {
        (0..self.p.n)
            .map(|d| (0..self.p.z).filter(|&z| self.is_empty(d, z)).count())
            .min()
            .unwrap_or(0)
    }

    /// Each drive's lowest good zone that is empty; none where some drive has none.
    pub fn fresh_zones(&self) -> Option<Vec<usize>> {
        (0..self.p.n).map(|d| (0..self.p.z).find(|&z| self.is_empty(d, z))).collect()
    }

    // Blocks.

    pub fn at(&self, d: usize, z: usize, block: usize) -> usize {
        ((d * self.p.z + z) * self.p.cap + block) * self.p.stride()
    }

    pub fn block(&self, d: usize, z: usize, block: usize) -> &[u8] {
        let at = self.at(d, z, block);
        &self.image[at..at + self.p.b]
    }

    pub fn spare(&self, d: usize, z: usize, block: usize) -> &[u8] {
        let at = self.at(d, z, block) + self.p.b;
        &self.image[at..at + SPARE]
    }

    /// The record at a data offset, by footer or by spare.
    pub fn record(&self, d: usize, z: usize, offset: usize, by_footer: bool) -> Record {
        if by_footer {
            let footer = self.block(d, z, 1 + self.p.s + offset / self.p.per);
            let at = offset % self.p.per * SPARE;
            Record::read(&footer[at..at + SPARE])
        } else {
            Record::read(self.spare(d, z, 1 + offset))
        }
    }

    /// The serial that a zone's header bears.
    pub fn serial(&self, d: usize, z: usize) -> u64 {
        be64(&self.block(d, z, 0)[self.p.serial_field()..])
    }

    /// The copied serial in a zone's header.
    pub fn copied(&self, d: usize, z: usize) -> u64 {
        be64(&self.block(d, z, 0)[self.p.copied_field()..])
    }

    /// The zone numbers in a zone's header, by drive, as they stand.
    pub fn named(&self, d: usize, z: usize) -> Vec<usize> {
        let header = self.block(d, z, 0);
        (0..self.p.n).map(|e| be32(&header[self.p.zone_field(e)..]) as usize).collect()
    }

    /// The bytes of footer block `i` that the spares of a zone make.
    pub fn footer(&self, d: usize, z: usize, i: usize, out: &mut [u8]) {
        let p = &self.p;
        for (k, offset) in (i * p.per..((i + 1) * p.per).min(p.s)).enumerate() {
            out[k * SPARE..(k + 1) * SPARE].copy_from_slice(self.spare(d, z, 1 + offset));
        }
    }

    // Tables.

    pub fn entry(&self, address: u64) -> u32 {
        be32(&self.addresses[4 * address as usize..])
    }

    pub fn set_entry(&mut self, address: u64, place: u32) {
        let at = 4 * address as usize;
        self.addresses[at..at + 4].copy_from_slice(&place.to_be_bytes());
    }

    pub fn compact_at(&self, d: usize, z: usize, offset: usize) -> usize {
        (d * self.p.z + z) * self.p.s + offset
    }

    /// The offset at which the compact table shows stripe `s` in a drive's zone.
    pub fn shown(&self, d: usize, z: usize, s: usize) -> Option<usize> {
        let pointer = self.pointer(d, z);
        self.p
            .group_offsets(s)
            .find(|&o| 1 + o < pointer && self.compact[self.compact_at(d, z, o)] as usize == s % self.p.g)
    }

    /// Where drive `d`'s block of a stripe in flight lies.
    pub fn flight_at(&self, slot: usize, d: usize) -> usize {
        (slot * self.p.n + d) * self.p.b
    }

    // Stores.

    /// Makes the stores, at most `count` of them. True if all were made; else the call is cut and memory is zeroed.
    pub fn apply(&mut self, stores: &Stores, count: u64) -> bool {
        let stride = self.p.stride();
        self.due = stores.list.len() as u64;
        let made = (stores.list.len() as u64).min(count) as usize;
        for store in &stores.list[..made] {
            match *store {
                Store::Reset { drive, zone } => self.set_pointer(drive, zone, 0),
                Store::Put { drive, zone, from } => {
                    let pointer = self.pointer(drive, zone);
                    let at = self.at(drive, zone, pointer);
                    self.image[at..at + stride].copy_from_slice(&stores.bytes[from..from + stride]);
                    self.set_pointer(drive, zone, pointer + 1);
                }
            }
        }
        if made == stores.list.len() {
            return true;
        }
        self.state = State::zero();
        self.addresses.fill(0);
        self.compact.fill(0);
        false
    }
}

/// A zone's header block (02, item 4): `zones` are the segment's, by drive.
pub fn header(p: &Params, drive: usize, zones: &[usize], serial: u64, copied: u64, out: &mut [u8]) {
    out[0..2].copy_from_slice(&(p.header_len() as u16).to_be_bytes());
    out[2] = 2;
    out[3] = p.n as u8;
    out[4] = drive as u8;
    out[5..7].copy_from_slice(&(p.b as u16).to_be_bytes());
    out[7..9].copy_from_slice(&(p.g as u16).to_be_bytes());
    out[9..13].copy_from_slice(&(p.s as u32).to_be_bytes());
    for (e, &zone) in zones.iter().enumerate() {
        out[p.zone_field(e)..][..4].copy_from_slice(&(zone as u32).to_be_bytes());
    }
    out[p.address_field()..][..8].copy_from_slice(&p.l.to_be_bytes());
    out[p.serial_field()..][..8].copy_from_slice(&serial.to_be_bytes());
    out[p.copied_field()..][..8].copy_from_slice(&copied.to_be_bytes());
}
