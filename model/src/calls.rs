//! Write, landing, closing, the two reads and reclaim (01, "The calls"; checks by "Refusals"; 02, items 1 to 4).

use crate::array::{header, xor_into, Answer, Array, Record, Stores};
use crate::faults::Faults;
use crate::params::{FLIGHTS, NEVER, PADDING, SPARE};
use crate::segments::{Segment, Segments};
use crate::state::{Flight, Kind};

/// What a block needs before it can be put into a stripe.
#[derive(Clone, Copy, PartialEq, Eq)]
pub enum Need {
    /// Nothing: the stripe in this eighth is filling.
    Filling(usize),
    /// A stripe must begin in the open segment.
    Stripe,
    /// A segment must be opened first.
    Segment,
}

/// A place that counts as inside the image, with the index of its segment.
#[derive(Clone, Copy)]
pub struct Spot {
    pub drive: usize,
    pub zone: usize,
    pub block: usize,
    pub home: usize,
}

/// The segment that reclaim takes.
pub struct Chosen {
    pub segment: Segment,
    /// Live places, rising, so by drive and then by block.
    pub live: Vec<u32>,
    /// The first live data block not in flight, with its record.
    pub first: Option<(Spot, Record)>,
    /// Zones of live header and footer blocks.
    pub odd: Vec<usize>,
}

impl Chosen {
    /// Some live block is not in flight.
    pub fn waiting(&self) -> bool {
        self.first.is_some() || !self.odd.is_empty()
    }
}

/// What the lookup of an address gives (02, item 2).
#[derive(Default)]
struct Found {
    lost: bool,
    /// The stored chunks whose sum it is, each by drive, zone and offset: the block's own, or on the missing drive the others of its stripe; none if never written.
    from: Vec<(usize, usize, usize)>,
    stamp: u64,
}

/// A chunk that lands.
struct Landing {
    slot: usize,
    drive: usize,
    stripe: usize,
    /// The stripe as it is in flight after the landing.
    flight: Flight,
    /// The stripe is then complete.
    complete: bool,
    /// All stripes of the segment are.
    last: bool,
}

impl Array {
    pub fn need(&self) -> Need {
        match self.state.filling(self.p.data()) {
            Some(slot) => Need::Filling(slot),
            None if self.state.open.is_some() && self.state.next_stripe < self.p.s => Need::Stripe,
            None => Need::Segment,
        }
    }

    /// Refusal 7, with its reason.
    pub fn too_many(&self, need: Need) -> Option<&'static str> {
        let group = self.state.next_stripe / self.p.g;
        match need {
            Need::Filling(_) => None,
            Need::Stripe if self.state.in_flight() == FLIGHTS => Some("eight"),
            Need::Stripe => self
                .state
                .flights
                .iter()
                .flatten()
                .any(|f| f.stripe / self.p.g != group)
                .then_some("group"),
            Need::Segment => (self.state.in_flight() > 0).then_some("segment"),
        }
    }

    /// Refusal 6 for a serial, with a word on whether 7 would apply too.
    fn no_serial(&self, need: Need) -> Option<&'static str> {
        let ended = need == Need::Segment && self.state.next_serial.is_none();
        ended.then_some(if self.state.in_flight() > 0 { "serial before 7" } else { "serial" })
    }

    fn check_missing(&self) -> Result<(), Answer> {
        match self.state.missing {
            Some(_) => Err(self.refuse(3, "")),
            None => Ok(()),
        }
    }

    fn check_state(&self, faults: &mut Faults) {
        if self.state.out_of_range() {
            faults.add(0, "state");
        }
    }

    // Places.

    /// Where a place lies, or why it counts as outside the image: beyond it, in an offline zone, or not in just one remaining segment.
    pub fn locate(&self, segments: &Segments, place: u32) -> Result<Spot, &'static str> {
        let (drive, zone, block) = self.p.split(place).ok_or("outside")?;
        if !self.good(drive, zone) {
            return Err("in offline");
        }
        let none = if segments.is_shared(drive, zone) { "in several" } else { "in none" };
        let home = segments.home(drive, zone).ok_or(none)?;
        Ok(Spot { drive, zone, block, home })
    }

    /// A place to be read: refusal 9 unless it is a data block below its pointer. On the missing drive no pointer counts.
    fn check_place(&self, segments: &Segments, place: u32, faults: &mut Faults) {
        match self.locate(segments, place) {
            Err(why) => faults.add(0, why),
            Ok(spot) if !self.p.is_data(spot.block) => faults.add(spot.zone, "notdata"),
            Ok(spot) if Some(spot.drive) == segments.missing => {}
            Ok(spot) if spot.block >= self.pointer(spot.drive, spot.zone) => faults.add(spot.zone, "notbelow"),
            Ok(_) => {}
        }
    }

    /// Entries of the address table that count as outside the image.
    fn check_table(&self, segments: &Segments, faults: &mut Faults) {
        for place in (0..self.p.l).map(|a| self.entry(a)).filter(|&place| place != NEVER) {
            if let Err(why) = self.locate(segments, place) {
                faults.add(0, why);
            }
        }
    }

    /// Live places of each remaining segment, each once, rising. Places that count as outside the image are left out.
    fn live(&self, segments: &Segments) -> Vec<Vec<u32>> {
        let mut live: Vec<Vec<u32>> = vec![vec![]; segments.remaining.len()];
        for place in (0..self.p.l).map(|a| self.entry(a)) {
            if let Ok(spot) = self.locate(segments, place) {
                live[spot.home].push(place);
            }
        }
        for places in live.iter_mut() {
            places.sort_unstable();
            places.dedup();
        }
        live
    }

    /// The sealed segment with fewest live blocks, lowest zone on drive 0 on a tie. Asked for with no drive missing.
    pub fn chosen(&self, segments: &Segments) -> Option<Chosen> {
        let live = self.live(segments);
        let sealed = (0..live.len()).filter(|&i| self.is_sealed(&segments.remaining[i], None));
        let i = sealed.min_by_key(|&i| (live[i].len(), segments.remaining[i].zones[0]))?;
        let mut chosen = Chosen {
            segment: segments.remaining[i].clone(),
            live: live[i].clone(),
            first: None,
            odd: vec![],
        };
        for &place in &chosen.live {
            let spot = self.locate(segments, place).expect("a live place");
            if !self.p.is_data(spot.block) {
                chosen.odd.push(spot.zone);
            } else if chosen.first.is_none() {
                let record = self.record(spot.drive, spot.zone, spot.block - 1, true);
                if !self.state.holds(record.address, record.stamp) {
                    chosen.first = Some((spot, record));
                }
            }
        }
        Some(chosen)
    }

    // Write.

    /// Puts a block into the filling stripe, opening segment and stripe where needed. None if cut.
    fn put_block(&mut self, need: Need, block: &[u8], record: (u64, u64, Kind), count: u64) -> Option<(usize, usize)> {
        let p = self.p;
        if need == Need::Segment && !self.open_segment(count) {
            return None;
        }
        let slot = match need {
            Need::Filling(slot) => slot,
            _ => self.begin_stripe(),
        };
        let flight = self.state.flights[slot].as_mut().expect("a stripe that is filling");
        let i = flight.filled;
        flight.addresses[i] = record.0;
        flight.stamps[i] = record.1;
        flight.kinds[i] = record.2;
        flight.filled += 1;
        let stripe = flight.stripe;
        let full = flight.filled == p.data();
        let drive = p.data_drive(stripe, i);
        let at = self.flight_at(slot, drive);
        self.inflight[at..at + p.b].copy_from_slice(block);
        if full {
            self.work_parity(slot, stripe);
        }
        Some((stripe, drive))
    }

    /// Stores headers in each drive's lowest empty good zone, under the next serial. False if cut.
    fn open_segment(&mut self, count: u64) -> bool {
        let p = self.p;
        let zones = self.fresh_zones().expect("refusal 8 leaves an empty zone on each drive");
        let serial = self.state.next_serial.expect("refusal 6 leaves a serial");
        let mut stores = Stores::default();
        for d in 0..p.n {
            header(&p, d, &zones, serial, 0, stores.put(&p, d, zones[d]));
        }
        if !self.apply(&stores, count) {
            return false;
        }
        self.note.set(if zones.iter().all(|&z| z == zones[0]) {
            "opens"
        } else {
            "opens unlike zones"
        });
        self.state.next_serial = serial.checked_add(1);
        self.state.open = Some(serial);
        self.state.next_stripe = 0;
        true
    }

    /// Begins the next stripe in the lowest free eighth.
    fn begin_stripe(&mut self) -> usize {
        let slot = self
            .state
            .flights
            .iter()
            .position(|f| f.is_none())
            .expect("refusal 7 leaves an eighth");
        self.state.flights[slot] = Some(Flight::new(self.state.next_stripe));
        self.state.next_stripe += 1;
        slot
    }

    /// Parity of a stripe in flight, in its eighth.
    fn work_parity(&mut self, slot: usize, stripe: usize) {
        let p = self.p;
        let mut parity = vec![0; p.b];
        for i in 0..p.data() {
            let at = self.flight_at(slot, p.data_drive(stripe, i));
            xor_into(&mut parity, &self.inflight[at..at + p.b]);
        }
        let at = self.flight_at(slot, p.parity_drive(stripe));
        self.inflight[at..at + p.b].copy_from_slice(&parity);
    }

    pub fn write(&mut self, address: u64, block: &[u8], count: u64) -> Answer {
        match self.try_write(address, block, count) {
            Ok(a) | Err(a) => a,
        }
    }

    fn try_write(&mut self, address: u64, block: &[u8], count: u64) -> Result<Answer, Answer> {
        self.in_order((!block.is_empty()).then_some(block.len()))?;
        self.check_missing()?;
        if address >= self.p.l {
            return Err(self.refuse(4, ""));
        }
        if block.is_empty() {
            return self.end_scan();
        }
        let need = self.need();
        let stamp = self.state.next_stamp.ok_or_else(|| self.refuse(6, "stamp"))?;
        if let Some(why) = self.no_serial(need) {
            return Err(self.refuse(6, why));
        }
        self.check_room(need)?;
        let mut faults = Faults::default();
        self.check_state(&mut faults);
        faults.end()?;
        match self.put_block(need, block, (address, stamp, Kind::Write), count) {
            None => Ok(Answer::Cut),
            Some((stripe, drive)) => {
                self.state.next_stamp = stamp.checked_add(1);
                Ok(Answer::Sent { stamp, stripe, drive })
            }
        }
    }

    /// Refusals 8 and 7 of a write (02, item 3: 8 first).
    fn check_room(&self, need: Need) -> Result<(), Answer> {
        let empty = self.empty_zones();
        let wait = self.too_many(need);
        if empty <= 1 || need == Need::Segment && empty <= 2 {
            let why = match (empty <= 1, wait.is_some()) {
                (true, false) => "one",
                (true, true) => "one before 7",
                (false, false) => "two",
                (false, true) => "two before 7",
            };
            return Err(self.refuse(8, why));
        }
        wait.map_or(Ok(()), |why| Err(self.refuse(7, why)))
    }

    /// A write of no bytes (02, item 1): a closing where a stripe is filling, else nothing.
    fn end_scan(&mut self) -> Result<Answer, Answer> {
        if let Some(slot) = self.state.filling(self.p.data()) {
            return self.close_stripe(slot);
        }
        let mut faults = Faults::default();
        self.check_state(&mut faults);
        faults.end()?;
        Ok(Answer::Nothing)
    }

    // Landing.

    pub fn land(&mut self, drive: u64, stripe: u64, count: u64) -> Answer {
        match self.try_land(drive, stripe, count) {
            Ok(a) | Err(a) => a,
        }
    }

    /// The eighth of the stripe whose chunk on `drive` waits.
    pub fn waiting(&self, drive: u64, stripe: u64) -> Option<usize> {
        if drive >= self.p.n as u64 || stripe >= self.p.s as u64 {
            return None;
        }
        let (drive, stripe) = (drive as usize, stripe as usize);
        let slot = self.state.slot_of(stripe)?;
        let flight = self.state.flights[slot].as_ref().unwrap();
        let filled = match self.p.position(stripe, drive) {
            Some(i) => i < flight.filled,
            None => flight.filled == self.p.data(),
        };
        (filled && flight.landed >> drive & 1 == 0).then_some(slot)
    }

    /// The chunk that the host names, if it waits.
    fn landing(&self, drive: u64, stripe: u64) -> Option<Landing> {
        let slot = self.waiting(drive, stripe)?;
        let (drive, stripe) = (drive as usize, stripe as usize);
        let mut flight = self.state.flights[slot]?;
        flight.landed |= 1 << drive;
        let complete = flight.landed.count_ones() as usize == self.p.n;
        Some(Landing {
            slot,
            drive,
            stripe,
            flight,
            complete,
            last: complete && self.state.next_stripe == self.p.s && self.state.in_flight() == 1,
        })
    }

    fn try_land(&mut self, drive: u64, stripe: u64, count: u64) -> Result<Answer, Answer> {
        self.in_order(None)?;
        self.check_missing()?;
        let p = self.p;
        let number = drive >= p.n as u64 || stripe >= p.s as u64;
        let why = if number { "number" } else { "not waiting" };
        let mut landing = self.landing(drive, stripe).ok_or_else(|| self.refuse(5, why))?;
        let segments = self.gather(None);
        let home = self.state.open.and_then(|serial| segments.of(serial));
        self.check_landing(&landing, &segments, home)?;

        let segment = &segments.remaining[home.expect("a landing without a segment is refused")];
        let (d, zone) = (landing.drive, segment.zones[landing.drive]);
        let offset = self.pointer(d, zone) - 1;
        landing.flight.offsets[d] = offset;
        let stores = self.landing_stores(&landing, segment, offset);
        let entries = if landing.complete {
            self.new_entries(&landing, &segments, segment)
        } else {
            vec![]
        };
        if !self.apply(&stores, count) {
            return Ok(Answer::Cut);
        }
        let at = self.compact_at(d, zone, offset);
        self.compact[at] = (landing.stripe % p.g) as u8;
        for (a, place) in entries {
            self.set_entry(a, place);
        }
        Ok(Answer::Landed(self.settle(&landing)))
    }

    /// Refusal 9 of a landing: the open segment, the pointers of its zones, and the places of a completed stripe's addresses.
    fn check_landing(&self, landing: &Landing, segments: &Segments, home: Option<usize>) -> Result<(), Answer> {
        let p = &self.p;
        let mut faults = Faults::default();
        self.check_state(&mut faults);
        match home {
            None => faults.add(0, "no segment"),
            Some(i) => {
                let zones = &segments.remaining[i].zones;
                let pointer = self.pointer(landing.drive, zones[landing.drive]);
                if pointer == 0 || !p.group_offsets(landing.stripe).contains(&(pointer - 1)) {
                    faults.add(zones[landing.drive], "landing");
                }
                for d in (0..p.n).filter(|_| landing.last) {
                    if self.pointer(d, zones[d]) + (d == landing.drive) as usize + p.f > p.cap {
                        faults.add(zones[d], "above");
                    }
                }
            }
        }
        if landing.complete {
            for &a in landing.flight.addresses[..p.data()].iter().filter(|&&a| a < p.l) {
                if self.entry(a) != NEVER {
                    self.check_place(segments, self.entry(a), &mut faults);
                }
            }
        }
        faults.end()
    }

    /// The record of the chunk.
    fn landing_record(&self, landing: &Landing) -> Record {
        let flight = &landing.flight;
        let data = self.p.data();
        let (address, stamp) = match self.p.position(landing.stripe, landing.drive) {
            Some(i) => (flight.addresses[i], flight.stamps[i]),
            None => (
                flight.addresses[..data].iter().fold(0, |x, a| x ^ a),
                flight.stamps[..data].iter().fold(0, |x, s| x ^ s),
            ),
        };
        Record {
            address,
            stamp,
            stripe: landing.stripe as u32,
        }
    }

    /// The chunk, then the footers where all stripes of the segment are complete.
    fn landing_stores(&self, landing: &Landing, segment: &Segment, offset: usize) -> Stores {
        let p = &self.p;
        let record = self.landing_record(landing).bytes();
        let mut stores = Stores::default();
        let put = stores.put(p, landing.drive, segment.zones[landing.drive]);
        let at = self.flight_at(landing.slot, landing.drive);
        put[..p.b].copy_from_slice(&self.inflight[at..at + p.b]);
        put[p.b..].copy_from_slice(&record);
        if landing.complete {
            self.note.set("completes");
        }
        if !landing.last {
            return stores;
        }
        let behind = |d: usize| self.pointer(d, segment.zones[d]) + (d == landing.drive) as usize == 1 + p.s;
        self.note.set(if (0..p.n).all(behind) { "footers" } else { "odd footers" });
        for (d, &zone) in segment.zones.iter().enumerate() {
            for i in 0..p.f {
                let put = stores.put(p, d, zone);
                self.footer(d, zone, i, put);
                if d == landing.drive && offset / p.per == i {
                    put[offset % p.per * SPARE..][..SPARE].copy_from_slice(&record);
                }
            }
        }
        stores
    }

    /// The address table's entries that a completed stripe changes. Old records are as they were before the call.
    fn new_entries(&self, landing: &Landing, segments: &Segments, segment: &Segment) -> Vec<(u64, u32)> {
        let p = &self.p;
        let mut best: Vec<(u64, Key)> = vec![];
        for i in 0..p.data() {
            let a = landing.flight.addresses[i];
            if a >= p.l {
                continue;
            }
            let drive = p.data_drive(landing.stripe, i);
            let new = Key {
                stamp: landing.flight.stamps[i],
                serial: segment.serial,
                drive,
                offset: landing.flight.offsets[drive],
            };
            let old = match best.iter().rev().find(|(b, _)| *b == a) {
                Some((_, key)) => Some(*key),
                None => self.key_of(segments, self.entry(a)),
            };
            if old.is_none_or(|old| new.beats(&old)) {
                best.push((a, new));
            }
        }
        let place = |key: &Key| p.place(key.drive, segment.zones[key.drive], 1 + key.offset);
        best.iter().map(|(a, key)| (*a, place(key))).collect()
    }

    /// The comparison key of a place that the table holds; none for never written.
    fn key_of(&self, segments: &Segments, place: u32) -> Option<Key> {
        if place == NEVER {
            return None;
        }
        let spot = self.locate(segments, place).ok()?;
        let segment = &segments.remaining[spot.home];
        let record = self.record(spot.drive, spot.zone, spot.block - 1, self.is_sealed(segment, None));
        Some(Key {
            stamp: record.stamp,
            serial: segment.serial,
            drive: spot.drive,
            offset: spot.block - 1,
        })
    }

    /// The state after the landing; the number of writes acknowledged.
    fn settle(&mut self, landing: &Landing) -> u64 {
        if !landing.complete {
            self.state.flights[landing.slot] = Some(landing.flight);
            return 0;
        }
        self.state.flights[landing.slot] = None;
        if landing.last {
            self.state.open = None;
            self.state.next_stripe = 0;
        }
        let kinds = &landing.flight.kinds[..self.p.data()];
        kinds.iter().filter(|&&k| k == Kind::Write).count() as u64
    }

    // Closing.

    pub fn close(&mut self) -> Answer {
        match self.try_close() {
            Ok(a) | Err(a) => a,
        }
    }

    fn try_close(&mut self) -> Result<Answer, Answer> {
        self.in_order(None)?;
        self.check_missing()?;
        let slot = self.state.filling(self.p.data()).ok_or_else(|| self.refuse(5, "none filling"))?;
        self.close_stripe(slot)
    }

    /// Fills the filling stripe with padding, unless zones are scarce and a live block waits to be copied.
    fn close_stripe(&mut self, slot: usize) -> Result<Answer, Answer> {
        let p = self.p;
        let mut faults = Faults::default();
        self.check_state(&mut faults);
        if self.empty_zones() <= 1 {
            self.note.set("few zones");
            let segments = self.gather(None);
            if self.chosen(&segments).is_some_and(|c| c.waiting()) {
                return Err(self.refuse(5, "scarce"));
            }
            self.check_table(&segments, &mut faults);
        }
        faults.end()?;
        let mut flight = self.state.flights[slot].expect("the filling stripe");
        for i in flight.filled..p.data() {
            flight.addresses[i] = PADDING;
            flight.stamps[i] = 0;
            flight.kinds[i] = Kind::Padding;
            let at = self.flight_at(slot, p.data_drive(flight.stripe, i));
            self.inflight[at..at + p.b].fill(0);
        }
        flight.filled = p.data();
        self.state.flights[slot] = Some(flight);
        self.work_parity(slot, flight.stripe);
        Ok(Answer::Closed(flight.stripe))
    }

    // Reads.

    /// Checks of both reads behind those that all calls share, and what they pass on.
    fn look_up(&self, address: u64) -> Result<Found, Answer> {
        if address >= self.p.l {
            return Err(self.refuse(4, ""));
        }
        let place = self.entry(address);
        let missing = self.state.missing;
        let segments = self.gather(missing);
        let mut faults = Faults::default();
        self.check_state(&mut faults);
        if place != NEVER {
            self.check_place(&segments, place, &mut faults);
        }
        faults.end()?;
        if place == NEVER {
            self.note.set("never");
            return Ok(Found::default());
        }
        let spot = self.locate(&segments, place).expect("a place that passed its checks");
        let segment = &segments.remaining[spot.home];
        let lost = Some(spot.drive) == missing;
        let from = if lost {
            self.others(segment, spot)?
        } else {
            vec![(spot.drive, spot.zone, spot.block - 1)]
        };
        let sealed = self.is_sealed(segment, missing);
        self.note.set(match (lost, sealed) {
            (false, false) => "spare",
            (false, true) => "footer",
            (true, false) => "decoded spare",
            (true, true) => "decoded footer",
        });
        let stamp = from.iter().fold(0, |x, &(e, z, o)| x ^ self.record(e, z, o, sealed).stamp);
        Ok(Found { lost, from, stamp })
    }

    /// The chunks on present drives of the stripe that a place on the missing drive stands for, by the compact table.
    fn others(&self, segment: &Segment, spot: Spot) -> Result<Vec<(usize, usize, usize)>, Answer> {
        let chunk = |e: usize| {
            let zone = segment.zones[e];
            Some((e, zone, self.shown(e, zone, spot.block - 1)?))
        };
        let chunks: Option<Vec<_>> = (0..self.p.n).filter(|&e| e != spot.drive).map(chunk).collect();
        chunks.ok_or_else(|| {
            let mut faults = Faults::default();
            faults.add(spot.zone, "decode");
            faults.end().unwrap_err()
        })
    }

    /// First read call.
    pub fn read(&self, address: u64) -> Answer {
        match self.in_order(None).and_then(|_| self.look_up(address)) {
            Err(a) => a,
            Ok(Found { lost: true, stamp, .. }) => Answer::Lost(stamp),
            Ok(found) => match found.from.first() {
                None => Answer::Never,
                Some(&(d, z, o)) => Answer::Part(self.at(d, z, 1 + o), found.stamp),
            },
        }
    }

    /// Second read call.
    pub fn fill(&self, address: u64, out: &mut [u8]) -> Answer {
        match self.in_order(Some(out.len())).and_then(|_| self.look_up(address)) {
            Err(a) => a,
            Ok(found) => {
                out.fill(0);
                for &(e, z, o) in &found.from {
                    xor_into(out, self.block(e, z, 1 + o));
                }
                Answer::Filled(found.stamp)
            }
        }
    }

    // Reclaim.

    pub fn reclaim(&mut self, count: u64) -> Answer {
        match self.try_reclaim(count) {
            Ok(a) | Err(a) => a,
        }
    }

    fn try_reclaim(&mut self, count: u64) -> Result<Answer, Answer> {
        self.in_order(None)?;
        self.check_missing()?;
        let segments = self.gather(None);
        let chosen = self.chosen(&segments).ok_or_else(|| self.refuse(5, "none sealed"))?;
        let need = self.need();
        if !chosen.live.is_empty() {
            self.check_copy(&chosen, need)?;
        }
        let mut faults = Faults::default();
        self.check_state(&mut faults);
        self.check_table(&segments, &mut faults);
        for &zone in &chosen.odd {
            faults.add(zone, "notdata");
        }
        faults.end()?;
        match chosen.first {
            None => Ok(self.reset_segment(&chosen.segment, count)),
            Some((spot, record)) => {
                let block = self.block(spot.drive, spot.zone, spot.block).to_vec();
                let stamp = record.stamp;
                Ok(match self.put_block(need, &block, (record.address, stamp, Kind::Copy), count) {
                    None => Answer::Cut,
                    Some((stripe, drive)) => Answer::Copied { stamp, stripe, drive },
                })
            }
        }
    }

    /// Refusals 5, 6, 8 and 7 of a reclaim that finds live blocks.
    fn check_copy(&self, chosen: &Chosen, need: Need) -> Result<(), Answer> {
        if !chosen.waiting() {
            return Err(self.refuse(5, "all in flight"));
        }
        if let Some(why) = self.no_serial(need) {
            return Err(self.refuse(6, why));
        }
        let wait = self.too_many(need);
        if need == Need::Segment && self.empty_zones() <= 1 {
            return Err(self.refuse(8, if wait.is_some() { "before 7" } else { "" }));
        }
        wait.map_or(Ok(()), |why| Err(self.refuse(7, why)))
    }

    /// Resets the zones of a segment without live blocks.
    fn reset_segment(&mut self, segment: &Segment, count: u64) -> Answer {
        let mut stores = Stores::default();
        for (d, &zone) in segment.zones.iter().enumerate() {
            stores.reset(d, zone);
        }
        if !self.apply(&stores, count) {
            return Answer::Cut;
        }
        for (d, &zone) in segment.zones.iter().enumerate() {
            let at = self.compact_at(d, zone, 0);
            self.compact[at..at + self.p.s].fill(0);
        }
        Answer::Reset(segment.zones[0])
    }
}

/// By what completed records of one address are compared.
#[derive(Clone, Copy, PartialEq, Eq, Debug)]
pub struct Key {
    pub stamp: u64,
    pub serial: u64,
    pub drive: usize,
    pub offset: usize,
}

impl Key {
    /// Greater stamp, greater serial, lower drive, lower offset; on a tie the other stays.
    pub fn beats(&self, other: &Key) -> bool {
        (self.stamp, self.serial, other.drive, other.offset) > (other.stamp, other.serial, self.drive, self.offset)
    }
}
