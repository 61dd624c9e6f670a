//! Hostile scripts: changes of the lent buffers between calls, each with calls that meet it.

use crate::array::{header, Answer, Array, Record};
use crate::calls::Need;
use crate::choose::Chooser;
use crate::generate::Generator;
use crate::params::{PADDING, SPARE};
use crate::script::Command::*;
use crate::script::{ADDRESSES, COMPACT, IMAGE, INFLIGHT, OFFLINE, POINTERS};
use crate::segments::Segment;

/// More pokes than this in one change are too many.
const POKES: usize = 900;

impl Generator<'_> {
    /// Changes buffers by pokes; remembers how to take it back. False if it would take too many.
    pub fn forge(&mut self, change: impl FnOnce(&mut Array)) -> bool {
        let mut to = self.array.clone();
        change(&mut to);
        let mut pokes = vec![];
        let mut undo = vec![];
        for (buf, (old, new)) in self.array.buffers().iter().zip(to.buffers()).enumerate() {
            for at in (0..old.len()).filter(|&at| old[at] != new[at]) {
                pokes.push(Poke(buf, at as u64, new[at]));
                undo.push(Poke(buf, at as u64, old[at]));
                if pokes.len() > POKES {
                    return false;
                }
            }
        }
        for command in pokes {
            self.emit(command);
        }
        self.undo = undo;
        true
    }

    /// One change and a few calls on it; often taken back.
    pub fn change(&mut self) {
        if self.array.p.n == 0 {
            return;
        }
        let done = match self.rng().below(97) {
            0 => self.change_pointer(),
            1 => self.change_pointers_of_segment(),
            2 | 3 => self.change_header(),
            4 | 5 => self.change_serial(),
            6..=8 => self.change_record(),
            9 => self.change_footer(),
            10 | 11 => self.change_entry(),
            12 => self.change_compact(),
            13 => self.change_flight(),
            14 => self.change_any_byte(),
            15 => self.junk(),
            16 => self.last_stamp(),
            17..=23 => self.last_serial(),
            24..=28 => self.scarce_zones(),
            29 => self.new_segment(),
            30 => self.no_zone_left(),
            31..=38 => self.rebuild_on_change(),
            39 => self.landing_pointer(),
            40..=43 => self.closing_outside(),
            44 | 45 => self.change_serials(),
            46 | 47 => self.twin(),
            48..=51 => self.odd_footers(),
            52 | 53 => self.stamp_read(),
            54 | 55 => self.decode_hidden(),
            56..=59 => self.name_zone(),
            60..=64 => self.second_zone(),
            65..=67 => self.absent_serial(),
            68..=72 => self.copy_of_another(),
            73 => self.lose_open(),
            74..=80 => self.place_elsewhere(),
            81..=83 => self.forge_footers(),
            84..=87 => self.crowd(),
            88..=90 => self.odd_live(),
            91 | 92 => self.change_list(),
            _ => self.rebuild_on_change(),
        };
        if !done {
            return;
        }
        self.some_calls(5);
        if self.rng().chance(75) {
            self.take_back();
        }
        // A count that has ended is rarely left so for long.
        if self.ended() && self.rng().chance(80) {
            self.take_back();
            self.emit(Restart(255, u64::MAX));
            if self.ended() {
                self.begin();
            }
        }
    }

    fn ended(&self) -> bool {
        self.array.state.next_stamp.is_none() || self.array.state.next_serial.is_none()
    }

    fn healthy(&self) -> bool {
        !self.array.state.out_of_range() && self.array.state.missing.is_none()
    }

    // Segments and zones to change.

    /// The segments that the calls of this moment find.
    fn segments(&self) -> Vec<Segment> {
        self.array.gather(self.array.state.missing).remaining
    }

    /// The zones of a segment, by drive; any zones where there is none.
    fn some_segment(&mut self) -> Vec<usize> {
        let p = self.array.p;
        let segments = self.segments();
        if segments.is_empty() {
            return (0..p.n).map(|_| self.rng().index(p.z)).collect();
        }
        // A number that stands for the missing drive may be any.
        self.rng().pick(&segments).zones.iter().map(|z| z % p.z).collect()
    }

    /// The zones of two segments, different ones where there are two.
    fn two_segments(&mut self) -> (Vec<usize>, Vec<usize>) {
        let p = self.array.p;
        let segments = self.segments();
        if segments.len() < 2 {
            return (self.some_segment(), self.some_segment());
        }
        let i = self.rng().index(segments.len());
        let j = (i + 1 + self.rng().index(segments.len() - 1)) % segments.len();
        let zones = |k: usize| segments[k].zones.iter().map(|z| z % p.z).collect();
        (zones(i), zones(j))
    }

    /// The zones of the open segment.
    fn open_segment(&self) -> Option<Vec<usize>> {
        let serial = self.array.state.open?;
        let segments = self.segments();
        segments.into_iter().find(|s| s.serial == serial).map(|s| s.zones)
    }

    /// A zone of this drive that holds something, if any does.
    fn used_zone(&mut self, d: usize) -> usize {
        let p = self.array.p;
        let used: Vec<usize> = (0..p.z).filter(|&z| self.array.is_used(d, z)).collect();
        if used.is_empty() {
            self.rng().index(p.z)
        } else {
            *self.rng().pick(&used)
        }
    }

    /// A zone of this drive with this mark in the list.
    fn zone_where(&mut self, good: bool, d: usize) -> Option<usize> {
        let p = self.array.p;
        let zones: Vec<usize> = (0..p.z).filter(|&z| self.array.good(d, z) == good).collect();
        (!zones.is_empty()).then(|| *self.rng().pick(&zones))
    }

    /// An empty good zone of this drive.
    fn empty_zone(&mut self, d: usize) -> Option<usize> {
        let p = self.array.p;
        let zones: Vec<usize> = (0..p.z).filter(|&z| self.array.is_empty(d, z)).collect();
        (!zones.is_empty()).then(|| *self.rng().pick(&zones))
    }

    /// An offline zone with its drive.
    fn dead_zone(&mut self) -> Option<(usize, usize)> {
        let p = self.array.p;
        let dead: Vec<usize> = (0..p.n * p.z).filter(|&i| self.array.offline[i] != 0).collect();
        (!dead.is_empty()).then(|| *self.rng().pick(&dead)).map(|i| (i / p.z, i % p.z))
    }

    fn some_drive(&mut self) -> usize {
        let n = self.array.p.n;
        self.rng().index(n)
    }

    // Pointers.

    fn some_pointer(&mut self, now: usize) -> usize {
        let p = self.array.p;
        match self.rng().below(9) {
            0 => 0,
            1 => 1,
            2 => p.cap,
            3 => p.cap + 1,
            4 => u32::MAX as usize,
            5 => now.saturating_sub(1),
            6 => now + 1,
            7 => 1 + p.s,
            _ => self.rng().index(p.cap + 1),
        }
    }

    fn change_pointer(&mut self) -> bool {
        let d = self.some_drive();
        let z = if self.rng().chance(70) {
            self.used_zone(d)
        } else {
            let zones = self.array.p.z;
            self.rng().index(zones)
        };
        let to = self.some_pointer(self.array.pointer(d, z));
        self.forge(|a| a.set_pointer(d, z, to))
    }

    fn change_pointers_of_segment(&mut self) -> bool {
        let zones = self.some_segment();
        let to = self.some_pointer(self.array.pointer(0, zones[0]));
        self.forge(|a| zones.iter().enumerate().for_each(|(d, &z)| a.set_pointer(d, z, to)))
    }

    // Headers.

    fn change_header(&mut self) -> bool {
        let p = self.array.p;
        let zones = self.some_segment();
        let only = self.some_drive();
        let i = if self.rng().chance(60) {
            self.rng().index(p.header_len())
        } else {
            self.rng().index(p.stride())
        };
        let bits = 1 + self.rng().below(255) as u8;
        let all = self.rng().chance(30);
        self.forge(|a| {
            for d in (0..p.n).filter(|&d| all || d == only) {
                let at = a.at(d, zones[d], 0) + i;
                a.image[at] ^= bits;
            }
        })
    }

    /// Serial or copied serial of a segment, on one drive or on all.
    fn change_serial(&mut self) -> bool {
        let zones = self.some_segment();
        let others = self.some_segment();
        let other = self.array.serial(0, others[0]);
        let own = self.array.serial(0, zones[0]);
        let value = match self.rng().below(9) {
            0 => 0,
            1 | 2 => other,
            3 => own,
            4 => own.wrapping_sub(1),
            5 => own.wrapping_add(1),
            6 => u64::MAX,
            7 => u64::MAX - 1 - self.rng().below(3),
            _ => self.rng().next(),
        };
        let copied = self.rng().chance(40);
        let only = if self.rng().chance(25) { Some(self.some_drive()) } else { None };
        self.forge(|a| set_serial(a, &zones, copied, value, only))
    }

    /// Serials and copied serials of several segments from a few values; then a restart.
    fn change_serials(&mut self) -> bool {
        let mut values = vec![0, 1, u64::MAX];
        for segment in self.segments() {
            let serial = segment.serial;
            values.extend([serial, serial, serial.wrapping_add(1), serial.wrapping_sub(1)]);
        }
        let mut list = vec![];
        for _ in 0..1 + self.rng().below(4) {
            let zones = self.some_segment();
            let copied = self.rng().chance(60);
            let value = *self.rng().pick(&values);
            let only = if self.rng().chance(35) { Some(self.some_drive()) } else { None };
            list.push((zones, copied, value, only));
        }
        let done = self.forge(|a| {
            for (zones, copied, value, only) in &list {
                set_serial(a, zones, *copied, *value, *only);
            }
        });
        if done {
            let command = self.any_restart();
            self.emit(command);
        }
        done
    }

    /// The number that a segment's headers name for one drive: an offline zone, one not below Z, another than its own, or another segment's.
    /// All but the third can be the only fault where that drive is missing.
    fn name_zone(&mut self) -> bool {
        let p = self.array.p;
        let (zones, others) = self.two_segments();
        let missing = self.array.state.missing;
        let mut e = match missing {
            Some(m) if self.rng().chance(70) => m,
            _ => self.some_drive(),
        };
        let mut lost = e;
        let number = match self.rng().below(10) {
            0 | 1 => match self.zone_where(false, e) {
                Some(z) => z,
                None => return self.name_offline(e, zones),
            },
            2 => p.z,
            3 => *self.rng().pick(&[p.z + 1, 255, 256, 1 << 16, u32::MAX as usize]),
            4 => self.rng().index(p.z),
            5 | 6 => others[e],
            _ => {
                lost = missing.unwrap_or(lost);
                e = (lost + 1 + self.rng().index(p.n - 1)) % p.n;
                match self.empty_zone(e) {
                    Some(z) => z,
                    None => return false,
                }
            }
        };
        let only = if self.rng().chance(20) { Some(self.some_drive()) } else { None };
        let done = self.forge(|a| set_named(a, &zones, e, number, only));
        if done {
            self.look_at(lost);
        }
        done
    }

    /// The zone that a segment has on a drive becomes offline.
    fn name_offline(&mut self, e: usize, zones: Vec<usize>) -> bool {
        let z = self.array.p.z;
        let byte = 1 + self.rng().below(255) as u8;
        let done = self.forge(|a| a.offline[e * z + zones[e]] = byte);
        if done {
            self.look_at(e);
        }
        done
    }

    /// Calls that look at segments, mostly with this drive missing.
    fn look_at(&mut self, e: usize) {
        let l = self.array.p.l;
        for _ in 0..1 + self.rng().below(3) {
            let command = match self.rng().below(12) {
                0..=3 => Restart(e as u64, 0),
                4 => self.any_restart(),
                5..=8 => Rebuild(self.array.state.missing.unwrap_or(e) as u64, self.any_count()),
                9 => Reclaim(u64::MAX),
                _ => {
                    let a = self.rng().below(l);
                    self.both_reads(a);
                    continue;
                }
            };
            self.emit(command);
        }
    }

    /// A second zone of a drive that bears a segment's serial, below or above its own; often an entry points into it.
    fn second_zone(&mut self) -> bool {
        let p = self.array.p;
        let scarce = self.rng().chance(40);
        if scarce {
            self.fill_one();
        }
        let victim = match self.rng().below(3) {
            0 if self.healthy() => self.array.chosen(&self.array.gather(None)).map(|c| c.segment.zones),
            1 => self.open_segment(),
            _ => None,
        };
        let reclaimed = victim.is_some() && self.rng().chance(70);
        let zones = victim.unwrap_or_else(|| self.some_segment());
        let d = self.some_drive();
        let Some(to) = self.empty_zone(d) else { return false };
        let pointer = *self.rng().pick(&[1, 1, 2, 1 + p.s, p.cap]);
        let named = self.rng().chance(50);
        let never = (scarce || reclaimed) && self.rng().chance(70);
        let a0 = self.flying_address();
        let inside = self.rng().chance(40);
        let block = 1 + self.rng().index(p.s);
        let done = self.forge(|a| {
            copy_header(a, d, zones[d], to);
            if named {
                let at = a.at(d, to, 0) + p.zone_field(d);
                a.image[at..at + 4].copy_from_slice(&(to as u32).to_be_bytes());
            }
            a.set_pointer(d, to, pointer);
            if scarce {
                take_zones(a, 1, false);
            }
            if never {
                a.addresses.fill(0xff);
            }
            if inside {
                a.set_entry(a0, p.place(d, to, block));
            }
        });
        if !done {
            return false;
        }
        if inside {
            self.both_reads(a0);
        }
        if reclaimed {
            self.emit(Reclaim(u64::MAX));
        }
        if scarce {
            self.one_of_each(2);
        }
        self.land_some(40);
        let e = self.some_drive();
        self.look_at(e);
        true
    }

    /// A serial that some drive does not bear, in one or more zones of others; then mostly a restart.
    fn absent_serial(&mut self) -> bool {
        let p = self.array.p;
        let scarce = self.rng().chance(40);
        if scarce {
            self.fill_one();
        }
        let zones = self.some_segment();
        let absent = self.some_drive();
        let d = (absent + 1 + self.rng().index(p.n - 1)) % p.n;
        let second = if self.rng().chance(70) { self.empty_zone(d) } else { None };
        let third = if self.rng().chance(30) { self.empty_zone(d) } else { None };
        let how = self.rng().below(4);
        let value = self.rng().next();
        let made = self.array.pointer(absent, zones[absent]);
        let never = scarce && self.rng().chance(70);
        let done = self.forge(|a| {
            match how {
                0 | 1 => a.set_pointer(absent, zones[absent], 0),
                2 => set_serial(a, &zones, false, value, Some(absent)),
                _ => a.offline[absent * p.z + zones[absent]] = 1,
            }
            for to in [second, third].into_iter().flatten() {
                copy_header(a, d, zones[d], to);
                a.set_pointer(d, to, made.max(1));
            }
            if scarce {
                take_zones(a, 1, false);
            }
            if never {
                a.addresses.fill(0xff);
            }
        });
        if !done {
            return false;
        }
        if scarce {
            self.one_of_each(2);
            self.one_of_each(3);
        }
        self.land_some(30);
        for _ in 0..1 + self.rng().below(3) {
            let count = self.any_count();
            let command = match self.rng().below(10) {
                0..=4 => Restart(255, count),
                5 => Restart(absent as u64, count),
                6 => self.closing(count),
                7 => Reclaim(count),
                _ => {
                    let a = self.rng().below(p.l);
                    self.both_reads(a);
                    continue;
                }
            };
            self.emit(command);
        }
        true
    }

    /// A segment whose header names another's serial as copied: rule 2, in every call that gathers.
    fn copy_of_another(&mut self) -> bool {
        let p = self.array.p;
        if self.rng().chance(30) {
            self.lose();
        }
        let scarce = self.rng().chance(60);
        if scarce {
            self.fill_one();
        }
        let (mut zones, others) = self.two_segments();
        match self.open_segment() {
            Some(open) if self.rng().chance(30) => zones = open,
            _ => {}
        }
        // A forged one holds nothing live, so that calls may go on without it.
        let forged = if self.rng().chance(60) { self.array.fresh_zones() } else { None };
        let lowest = (self.array.state.missing == Some(0)) as usize;
        let value = self.array.serial(lowest, others[lowest]);
        let serial = self.some_serial();
        let only = if self.rng().chance(40) { Some(lowest) } else { None };
        let keep = self.rng().index(2);
        let never = scarce && self.rng().chance(50);
        let done = self.forge(|a| {
            match &forged {
                Some(to) => forge_segment(a, to, serial, value, Some(&vec![0; p.n])),
                None => set_serial(a, &zones, true, value, only),
            }
            if scarce {
                take_zones(a, keep, false);
            }
            if never {
                a.addresses.fill(0xff);
            }
        });
        if !done {
            return false;
        }
        if scarce {
            self.one_of_each(2);
        }
        self.land_some(40);
        for _ in 0..2 + self.rng().below(4) {
            let i = *self.rng().pick(&[2, 3, 3, 3, 4, 5, 6]);
            self.one_of_each(i);
        }
        if self.rng().chance(40) {
            let command = self.any_restart();
            self.emit(command);
        }
        true
    }

    /// Sends a block where no stripe is filling, so that a closing has one.
    fn fill_one(&mut self) {
        if self.healthy() && !matches!(self.array.need(), Need::Filling(_)) {
            let l = self.array.p.l;
            let a = self.rng().below(l);
            let seed = self.chooser.seed();
            self.emit(Write(a, seed, u64::MAX));
        }
    }

    /// Lands what waits, in so many of 100 cases.
    fn land_some(&mut self, percent: u64) {
        if self.rng().chance(percent) {
            for (d, s) in Chooser::waiting(&self.array) {
                self.emit(Land(d as u64, s as u64, u64::MAX));
            }
        }
    }

    /// The open segment no longer remains, while chunks of it wait.
    fn lose_open(&mut self) -> bool {
        if !self.healthy() {
            return false;
        }
        let p = self.array.p;
        if Chooser::waiting(&self.array).is_empty() {
            let a = self.rng().below(p.l);
            let seed = self.chooser.seed();
            self.emit(Write(a, seed, u64::MAX));
        }
        let waiting = Chooser::waiting(&self.array);
        let Some(zones) = self.open_segment() else { return false };
        if waiting.is_empty() {
            return false;
        }
        let d = self.some_drive();
        let value = match self.rng().below(3) {
            0 => 0,
            1 => self.array.serial(d, zones[d]).wrapping_add(1),
            _ => self.rng().next(),
        };
        let others = self.some_segment();
        let copied = self.array.serial(0, others[0]);
        let how = self.rng().below(5);
        let done = self.forge(|a| match how {
            0 => a.set_pointer(d, zones[d], 0),
            1 => set_serial(a, &zones, false, value, Some(d)),
            2 => set_serial(a, &zones, false, value, None),
            3 => a.offline[d * p.z + zones[d]] = 7,
            _ => set_serial(a, &zones, true, copied, None),
        });
        for (d, s) in waiting {
            if self.rng().chance(60) {
                self.emit(Land(d as u64, s as u64, u64::MAX));
            }
        }
        done
    }

    /// An entry of the address table with a place in an offline zone, in an empty one, or on the missing drive where none or two name the zone.
    fn place_elsewhere(&mut self) -> bool {
        let p = self.array.p;
        if self.rng().chance(40) {
            self.lose();
        }
        let missing = self.array.state.missing;
        let d = match missing {
            Some(m) if self.rng().chance(80) => m,
            _ => self.some_drive(),
        };
        let spot = match self.rng().below(8) {
            0..=3 => self.dead_zone(),
            4 => self.empty_zone(d).map(|z| (d, z)),
            5 => self.zone_where(true, d).map(|z| (d, z)),
            _ => Some((d, self.some_segment()[d])),
        };
        let Some((d, zone)) = spot else { return false };
        let block = if self.rng().chance(70) {
            1 + self.rng().index(p.s)
        } else {
            self.rng().index(p.cap)
        };
        let a0 = self.flying_address();
        let (zones, others) = self.two_segments();
        // On the missing drive two segments may name one zone.
        let clash = missing == Some(d) && self.array.good(d, zone) && self.rng().chance(80);
        let scarce = self.rng().chance(40);
        let done = self.forge(|a| {
            a.set_entry(a0, p.place(d, zone, block));
            if clash {
                set_named(a, &zones, d, zone, None);
                set_named(a, &others, d, zone, None);
            }
            if scarce && missing.is_none() {
                take_zones(a, 1, false);
            }
        });
        if !done {
            return false;
        }
        self.both_reads(a0);
        if self.rng().chance(60) {
            self.one_of_each(3);
            self.one_of_each(2);
        }
        self.land_some(60);
        true
    }

    /// An address, in half of the cases one in flight, so that a completing landing looks at its entry.
    fn flying_address(&mut self) -> u64 {
        let l = self.array.p.l;
        let flights = self.array.state.flights.iter().flatten();
        let flying: Vec<u64> = flights.flat_map(|f| f.addresses[..f.filled].to_vec()).filter(|&a| a < l).collect();
        if !flying.is_empty() && self.rng().chance(60) {
            *self.rng().pick(&flying)
        } else {
            self.rng().below(l)
        }
    }

    /// Other zones are offline from now on, in use or not.
    fn change_list(&mut self) -> bool {
        let p = self.array.p;
        let mut bytes = vec![];
        for _ in 0..1 + self.rng().below(3) {
            let d = self.some_drive();
            let z = match self.rng().below(3) {
                0 => self.used_zone(d),
                1 => self.zone_where(false, d).unwrap_or(0),
                _ => self.rng().index(p.z),
            };
            let byte = if self.rng().chance(40) { 0 } else { self.rng().next() as u8 };
            bytes.push((d * p.z + z, byte));
        }
        let done = self.forge(|a| bytes.iter().for_each(|&(at, to)| a.offline[at] = to));
        if done && self.rng().chance(60) {
            let e = self.some_drive();
            self.look_at(e);
        }
        done
    }

    // Records and footers.

    /// Live blocks of the segment that reclaim takes get the address and stamp of something in flight.
    fn twin(&mut self) -> bool {
        let p = self.array.p;
        if !self.healthy() {
            return false;
        }
        if self.array.state.in_flight() == 0 || self.rng().chance(30) {
            let a = self.rng().below(p.l);
            let seed = self.chooser.seed();
            self.emit(Write(a, seed, u64::MAX));
            if self.rng().chance(50) {
                self.emit(Close(u64::MAX));
            }
        }
        let Some(chosen) = self.array.chosen(&self.array.gather(None)) else {
            return false;
        };
        let flights = self.array.state.flights.iter().flatten();
        let flying: Vec<(u64, u64)> = flights.flat_map(|f| (0..f.filled).map(|i| (f.addresses[i], f.stamps[i]))).collect();
        if flying.is_empty() || chosen.live.is_empty() {
            return false;
        }
        let some = self.rng().chance(50);
        let mut records = vec![];
        for &place in &chosen.live {
            if !some || self.rng().chance(50) {
                records.push((place, *self.rng().pick(&flying)));
            }
        }
        let which = 1 + self.rng().below(2);
        let done = self.forge(|a| {
            for &(place, (address, stamp)) in &records {
                let (d, z, block) = p.split(place).unwrap();
                if p.is_data(block) {
                    let r = Record {
                        address,
                        stamp,
                        ..a.record(d, z, block - 1, true)
                    };
                    set_record(a, d, z, block - 1, &r, which);
                }
            }
        });
        for _ in 0..1 + self.rng().below(3) {
            let command = if self.rng().chance(70) {
                Reclaim(u64::MAX)
            } else {
                self.closing(u64::MAX)
            };
            self.emit(command);
        }
        done
    }

    /// The last landing of a segment with other pointers than behind the data.
    fn odd_footers(&mut self) -> bool {
        let p = self.array.p;
        if self.healthy() && self.rng().chance(60) {
            self.fill_segment();
        }
        if !self.healthy() || self.array.state.next_stripe != p.s {
            return false;
        }
        self.emit(Close(u64::MAX));
        let waiting = Chooser::waiting(&self.array);
        let Some((&(d, s), first)) = waiting.split_last() else {
            return false;
        };
        for &(d, s) in first {
            self.emit(Land(d as u64, s as u64, u64::MAX));
        }
        let Some(zones) = self.open_segment() else { return false };
        let mut pointers = vec![];
        for _ in 0..1 + self.rng().below(2) {
            let e = self.some_drive();
            let to = if self.rng().chance(80) {
                self.rng().index(2 + p.s)
            } else {
                self.some_pointer(1 + p.s)
            };
            pointers.push((e, to));
        }
        let done = self.forge(|a| {
            for &(e, to) in pointers.iter().filter(|&&(e, _)| e != d) {
                a.set_pointer(e, zones[e], to);
            }
        });
        let count = if self.rng().chance(50) {
            u64::MAX
        } else {
            self.rng().below((1 + p.n * p.f) as u64)
        };
        self.emit(Land(d as u64, s as u64, count));
        done
    }

    /// Whether the segment with these zones is read by footer.
    fn by_footer(&self, zones: &[usize]) -> bool {
        let missing = self.array.state.missing;
        let full = |d: usize| Some(d) == missing || self.array.pointer(d, zones[d]) == self.array.p.cap;
        (0..self.array.p.n).all(full)
    }

    /// A data record is changed, and mostly a restart follows.
    fn change_record(&mut self) -> bool {
        let done = self.change_record_only();
        if done && self.rng().chance(60) {
            let command = self.any_restart();
            self.emit(command);
        }
        done
    }

    /// A data record, in its spare, in the footer, or in both.
    fn change_record_only(&mut self) -> bool {
        let p = self.array.p;
        let zones = self.some_segment();
        let d = match self.some_drive() {
            d if Some(d) == self.array.state.missing => (d + 1) % p.n,
            d => d,
        };
        let stored = self.array.pointer(d, zones[d]).saturating_sub(1).clamp(1, p.s);
        let o = if self.rng().chance(80) {
            self.rng().index(stored)
        } else {
            self.rng().index(p.s)
        };
        let mut r = self.array.record(d, zones[d], o, self.by_footer(&zones));
        let group = p.group_offsets(o);
        let near = group.start + (o - group.start + 1 + self.rng().index(group.len().max(2) - 1)) % group.len();
        match self.rng().below(12) {
            0 => r.stripe = self.rng().index(p.s) as u32,
            1 => r.stripe = p.s as u32,
            2 => r.stripe = self.rng().next() as u32,
            3 => r.stripe ^= 1,
            4 | 5 => r.stripe = self.array.record(d, zones[d], near, self.by_footer(&zones)).stripe,
            6 => r.address = p.l,
            7 => r.address = self.rng().below(p.l),
            8 => r.address = PADDING,
            9 => r.stamp = 0,
            10 => r.stamp = self.rng().below(100),
            _ => r.address = self.rng().next(),
        }
        let which = *self.rng().pick(&[0, 1, 2, 2]);
        self.forge(|a| set_record(a, d, zones[d], o, &r, which))
    }

    /// Footers on some drives of a segment that has no footers on others, one of them perhaps changed; then restart or rebuild.
    fn forge_footers(&mut self) -> bool {
        let p = self.array.p;
        let open = self.segments().into_iter().find(|s| !self.by_footer(&s.zones));
        let forged = open.is_none();
        let zones = match open {
            Some(open) => open.zones.iter().map(|z| z % p.z).collect(),
            None => match self.empty_zones() {
                Some(zones) => zones,
                None => return false,
            },
        };
        let serial = self.some_serial();
        let d = self.some_drive();
        let stored = 1 + self.rng().index(p.f);
        let at = self.rng().index(p.b);
        let bad = self.rng().chance(70);
        let done = self.forge(|a| {
            if forged {
                forge_segment(a, &zones, serial, 0, Some(&vec![p.s; p.n]));
            }
            if a.pointer(d, zones[d]) == 1 + p.s {
                put_footers(a, d, zones[d], stored);
                let at = a.at(d, zones[d], 1 + p.s) + at;
                a.image[at] ^= bad as u8;
            }
        });
        if done {
            for _ in 0..2 {
                let e = self.array.state.missing.unwrap_or(0) as u64;
                let command = match self.rng().below(3) {
                    0 => Restart((d as u64 + 1) % p.n as u64, 0),
                    1 => self.any_restart(),
                    _ => Rebuild(e, u64::MAX),
                };
                self.emit(command);
            }
        }
        done
    }

    fn change_footer(&mut self) -> bool {
        let p = self.array.p;
        let zones = self.some_segment();
        let d = self.some_drive();
        let z = zones[d];
        let i = self.rng().index(p.f);
        let at = self.array.at(d, z, 1 + p.s + i) + self.rng().index(p.stride());
        let bits = 1 + self.rng().below(255) as u8;
        // The zone of an open segment may be made to hold footers.
        let raise = self.rng().chance(40) && !self.by_footer(&zones);
        let good = self.rng().chance(40);
        self.forge(|a| {
            if raise && a.pointer(d, z) == 1 + p.s {
                put_footers(a, d, z, p.f - (bits as usize) % p.f);
            }
            if !(raise && good) {
                a.image[at] ^= bits;
            }
        })
    }

    // Tables and other bytes.

    fn some_place(&mut self) -> u32 {
        let p = self.array.p;
        let places = p.places() as u64;
        let d = self.some_drive();
        let zone = self.some_segment()[d];
        match self.rng().below(9) {
            0 => places as u32,
            1 => u32::MAX - 1,
            2 => u32::MAX,
            3 => (places + self.rng().below(1 << 20)) as u32,
            4 => p.place(d, zone, 0),
            5 => p.place(d, zone, 1 + p.s + self.rng().index(p.f)),
            6 => p.place(d, zone, 1 + self.rng().index(p.s)),
            7 => {
                let a = self.rng().below(p.l);
                self.array.entry(a)
            }
            _ => self.rng().below(places) as u32,
        }
    }

    /// Entries of the address table, and reads of them.
    fn change_entry(&mut self) -> bool {
        let mut entries = vec![];
        for _ in 0..1 + self.rng().below(3) {
            let a = self.flying_address();
            let place = self.some_place();
            entries.push((a, place));
        }
        let done = self.forge(|a| entries.iter().for_each(|&(address, place)| a.set_entry(address, place)));
        for &(a, _) in &entries {
            if self.rng().chance(50) {
                self.emit(Read(a));
            }
            if self.rng().chance(50) {
                let seed = self.chooser.seed();
                self.emit(Fill(a, seed));
            }
        }
        if self.rng().chance(40) {
            self.emit(Reclaim(u64::MAX));
        }
        self.land_some(40);
        done
    }

    /// A header or footer block of the segment that reclaim takes is live, or a block of an offline zone.
    fn odd_live(&mut self) -> bool {
        let p = self.array.p;
        if !self.healthy() {
            return false;
        }
        let Some(chosen) = self.array.chosen(&self.array.gather(None)) else {
            return false;
        };
        let a0 = self.rng().below(p.l);
        let d = self.some_drive();
        let block = if self.rng().chance(50) {
            0
        } else {
            1 + p.s + self.rng().index(p.f)
        };
        let only = self.rng().chance(50);
        let place = match self.dead_zone() {
            Some((e, z)) if self.rng().chance(40) => p.place(e, z, self.rng().index(p.cap)),
            _ => p.place(d, chosen.segment.zones[d], block),
        };
        let done = self.forge(|a| {
            if only {
                a.addresses.fill(0xff);
            }
            a.set_entry(a0, place);
        });
        if done {
            self.emit(Reclaim(u64::MAX));
        }
        done
    }

    fn change_compact(&mut self) -> bool {
        let len = self.array.compact.len();
        let mut bytes = vec![];
        for _ in 0..1 + self.rng().below(5) {
            bytes.push((self.rng().index(len), self.rng().below(4) as u8));
        }
        self.forge(|a| bytes.iter().for_each(|&(at, to)| a.compact[at] = to))
    }

    fn change_flight(&mut self) -> bool {
        let len = self.array.inflight.len();
        let at = self.rng().index(len);
        let to = self.rng().next() as u8;
        self.forge(|a| a.inflight[at] = to)
    }

    fn change_any_byte(&mut self) -> bool {
        let mut bytes = vec![];
        for _ in 0..1 + self.rng().below(4) {
            let buf = *self.rng().pick(&[IMAGE, POINTERS, ADDRESSES, COMPACT, INFLIGHT, OFFLINE]);
            let len = self.array.buffers()[buf].len();
            bytes.push((buf, self.rng().index(len), self.rng().next() as u8));
        }
        self.forge(|a| bytes.iter().for_each(|&(buf, at, to)| a.buffer_mut(buf)[at] = to))
    }

    fn junk(&mut self) -> bool {
        self.undo.clear();
        let buf = match self.rng().below(24) {
            0 => IMAGE,
            1 => POINTERS,
            2..=7 => ADDRESSES,
            8..=13 => COMPACT,
            _ => INFLIGHT,
        };
        let seed = self.chooser.seed();
        if self.rng().chance(10) {
            let d = self.some_drive() as u64;
            self.emit(DriveJunk(d, seed));
        } else {
            self.emit(Junk(buf, seed));
        }
        true
    }

    // The ends of the counts (refusal 6).

    /// A counted record with one of the last stamps, its parity with it; then a restart.
    fn last_stamp(&mut self) -> bool {
        let p = self.array.p;
        if !self.healthy() {
            return false;
        }
        let Ok(survey) = self.array.survey(None) else { return false };
        let segments = &survey.segments.remaining;
        let counted: Vec<(usize, usize)> = (0..segments.len())
            .flat_map(|i| survey.counted(&p, i).into_iter().map(move |s| (i, s)))
            .collect();
        if counted.is_empty() {
            return false;
        }
        let (i, s) = *self.rng().pick(&counted);
        let d = p.data_drive(s, self.rng().index(p.n - 1));
        let stamp = u64::MAX - if self.rng().chance(50) { 0 } else { self.rng().below(4) };
        let with_parity = self.rng().chance(70);
        let sealed = survey.sealed[i];
        let zones = segments[i].zones.clone();
        let find = |a: &Array, e: usize| (0..p.s).find(|&o| a.record(e, zones[e], o, sealed).stripe as usize == s);
        let done = self.forge(|a| {
            let e = p.parity_drive(s);
            let (Some(at), Some(parity)) = (find(a, d), find(a, e)) else {
                return;
            };
            let mut r = a.record(d, zones[d], at, sealed);
            let mut q = a.record(e, zones[e], parity, sealed);
            q.stamp ^= r.stamp ^ stamp;
            r.stamp = stamp;
            set_record(a, d, zones[d], at, &r, 2);
            if with_parity {
                set_record(a, e, zones[e], parity, &q, 2);
            }
        });
        if done {
            self.restart_and_send();
        }
        done
    }

    /// A segment with one of the last serials; then a restart.
    fn last_serial(&mut self) -> bool {
        if !self.healthy() {
            return false;
        }
        // A copy can meet the end only where something is sealed.
        if self.array.chosen(&self.array.gather(None)).is_none() && self.rng().chance(70) {
            return false;
        }
        let zones = match self.open_segment() {
            Some(zones) if self.rng().chance(75) => zones,
            _ => self.some_segment(),
        };
        let serial = u64::MAX - if self.rng().chance(60) { 0 } else { self.rng().below(3) };
        let done = self.forge(|a| set_serial(a, &zones, false, serial, None));
        if done {
            self.restart_and_send();
        }
        done
    }

    /// Restarts and goes on until a count may end.
    fn restart_and_send(&mut self) {
        self.emit(Restart(255, u64::MAX));
        let p = self.array.p;
        for _ in 0..self.rng().below(2 * p.s as u64 * p.n as u64) {
            let a = self.rng().below(p.l);
            let seed = self.chooser.seed();
            let command = match self.rng().below(10) {
                0..=3 => Write(a, seed, u64::MAX),
                4 => Reclaim(u64::MAX),
                5 => self.closing(u64::MAX),
                _ => match Chooser::waiting(&self.array).first() {
                    Some(&(d, s)) => Land(d as u64, s as u64, u64::MAX),
                    None => Reclaim(u64::MAX),
                },
            };
            self.emit(command);
        }
        if self.rng().chance(70) {
            self.fill_segment();
            self.emit(Reclaim(u64::MAX));
        }
    }

    /// Writes without landing until one is refused, then a copy.
    fn crowd(&mut self) -> bool {
        let l = self.array.p.l;
        if !self.healthy() || self.array.chosen(&self.array.gather(None)).is_none() {
            return false;
        }
        for _ in 0..80 {
            let a = self.rng().below(l);
            let seed = self.chooser.seed();
            if let Some(Answer::Refused(_) | Answer::Bad(..)) = self.emit(Write(a, seed, u64::MAX)) {
                break;
            }
        }
        self.emit(Reclaim(u64::MAX));
        false
    }

    // Scarce zones (refusals 5 and 8).

    /// Writes until the open segment is full and its last stripes are in flight, as far as zones and calls last.
    fn fill_segment(&mut self) {
        let l = self.array.p.l;
        for _ in 0..200 {
            let need = self.array.need();
            let waiting = Chooser::waiting(&self.array);
            let command = match waiting.first() {
                Some(_) if need == Need::Segment => return,
                Some(&(d, s)) if self.array.too_many(need).is_some() => Land(d as u64, s as u64, u64::MAX),
                _ => Write(self.rng().below(l), self.chooser.seed(), u64::MAX),
            };
            if let Some(Answer::Refused(_) | Answer::Bad(..)) = self.emit(command) {
                return;
            }
        }
    }

    fn scarce_zones(&mut self) -> bool {
        let keep = self.rng().index(3);
        if self.healthy() {
            match self.rng().below(10) {
                // 7 and 8 together.
                0..=4 => self.fill_segment(),
                // Land what waits first, so that a segment may have to be opened.
                5..=8 => {
                    if self.rng().chance(50) {
                        self.emit(Close(u64::MAX));
                    }
                    self.land_some(100);
                }
                _ => {}
            }
        }
        let all = self.rng().chance(40);
        let done = self.forge(|a| take_zones(a, keep, all));
        for i in [0, 2, 3] {
            self.one_of_each(i);
        }
        done
    }

    /// A closing with scarce zones and a place that counts as outside the image.
    fn closing_outside(&mut self) -> bool {
        self.fill_one();
        if !self.healthy() || !matches!(self.array.need(), Need::Filling(_)) {
            return false;
        }
        let p = self.array.p;
        let a0 = self.rng().below(p.l);
        let d = self.some_drive();
        let spot = match self.rng().below(6) {
            0 | 1 => None,
            2 => self.empty_zone(d).map(|z| (d, z)),
            _ => self.dead_zone(),
        };
        let outside = match spot {
            Some((d, z)) => p.place(d, z, 1 + self.rng().index(p.s)),
            None => p.places() as u32 + self.rng().below(5) as u32,
        };
        let never = self.rng().chance(60);
        let unseal = self.rng().chance(50);
        let zones: Vec<Vec<usize>> = self.segments().into_iter().map(|s| s.zones).collect();
        let done = self.forge(|a| {
            take_zones(a, 1, false);
            if never {
                a.addresses.fill(0xff);
            }
            for zones in zones.iter().filter(|_| unseal) {
                if a.pointer(0, zones[0]) == p.cap {
                    a.set_pointer(0, zones[0], p.cap - 1);
                }
            }
            a.set_entry(a0, outside);
        });
        if done {
            if self.rng().chance(50) {
                self.emit(Reclaim(u64::MAX));
            }
            let command = self.closing(u64::MAX);
            self.emit(command);
            self.emit(Reclaim(u64::MAX));
        }
        done
    }

    // Forged segments.

    /// Empty good zones, one on each drive.
    fn empty_zones(&mut self) -> Option<Vec<usize>> {
        if self.rng().chance(50) {
            return self.array.fresh_zones();
        }
        (0..self.array.p.n).map(|d| self.empty_zone(d)).collect()
    }

    /// A sealed segment of padding, a headers-only one, or one with a few chunks, in empty zones.
    fn new_segment(&mut self) -> bool {
        let p = self.array.p;
        let Some(zones) = self.empty_zones() else { return false };
        let sealed = self.rng().chance(50);
        let serial = self.some_serial();
        let copied = if self.rng().chance(40) {
            let others = self.some_segment();
            self.array.serial(0, others[0])
        } else {
            0
        };
        let chunks: Vec<usize> = (0..p.n).map(|_| self.rng().index(p.s + 1)).collect();
        let done = self.forge(|a| forge_segment(a, &zones, serial, copied, if sealed { None } else { Some(&chunks) }));
        if done {
            let command = self.any_restart();
            self.emit(command);
        }
        done
    }

    fn some_serial(&mut self) -> u64 {
        let most = self.segments().last().map_or(0, |s| s.serial);
        match self.rng().below(6) {
            0 => u64::MAX,
            1 => u64::MAX - 1,
            2 => 1000,
            _ => most.wrapping_add(1 + self.rng().below(3)),
        }
    }

    /// Some drive has no zone left and the unsealed segment has an uncounted chunk: restart has no zone to rewrite into.
    fn no_zone_left(&mut self) -> bool {
        let p = self.array.p;
        if !self.healthy() {
            return false;
        }
        let with_end = self.rng().chance(30);
        let ragged = self.some_drive();
        let open = self.segments().into_iter().find(|s| !self.array.is_sealed(s, None));
        let done = self.forge(|a| {
            let mut need_open = open.is_none();
            let mut serial = if with_end { u64::MAX } else { 1 << 40 };
            while let Some(zones) = a.fresh_zones() {
                let mut chunks = vec![0; p.n];
                chunks[ragged] = 1;
                forge_segment(a, &zones, serial, 0, if need_open { Some(&chunks) } else { None });
                need_open = false;
                serial -= 1;
            }
            if let Some(open) = &open {
                add_chunk(a, &open.zones, ragged);
            }
        });
        if done {
            self.emit(Restart(255, u64::MAX));
            let command = self.any_restart();
            self.emit(command);
        }
        done
    }

    // Rebuild and decoding on changed drives.

    fn rebuild_on_change(&mut self) -> bool {
        let Some(d) = self.lose() else { return false };
        self.undo.clear();
        let done = match self.rng().below(15) {
            0 => self.change_pointer(),
            1 => self.change_header(),
            2 | 3 => self.change_serial(),
            4..=8 => self.change_record_only(),
            9..=11 => self.name_zone(),
            12 => self.forge_footers(),
            13 => self.new_segment_without_restart(),
            _ => self.change_footer(),
        };
        if done {
            let count = self.any_count();
            self.emit(Rebuild(d as u64, count));
        }
        done
    }

    fn new_segment_without_restart(&mut self) -> bool {
        let p = self.array.p;
        let Some(zones) = self.empty_zones() else { return false };
        let serial = self.some_serial();
        let chunks: Vec<usize> = (0..p.n).map(|_| self.rng().index(p.s + 1)).collect();
        self.forge(|a| forge_segment(a, &zones, serial, 0, Some(&chunks)))
    }

    /// Pointers of the open segment around a landing.
    fn landing_pointer(&mut self) -> bool {
        let p = self.array.p;
        let waiting = Chooser::waiting(&self.array);
        if waiting.is_empty() || !self.healthy() {
            return false;
        }
        let Some(zones) = self.open_segment() else { return false };
        let (d, s) = *self.rng().pick(&waiting);
        let group = p.group_offsets(s);
        let to = match self.rng().below(5) {
            0 => 0,
            1 => 1 + group.start + self.rng().index(group.len()),
            2 => 1 + group.end,
            3 => group.start,
            _ => self.some_pointer(self.array.pointer(d, zones[d])),
        };
        let others = self.rng().chance(40);
        let e = self.some_drive();
        let far = self.some_pointer(self.array.pointer(e, zones[e]));
        let done = self.forge(|a| {
            if others && e != d {
                a.set_pointer(e, zones[e], far);
            } else {
                a.set_pointer(d, zones[d], to);
            }
        });
        let count = self.any_count();
        self.emit(Land(d as u64, s as u64, count));
        self.land_some(50);
        done
    }

    /// Some drive is missing, if need be from here on.
    fn lose(&mut self) -> Option<usize> {
        if self.array.state.missing.is_none() {
            let d = self.some_drive() as u64;
            self.emit(Restart(d, 0));
        }
        self.array.state.missing
    }

    fn both_reads(&mut self, a: u64) {
        self.emit(Read(a));
        let seed = self.chooser.seed();
        self.emit(Fill(a, seed));
    }

    /// A written block whose spare and footer tell unlike stamps, or another address; its segment sealed or not, by one pointer; both reads of it.
    fn stamp_read(&mut self) -> bool {
        let p = self.array.p;
        if self.rng().chance(50) {
            self.lose();
        }
        let missing = self.array.state.missing;
        let segments = self.array.gather(missing);
        let mut written = vec![];
        for a in 0..p.l {
            match self.array.locate(&segments, self.array.entry(a)) {
                Ok(spot) if p.is_data(spot.block) => written.push((a, spot)),
                _ => {}
            }
        }
        if self.array.state.out_of_range() || written.is_empty() {
            return false;
        }
        let lost: Vec<_> = written.iter().copied().filter(|w| Some(w.1.drive) == missing).collect();
        let from = if lost.is_empty() || self.rng().chance(50) { written } else { lost };
        let (a, spot) = *self.rng().pick(&from);
        let zones = &segments.remaining[spot.home].zones;
        // On the missing drive, the record of another chunk of the stripe.
        let (e, at) = if Some(spot.drive) == missing {
            let e = (spot.drive + 1 + self.rng().index(p.n - 1)) % p.n;
            (e, self.array.shown(e, zones[e], spot.block - 1))
        } else {
            (spot.drive, Some(spot.block - 1))
        };
        let Some(at) = at else { return false };
        let mut r = self.array.record(e, zones[e], at, self.by_footer(zones));
        r.stamp = if self.rng().chance(50) { r.stamp ^ 1 } else { self.rng().next() };
        if self.rng().chance(20) {
            r.address = self.rng().below(p.l);
        }
        let which = self.rng().below(3);
        // A present drive: the number that stands for the missing one may be any.
        let f = match self.some_drive() {
            f if Some(f) == missing => (f + 1) % p.n,
            f => f,
        };
        let to = if self.rng().chance(50) {
            p.cap
        } else {
            self.some_pointer(self.array.pointer(f, zones[f]))
        };
        let with_pointer = self.rng().chance(40);
        let done = self.forge(|x| {
            set_record(x, e, zones[e], at, &r, which);
            if with_pointer {
                x.set_pointer(f, zones[f], to);
            }
        });
        self.both_reads(a);
        done
    }

    /// A decode whose stripe the compact table doesn't show.
    fn decode_hidden(&mut self) -> bool {
        let p = self.array.p;
        let Some(m) = self.lose() else { return false };
        let segments = self.array.gather(Some(m));
        let mut lost = vec![];
        for a in 0..p.l {
            match self.array.locate(&segments, self.array.entry(a)) {
                Ok(spot) if spot.drive == m && p.is_data(spot.block) => lost.push((a, spot)),
                _ => {}
            }
        }
        if lost.is_empty() {
            return false;
        }
        let (a, spot) = *self.rng().pick(&lost);
        let zones = &segments.remaining[spot.home].zones;
        let e = (m + 1 + self.rng().index(p.n - 1)) % p.n;
        let byte = self.rng().below(p.g as u64 + 1) as u8;
        let how = self.rng().below(3);
        let done = self.forge(|x| match how {
            0 => x.set_pointer(e, zones[e], 1),
            1 => {
                for o in p.group_offsets(spot.block - 1) {
                    let at = x.compact_at(e, zones[e], o);
                    x.compact[at] = byte;
                }
            }
            _ => x.set_entry(a, p.place(m, spot.zone, 1 + (spot.block + 1) % p.s)),
        });
        self.both_reads(a);
        done
    }
}

/// Sets a record in its spare (0), in the footer (1), or in both (2).
fn set_record(a: &mut Array, d: usize, z: usize, offset: usize, r: &Record, which: u64) {
    let p = a.p;
    if which != 1 {
        let at = a.at(d, z, 1 + offset) + p.b;
        a.image[at..at + SPARE].copy_from_slice(&r.bytes());
    }
    if which != 0 {
        let at = a.at(d, z, 1 + p.s + offset / p.per) + offset % p.per * SPARE;
        a.image[at..at + SPARE].copy_from_slice(&r.bytes());
    }
}

/// Stores so many footer blocks behind the data of a zone.
fn put_footers(a: &mut Array, d: usize, z: usize, many: usize) {
    let p = a.p;
    for i in 0..many {
        let mut block = vec![0; p.b];
        a.footer(d, z, i, &mut block);
        let to = a.at(d, z, 1 + p.s + i);
        a.image[to..to + p.b].copy_from_slice(&block);
    }
    a.set_pointer(d, z, 1 + p.s + many);
}

/// Sets the serial or the copied serial in the headers of these zones, on one drive or on all.
fn set_serial(a: &mut Array, zones: &[usize], copied: bool, value: u64, only: Option<usize>) {
    let field = if copied { a.p.copied_field() } else { a.p.serial_field() };
    for (d, &z) in zones.iter().enumerate().filter(|&(d, _)| only.is_none_or(|o| o == d)) {
        let at = a.at(d, z, 0) + field;
        a.image[at..at + 8].copy_from_slice(&value.to_be_bytes());
    }
}

/// Sets the zone number for drive `e` in the headers of these zones, on one drive or on all.
fn set_named(a: &mut Array, zones: &[usize], e: usize, number: usize, only: Option<usize>) {
    for (d, &z) in zones.iter().enumerate().filter(|&(d, _)| only.is_none_or(|o| o == d)) {
        let at = a.at(d, z, 0) + a.p.zone_field(e);
        a.image[at..at + 4].copy_from_slice(&(number as u32).to_be_bytes());
    }
}

/// Copies a zone's header block to another zone of its drive.
fn copy_header(a: &mut Array, d: usize, from: usize, to: usize) {
    let (from, to) = (a.at(d, from, 0), a.at(d, to, 0));
    a.image.copy_within(from..from + a.p.stride(), to);
}

/// Makes all but a few empty zones look used, on one drive or on all.
fn take_zones(a: &mut Array, keep: usize, all: bool) {
    let few = (0..a.p.n).min_by_key(|&d| (0..a.p.z).filter(|&z| a.is_empty(d, z)).count());
    for d in (0..a.p.n).filter(|&d| all || Some(d) == few) {
        let empty: Vec<usize> = (0..a.p.z).filter(|&z| a.is_empty(d, z)).collect();
        for &z in empty.iter().skip(keep) {
            a.set_pointer(d, z, 1);
        }
    }
}

/// A segment of padding: sealed, or with so many chunks on each drive.
fn forge_segment(a: &mut Array, zones: &[usize], serial: u64, copied: u64, chunks: Option<&[usize]>) {
    let p = a.p;
    for (d, &z) in zones.iter().enumerate() {
        let at = a.at(d, z, 0);
        let block = &mut a.image[at..at + p.stride()];
        block.fill(0);
        header(&p, d, zones, serial, copied, block);
        let have = chunks.map_or(p.s, |c| c[d]);
        for o in 0..have {
            let r = Record {
                address: PADDING,
                stamp: 0,
                stripe: o as u32,
            };
            set_record(a, d, z, o, &r, if chunks.is_none() { 1 } else { 0 });
        }
        a.set_pointer(d, z, if chunks.is_none() { p.cap } else { 1 + have });
    }
}

/// Where an open segment is level on all drives, one of them gets a chunk more.
fn add_chunk(a: &mut Array, zones: &[usize], d: usize) {
    let level = a.pointer(0, zones[0]);
    let o = level.wrapping_sub(1);
    if o >= a.p.s || (0..a.p.n).any(|e| a.pointer(e, zones[e]) != level) {
        return;
    }
    let r = Record {
        address: PADDING,
        stamp: 0,
        stripe: o as u32,
    };
    set_record(a, d, zones[d], o, &r, 0);
    a.set_pointer(d, zones[d], level + 1);
}
