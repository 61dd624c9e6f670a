//! What the drives say, restart and rebuild (01, "Restart and rebuild"; refusal 9; 02, item 4).

use crate::array::{header, xor_into, Answer, Array, Record, Stores};
use crate::calls::Key;
use crate::faults::Faults;
use crate::params::{Params, NEVER, PADDING, SPARE};
use crate::segments::{Segment, Segments};
use crate::state::State;

const NONE: u32 = u32::MAX;

/// The drives as a restart that names `missing` finds them, free of the faults of refusal 9.
/// What goes by segment goes by its index among the remaining ones, so by rising serial.
pub struct Survey {
    pub segments: Segments,
    pub sealed: Vec<bool>,
    /// By segment, drive and stripe: the offset of the chunk.
    offsets: Vec<u32>,
    /// By segment and stripe: step 3.
    counts: Vec<bool>,
    pub uncounted: u64,
    pub greatest_stamp: u64,
    pub greatest_serial: u64,
    pub unsealed: Option<usize>,
}

impl Survey {
    fn at(p: &Params, i: usize, d: usize, s: usize) -> usize {
        (i * p.n + d) * p.s + s
    }

    fn offset(&self, p: &Params, i: usize, d: usize, s: usize) -> Option<usize> {
        match self.offsets[Survey::at(p, i, d, s)] {
            NONE => None,
            o => Some(o as usize),
        }
    }

    /// Zone and offset of drive `d`'s chunk of a counted stripe.
    fn chunk(&self, p: &Params, i: usize, d: usize, s: usize) -> (usize, usize) {
        let offset = self.offset(p, i, d, s).expect("a counted stripe is on every present drive");
        (self.segments.remaining[i].zones[d], offset)
    }

    /// Counted stripes of a segment, rising.
    pub fn counted(&self, p: &Params, i: usize) -> Vec<usize> {
        (0..p.s).filter(|&s| self.counts[i * p.s + s]).collect()
    }
}

/// The record's address is no data address.
fn bad_address(p: &Params, r: &Record) -> bool {
    if r.address < p.l {
        r.stamp == 0
    } else {
        r.address != PADDING
    }
}

impl Array {
    /// Steps 1 to 3 with the checks of refusal 9.
    pub fn survey(&self, missing: Option<usize>) -> Result<Survey, Answer> {
        let p = self.p;
        self.check_pointers(missing)?;
        let segments = self.gather(missing);
        let lowest = self.present(missing)[0];
        let many = segments.remaining.len();
        let mut survey = Survey {
            sealed: segments.remaining.iter().map(|s| self.is_sealed(s, missing)).collect(),
            greatest_serial: segments.remaining.last().map_or(0, |s| s.serial),
            segments,
            offsets: vec![NONE; many * p.n * p.s],
            counts: vec![false; many * p.s],
            uncounted: 0,
            greatest_stamp: 0,
            unsealed: None,
        };
        let mut faults = Faults::default();
        let unsealed: Vec<usize> = (0..many).filter(|&i| !survey.sealed[i]).collect();
        for i in 0..many {
            let mut words = self.segment_faults(&survey.segments, i);
            self.survey_chunks(&mut survey, i, &mut words);
            self.survey_stripes(&mut survey, i, &mut words);
            if unsealed.len() > 1 && !survey.sealed[i] {
                words.push("unsealed");
            }
            // Each names the segment's zone on the lowest present drive.
            for why in words {
                faults.add(survey.segments.remaining[i].zones[lowest], why);
            }
        }
        faults.end()?;
        survey.unsealed = unsealed.first().copied();
        Ok(survey)
    }

    /// Pointers of good zones above the capacity come before all else, and name their own zone.
    fn check_pointers(&self, missing: Option<usize>) -> Result<(), Answer> {
        let mut faults = Faults::default();
        for d in self.present(missing) {
            for z in (0..self.p.z).filter(|&z| self.good(d, z)) {
                if self.pointer(d, z) > self.p.cap {
                    faults.add(z, "pointer");
                }
            }
        }
        faults.end()
    }

    /// Faults of a remaining segment's headers and zones.
    fn segment_faults(&self, segments: &Segments, i: usize) -> Vec<&'static str> {
        let segment = &segments.remaining[i];
        let mut words = vec![];
        for d in self.present(segments.missing) {
            self.header_faults(segment, d, &mut words);
        }
        if segment.is_twice() {
            words.push("twice");
        }
        let clash = |other: &Segment| (0..self.p.n).any(|d| other.named[d] == segment.named[d]);
        if segments
            .remaining
            .iter()
            .any(|other| other.serial != segment.serial && clash(other))
        {
            words.push("names a clash");
        }
        words
    }

    /// Faults of the header on drive `d`.
    fn header_faults(&self, segment: &Segment, d: usize, words: &mut Vec<&'static str>) {
        let p = &self.p;
        let zone = segment.zones[d];
        let (named, copied) = (self.named(d, zone), self.copied(d, zone));
        for (e, &z) in named.iter().enumerate() {
            if z >= p.z {
                words.push("names beyond");
            } else if !self.good(e, z) {
                words.push("names offline");
            }
        }
        if named[d] != zone {
            words.push("names another");
        }
        if named != segment.named || copied != segment.copied {
            words.push("unequal");
        }
        if segment.serial <= copied {
            words.push("serial");
        }
        let mut expected = vec![0; p.stride()];
        header(p, d, &named, segment.serial, copied, &mut expected);
        if self.block(d, zone, 0) != &expected[..p.b] || self.spare(d, zone, 0) != &expected[p.b..] {
            words.push("header");
        }
    }

    /// Notes the chunks of a remaining segment, with the faults of its records and footers.
    fn survey_chunks(&self, survey: &mut Survey, i: usize, words: &mut Vec<&'static str>) {
        let p = self.p;
        let sealed = survey.sealed[i];
        for d in self.present(survey.segments.missing) {
            let zone = survey.segments.remaining[i].zones[d];
            let pointer = self.pointer(d, zone);
            for o in 0..(pointer - 1).min(p.s) {
                let r = self.record(d, zone, o, sealed);
                let s = r.stripe as usize;
                if s >= p.s || s / p.g != o / p.g {
                    words.push("group");
                    continue;
                }
                if survey.offset(&p, i, d, s).is_some() {
                    words.push("repeated");
                    continue;
                }
                survey.offsets[Survey::at(&p, i, d, s)] = o as u32;
                if p.parity_drive(s) != d && bad_address(&p, &r) {
                    words.push("address");
                }
            }
            for block in (1 + p.s..pointer).filter(|_| !sealed) {
                let mut made = vec![0; p.b];
                self.footer(d, zone, block - 1 - p.s, &mut made);
                if self.block(d, zone, block) != made {
                    words.push("footer");
                }
            }
        }
    }

    /// Step 3: counts the stripes of a remaining segment, with the faults of decoded addresses.
    fn survey_stripes(&self, survey: &mut Survey, i: usize, words: &mut Vec<&'static str>) {
        let p = self.p;
        let missing = survey.segments.missing;
        let present = self.present(missing);
        for s in 0..p.s {
            let have = present.iter().filter(|&&d| survey.offset(&p, i, d, s).is_some()).count();
            if have < present.len() {
                survey.uncounted += (have > 0) as u64;
                continue;
            }
            survey.counts[i * p.s + s] = true;
            for d in (0..p.n).filter(|&d| d != p.parity_drive(s)) {
                let r = self.counted_record(survey, i, s, d);
                if Some(d) == missing && bad_address(&p, &r) {
                    words.push("decoded");
                }
                survey.greatest_stamp = survey.greatest_stamp.max(r.stamp);
            }
        }
    }

    /// The record of drive `d`'s chunk of a counted stripe, decoded on the missing drive.
    fn counted_record(&self, survey: &Survey, i: usize, s: usize, d: usize) -> Record {
        let stored = |e: usize| {
            let (zone, offset) = survey.chunk(&self.p, i, e, s);
            self.record(e, zone, offset, survey.sealed[i])
        };
        if Some(d) != survey.segments.missing {
            return stored(d);
        }
        let mut r = Record {
            address: 0,
            stamp: 0,
            stripe: s as u32,
        };
        for e in (0..self.p.n).filter(|&e| e != d) {
            let other = stored(e);
            r.address ^= other.address;
            r.stamp ^= other.stamp;
        }
        r
    }

    /// The block of drive `d`'s chunk of a counted stripe, on a present drive.
    fn counted_block(&self, survey: &Survey, i: usize, s: usize, d: usize) -> &[u8] {
        let (zone, offset) = survey.chunk(&self.p, i, d, s);
        self.block(d, zone, 1 + offset)
    }

    /// Both tables as the drives say.
    fn set_tables(&mut self, survey: &Survey) {
        let p = self.p;
        self.compact.fill(0);
        self.addresses.fill(0xff);
        let mut best: Vec<Option<Key>> = vec![None; p.l as usize];
        for (i, segment) in survey.segments.remaining.iter().enumerate() {
            self.show_chunks(survey, i);
            for s in survey.counted(&p, i) {
                for d in (0..p.n).filter(|&d| d != p.parity_drive(s)) {
                    let r = self.counted_record(survey, i, s, d);
                    if r.address >= p.l {
                        continue;
                    }
                    // On the missing drive offset s stands for stripe s.
                    let key = Key {
                        stamp: r.stamp,
                        serial: segment.serial,
                        drive: d,
                        offset: survey.offset(&p, i, d, s).unwrap_or(s),
                    };
                    let old = &mut best[r.address as usize];
                    if old.is_none_or(|old| key.beats(&old)) {
                        *old = Some(key);
                        self.set_entry(r.address, p.place(d, segment.zones[d], 1 + key.offset));
                    }
                }
            }
        }
        debug_assert!(p.places() < NEVER as usize);
    }

    /// The compact table's entries of a segment, on present drives.
    fn show_chunks(&mut self, survey: &Survey, i: usize) {
        let p = self.p;
        for d in self.present(survey.segments.missing) {
            for s in 0..p.s {
                if let Some(o) = survey.offset(&p, i, d, s) {
                    let at = self.compact_at(d, survey.segments.remaining[i].zones[d], o);
                    self.compact[at] = (s % p.g) as u8;
                }
            }
        }
    }

    // Restart.

    pub fn restart(&mut self, missing: u64, count: u64) -> Answer {
        match self.try_restart(missing, count) {
            Ok(a) | Err(a) => a,
        }
    }

    fn try_restart(&mut self, missing: u64, count: u64) -> Result<Answer, Answer> {
        if self.p.n == 0 || missing >= self.p.n as u64 && missing != 255 {
            return Err(self.refuse(1, ""));
        }
        self.in_order(None)?;
        let missing = (missing != 255).then_some(missing as usize);
        let mut survey = self.survey(missing)?;
        let uncounted = survey.uncounted;
        let next_stamp = survey.greatest_stamp.checked_add(1);
        self.note.set(if missing.is_some() { "missing" } else { "none missing" });
        if missing.is_none() {
            let stores = self.plan_restart(&survey)?;
            if !self.apply(&stores, count) {
                return Ok(Answer::Cut);
            }
            survey = self.survey(None).expect("what step 4 leaves is free of faults");
        }
        self.set_tables(&survey);
        let open = survey.unsealed.filter(|_| missing.is_none());
        self.state = State {
            missing,
            next_stamp,
            next_serial: survey.greatest_serial.checked_add(1),
            open: open.map(|i| survey.segments.remaining[i].serial),
            next_stripe: open.map_or(0, |i| survey.counted(&self.p, i).len()),
            ..State::zero()
        };
        Ok(Answer::Restarted(uncounted))
    }

    /// The stores of step 4: resets of dropped serials, then footers or the rewrite. With refusals 6 and 8.
    fn plan_restart(&self, survey: &Survey) -> Result<Stores, Answer> {
        let p = self.p;
        let mut stores = Stores::default();
        for &(d, z) in survey.segments.dropped.iter().flatten() {
            stores.reset(d, z);
        }
        let Some(i) = survey.unsealed else { return Ok(stores) };
        let zones = &survey.segments.remaining[i].zones;
        let counted = survey.counted(&p, i);
        let chunks = (0..p.n).map(|d| (self.pointer(d, zones[d]) - 1).min(p.s)).sum::<usize>();
        if counted.len() == p.s {
            self.note.set("footers");
            for (d, &zone) in zones.iter().enumerate() {
                for block in self.pointer(d, zone)..p.cap {
                    self.footer(d, zone, block - 1 - p.s, stores.put(&p, d, zone));
                }
            }
        } else if counted.iter().enumerate().any(|(k, &s)| k != s) || chunks != counted.len() * p.n {
            self.note.set(if counted.is_empty() { "rewrite of none" } else { "rewrite" });
            let serial = survey.greatest_serial.checked_add(1).ok_or_else(|| self.refuse(6, ""))?;
            let to = self.free_zones(&survey.segments).ok_or_else(|| self.refuse(8, ""))?;
            self.plan_rewrite(survey, i, &to, serial, &mut stores);
        }
        Ok(stores)
    }

    /// Each drive's lowest good zone that is empty once dropped serials are reset; none where some drive has none.
    fn free_zones(&self, segments: &Segments) -> Option<Vec<usize>> {
        let dropped: Vec<(usize, usize)> = segments.dropped.iter().flatten().copied().collect();
        let free = |d: usize, z: usize| self.is_empty(d, z) || dropped.contains(&(d, z));
        (0..self.p.n).map(|d| (0..self.p.z).find(|&z| free(d, z))).collect()
    }

    /// The rewrite of step 4: headers, counted stripes numbered from 0, resets of the old zones.
    fn plan_rewrite(&self, survey: &Survey, i: usize, to: &[usize], serial: u64, stores: &mut Stores) {
        let p = self.p;
        let old = &survey.segments.remaining[i];
        for d in 0..p.n {
            header(&p, d, to, serial, old.serial, stores.put(&p, d, to[d]));
        }
        for (k, s) in survey.counted(&p, i).into_iter().enumerate() {
            for d in 0..p.n {
                let put = stores.put(&p, d, to[d]);
                let (block, record) = self.moved(survey, i, s, k, d);
                put[..p.b].copy_from_slice(&block);
                put[p.b..].copy_from_slice(&record.bytes());
            }
        }
        for (d, &zone) in old.zones.iter().enumerate() {
            stores.reset(d, zone);
        }
    }

    /// Drive `d`'s chunk of stripe `k`, whose data are those of the counted stripe `s`, position by position.
    fn moved(&self, survey: &Survey, i: usize, s: usize, k: usize, d: usize) -> (Vec<u8>, Record) {
        let p = &self.p;
        let of: Vec<usize> = match p.position(k, d) {
            Some(position) => vec![p.data_drive(s, position)],
            None => (0..p.data()).map(|position| p.data_drive(s, position)).collect(),
        };
        let mut block = vec![0; p.b];
        let mut record = Record {
            address: 0,
            stamp: 0,
            stripe: k as u32,
        };
        for e in of {
            let r = self.counted_record(survey, i, s, e);
            record.address ^= r.address;
            record.stamp ^= r.stamp;
            xor_into(&mut block, self.counted_block(survey, i, s, e));
        }
        (block, record)
    }

    // Rebuild.

    pub fn rebuild(&mut self, drive: u64, count: u64) -> Answer {
        match self.try_rebuild(drive, count) {
            Ok(a) | Err(a) => a,
        }
    }

    fn try_rebuild(&mut self, drive: u64, count: u64) -> Result<Answer, Answer> {
        let named = self.state.missing.filter(|&d| self.p.n > 0 && d as u64 == drive);
        let d = named.ok_or_else(|| self.refuse(1, ""))?;
        self.in_order(None)?;
        let survey = self.survey(Some(d))?;
        let mut stores = Stores::default();
        for z in (0..self.p.z).filter(|&z| self.good(d, z)) {
            stores.reset(d, z);
        }
        for i in 0..survey.segments.remaining.len() {
            self.plan_rebuild(&survey, i, d, &mut stores);
        }
        if !self.apply(&stores, count) {
            return Ok(Answer::Cut);
        }
        Ok(Answer::Rebuilt)
    }

    /// A remaining segment's zone on the rebuilt drive: header, chunks of counted stripes, footers where the others have them.
    fn plan_rebuild(&self, survey: &Survey, i: usize, d: usize, stores: &mut Stores) {
        let p = self.p;
        let segment = &survey.segments.remaining[i];
        let zone = segment.zones[d];
        header(&p, d, &segment.named, segment.serial, segment.copied, stores.put(&p, d, zone));
        let mut records: Vec<[u8; SPARE]> = vec![];
        for s in survey.counted(&p, i) {
            let record = self.counted_record(survey, i, s, d).bytes();
            let put = stores.put(&p, d, zone);
            for e in (0..p.n).filter(|&e| e != d) {
                xor_into(&mut put[..p.b], self.counted_block(survey, i, s, e));
            }
            put[p.b..].copy_from_slice(&record);
            records.push(record);
        }
        if survey.sealed[i] {
            for part in records.chunks(p.per) {
                let put = stores.put(&p, d, zone);
                put[..part.len() * SPARE].copy_from_slice(&part.concat());
            }
        }
    }
}
