//! What the drives say, from image, pointers and offline list alone (01, "Restart and rebuild" steps 1 to 3 and the comparison rule; 02, item 4).
//! Plain lists and sorting; shares nothing with the model but the parameters.

use crate::params::Params;

struct Chunk {
    drive: usize,
    offset: usize,
    address: u64,
    stamp: u64,
    stripe: usize,
}

struct Candidate {
    address: u64,
    stamp: u64,
    serial: u64,
    drive: usize,
    offset: usize,
    place: u32,
}

/// A serial that every present drive bears, with its zone on each drive.
struct Segment {
    serial: u64,
    copied: u64,
    zones: Vec<usize>,
}

fn number(bytes: &[u8]) -> u64 {
    bytes.iter().fold(0, |x, &b| x << 8 | b as u64)
}

/// What is lent read-only here.
pub struct Drives<'a> {
    pub p: &'a Params,
    pub image: &'a [u8],
    pub pointers: &'a [u8],
    pub offline: &'a [u8],
    pub missing: Option<usize>,
}

/// What the drives say with this drive missing.
pub struct Says {
    pub addresses: Vec<u8>,
    pub compact: Vec<u8>,
    /// By address: the stamp of the record that holds; 0 if there is none.
    pub stamps: Vec<u64>,
    /// Stripes with some chunk but not counted.
    pub uncounted: u64,
}

impl Drives<'_> {
    fn block(&self, d: usize, z: usize, k: usize) -> &[u8] {
        let size = self.p.b + 20;
        &self.image[((d * self.p.z + z) * self.p.cap + k) * size..][..size]
    }

    fn pointer(&self, d: usize, z: usize) -> usize {
        number(&self.pointers[(d * self.p.z + z) * 4..][..4]) as usize
    }

    fn present(&self) -> Vec<usize> {
        (0..self.p.n).filter(|d| self.missing != Some(*d)).collect()
    }

    /// Serials of the good zones of a drive that hold something, each with its zone.
    fn on_drive(&self, d: usize) -> Vec<(u64, usize)> {
        let from = 21 + 4 * self.p.n;
        let mut out = vec![];
        for z in 0..self.p.z {
            if self.offline[d * self.p.z + z] == 0 && self.pointer(d, z) != 0 {
                out.push((number(&self.block(d, z, 0)[from..from + 8]), z));
            }
        }
        out
    }

    /// Steps 1 and 2.
    fn segments(&self) -> Vec<Segment> {
        let n = self.p.n;
        let present = self.present();
        let bears: Vec<Vec<(u64, usize)>> = (0..n).map(|d| self.on_drive(d)).collect();
        let zone_of = |d: usize, serial: u64| bears[d].iter().find(|b| b.0 == serial).map(|b| b.1);
        let mut left = vec![];
        for &(serial, first) in &bears[present[0]] {
            if present.iter().any(|d| zone_of(*d, serial).is_none()) {
                continue;
            }
            let header = self.block(present[0], first, 0);
            let named = |d: usize| number(&header[13 + 4 * d..][..4]) as usize;
            left.push(Segment {
                serial,
                copied: number(&header[29 + 4 * n..][..8]),
                zones: (0..n)
                    .map(|d| {
                        if self.missing == Some(d) {
                            named(d)
                        } else {
                            zone_of(d, serial).unwrap()
                        }
                    })
                    .collect(),
            });
        }
        let serials: Vec<u64> = left.iter().map(|s| s.serial).collect();
        left.retain(|s| s.copied == 0 || s.copied == s.serial || !serials.contains(&s.copied));
        left
    }

    /// The chunks of a segment, by drive and offset.
    fn chunks(&self, segment: &Segment) -> Vec<Chunk> {
        let p = self.p;
        let sealed = self.present().iter().all(|d| self.pointer(*d, segment.zones[*d]) == p.cap);
        let mut out = vec![];
        for drive in self.present() {
            let z = segment.zones[drive];
            for offset in 0..p.s {
                if offset + 1 >= self.pointer(drive, z) {
                    break;
                }
                let per = p.b / 20;
                let record = if sealed {
                    &self.block(drive, z, 1 + p.s + offset / per)[offset % per * 20..][..20]
                } else {
                    &self.block(drive, z, 1 + offset)[p.b..]
                };
                out.push(Chunk {
                    drive,
                    offset,
                    address: number(&record[0..8]),
                    stamp: number(&record[8..16]),
                    stripe: number(&record[16..20]) as usize,
                });
            }
        }
        out
    }

    /// The data records of a counted stripe, below L; the missing drive's decoded.
    fn candidates(&self, segment: &Segment, stripe: usize, of: &[&Chunk]) -> Vec<Candidate> {
        let p = self.p;
        let mut records: Vec<(usize, usize, u64, u64)> = of.iter().map(|c| (c.drive, c.offset, c.address, c.stamp)).collect();
        if let Some(m) = self.missing {
            let address = of.iter().fold(0, |x, c| x ^ c.address);
            let stamp = of.iter().fold(0, |x, c| x ^ c.stamp);
            records.push((m, stripe, address, stamp));
        }
        let parity = p.n - 1 - stripe % p.n;
        records.retain(|r| r.0 != parity && r.2 < p.l);
        let candidate = |(drive, offset, address, stamp): (usize, usize, u64, u64)| Candidate {
            address,
            stamp,
            serial: segment.serial,
            drive,
            offset,
            place: ((drive * p.z + segment.zones[drive]) * p.cap + 1 + offset) as u32,
        };
        records.into_iter().map(candidate).collect()
    }

    pub fn says(&self) -> Says {
        let p = self.p;
        let present = self.present().len();
        let mut says = Says {
            addresses: vec![0xff; 4 * p.l as usize],
            compact: vec![0; p.n * p.z * p.s],
            stamps: vec![0; p.l as usize],
            uncounted: 0,
        };
        let mut candidates: Vec<Candidate> = vec![];
        for segment in self.segments() {
            let chunks = self.chunks(&segment);
            for c in &chunks {
                says.compact[(c.drive * p.z + segment.zones[c.drive]) * p.s + c.offset] = (c.stripe % p.g) as u8;
            }
            for stripe in 0..p.s {
                let of: Vec<&Chunk> = chunks.iter().filter(|c| c.stripe == stripe).collect();
                if of.len() < present {
                    says.uncounted += !of.is_empty() as u64;
                } else {
                    candidates.extend(self.candidates(&segment, stripe, &of));
                }
            }
        }
        // The holder of each address comes last.
        candidates.sort_by(|a, b| (a.stamp, a.serial, b.drive, b.offset).cmp(&(b.stamp, b.serial, a.drive, a.offset)));
        for c in candidates {
            says.addresses[4 * c.address as usize..][..4].copy_from_slice(&c.place.to_be_bytes());
            says.stamps[c.address as usize] = c.stamp;
        }
        says
    }
}
