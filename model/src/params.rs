//! The six parameters and the sizes that follow from them (01, "The array" and "What a zone holds"; 02, item 4).

/// Bytes of a record, and so of every block's spare.
pub const SPARE: usize = 20;
/// Stripes that may be in flight.
pub const FLIGHTS: usize = 8;
/// The address of a padding block.
pub const PADDING: u64 = u64::MAX;
/// The place of an address that was never written.
pub const NEVER: u32 = u32::MAX;
/// Lent buffers, the offline list with them.
pub const LENT: usize = 6;

#[derive(Clone, Copy, PartialEq, Eq, Debug, Default)]
pub struct Params {
    pub n: usize,
    pub b: usize,
    pub z: usize,
    pub s: usize,
    pub g: usize,
    pub l: u64,
    /// Footer blocks of a zone.
    pub f: usize,
    /// Blocks of a zone.
    pub cap: usize,
    /// Records in one footer block.
    pub per: usize,
}

impl Params {
    /// The parameters, if each lies in its range. L's bound is the wide one here, with Z.
    pub fn new(n: u64, b: u64, z: u64, s: u64, g: u64, l: u64) -> Option<Params> {
        let ok = (3..=8).contains(&n)
            && (128..=4096).contains(&b)
            && b.is_power_of_two()
            && (4..=1024).contains(&z)
            && (1..=65535).contains(&s)
            && (1..=256).contains(&g)
            && l >= 1
            && l <= (z - 3) * s * (n - 1);
        if !ok {
            return None;
        }
        let per = b as usize / SPARE;
        let s = s as usize;
        let f = s.div_ceil(per);
        Some(Params {
            n: n as usize,
            b: b as usize,
            z: z as usize,
            s,
            g: g as usize,
            l,
            f,
            cap: 1 + s + f,
            per,
        })
    }

    /// Bytes of a block with its spare.
    pub fn stride(&self) -> usize {
        self.b + SPARE
    }

    /// Data blocks of a stripe.
    pub fn data(&self) -> usize {
        self.n - 1
    }

    /// L's bound with so many zones a drive, at least four.
    pub fn most(&self, zones: usize) -> u64 {
        ((zones - 3) * self.s * (self.n - 1)) as u64
    }

    /// Number of places in the image.
    pub fn places(&self) -> usize {
        self.n * self.z * self.cap
    }

    /// Lengths of image, pointers, address table, compact table, in-flight buffer, offline list.
    pub fn lengths(&self) -> [usize; LENT] {
        [
            self.places() * self.stride(),
            4 * self.n * self.z,
            4 * self.l as usize,
            self.n * self.z * self.s,
            FLIGHTS * self.n * self.b,
            self.n * self.z,
        ]
    }

    /// The drive with the parity of stripe `s`.
    pub fn parity_drive(&self, s: usize) -> usize {
        self.n - 1 - s % self.n
    }

    /// The drive with data position `i` of stripe `s`.
    pub fn data_drive(&self, s: usize, i: usize) -> usize {
        if i < self.parity_drive(s) {
            i
        } else {
            i + 1
        }
    }

    /// The data position of drive `d` in stripe `s`; none for its parity.
    pub fn position(&self, s: usize, d: usize) -> Option<usize> {
        let p = self.parity_drive(s);
        match d.cmp(&p) {
            std::cmp::Ordering::Less => Some(d),
            std::cmp::Ordering::Equal => None,
            std::cmp::Ordering::Greater => Some(d - 1),
        }
    }

    /// The data offsets of the group of stripe `s`.
    pub fn group_offsets(&self, s: usize) -> std::ops::Range<usize> {
        let from = s / self.g * self.g;
        from..(from + self.g).min(self.s)
    }

    /// The place of a block.
    pub fn place(&self, d: usize, z: usize, block: usize) -> u32 {
        ((d * self.z + z) * self.cap + block) as u32
    }

    /// Drive, zone and block of a place inside the image.
    pub fn split(&self, place: u32) -> Option<(usize, usize, usize)> {
        let place = place as usize;
        if place >= self.places() {
            return None;
        }
        let zone = place / self.cap;
        Some((zone / self.z, zone % self.z, place % self.cap))
    }

    /// A block of this number holds data.
    pub fn is_data(&self, block: usize) -> bool {
        (1..=self.s).contains(&block)
    }

    // Where the fields of a header start (02, item 4): 13 bytes, then N zone numbers, L, serial, copied serial.

    pub fn zone_field(&self, drive: usize) -> usize {
        13 + 4 * drive
    }

    pub fn address_field(&self) -> usize {
        self.zone_field(self.n)
    }

    pub fn serial_field(&self) -> usize {
        self.address_field() + 8
    }

    pub fn copied_field(&self) -> usize {
        self.serial_field() + 8
    }

    /// Bytes of a header: 37 + 4 × N.
    pub fn header_len(&self) -> usize {
        self.copied_field() + 8
    }
}
