//! The faults of refusal 9: the zone that it names, and words on them for the coverage table.

use crate::array::Answer;

/// Every fault that refusal 9 can have.
pub const WORDS: [&str; 26] = [
    // Any call.
    "state",
    // Restart and rebuild.
    "pointer",
    "header",
    "unequal",
    "serial",
    "names offline",
    "names beyond",
    "names another",
    "names a clash",
    "twice",
    "group",
    "repeated",
    "address",
    "decoded",
    "footer",
    "unsealed",
    // Other calls.
    "no segment",
    "landing",
    "above",
    "outside",
    "in offline",
    "in none",
    "in several",
    "notdata",
    "notbelow",
    "decode",
];

/// Those of restart and rebuild.
pub const IN_RESTART: &[&str] = WORDS.split_at(16).0.split_at(1).1;

/// A set of such words.
#[derive(Clone, Copy, PartialEq, Eq, Debug, Default)]
pub struct Words(u32);

impl Words {
    pub fn one(word: &'static str) -> Words {
        let bit = WORDS.iter().position(|w| *w == word).expect("a word of the list");
        Words(1 << bit)
    }

    pub fn and(self, other: Words) -> Words {
        Words(self.0 | other.0)
    }

    pub fn list(self) -> Vec<&'static str> {
        (0..WORDS.len()).filter(|i| self.0 >> i & 1 == 1).map(|i| WORDS[i]).collect()
    }
}

/// The lowest bad zone of a call so far, with its faults.
#[derive(Clone, Copy, Default)]
pub struct Faults(Option<(usize, Words)>);

impl Faults {
    pub fn add(&mut self, zone: usize, why: &'static str) {
        let words = Words::one(why);
        self.0 = match self.0 {
            Some((z, old)) if z < zone => Some((z, old)),
            Some((z, old)) if z == zone => Some((z, old.and(words))),
            _ => Some((zone, words)),
        };
    }

    pub fn end(&self) -> Result<(), Answer> {
        self.0.map_or(Ok(()), |(zone, words)| Err(Answer::Bad(zone, words)))
    }
}
