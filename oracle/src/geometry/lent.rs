//! Memory that is lent to a call, and what the call leaves in it.

/// Words on either side of what is lent, which no call may change.
const GUARD: usize = 4;

/// What memory is lent for.
#[derive(Clone, Copy, PartialEq)]
pub enum Purpose {
    /// To be read only.
    Read,
    /// For the numbers of an answer.
    Answer,
    /// For a truth, the lowest byte of a word.
    Flag,
    /// For a count.
    Count,
    /// For the kinds of commands, bytes.
    Kinds,
    /// For the worst step of each command.
    Worst,
}

/// Lent memory, between words that are not lent. All is compared afterwards.
#[derive(Clone, PartialEq)]
pub struct Lent {
    pub purpose: Purpose,
    words: Vec<u64>,
}

/// What stands at a place before a call: a NaN that no call writes, another at each place.
fn pattern(place: usize) -> u64 {
    0x7ff5_a5a5_0000_0000 | place as u64
}

/// The same for bytes: no kind of a command.
fn byte_pattern(place: usize) -> u8 {
    0x80 | place as u8
}

/// Bytes as words, the lowest first. A pattern fills up the last word, and one word more, which are not lent.
fn packed(bytes: &[u8]) -> Vec<u64> {
    let mut all = bytes.to_vec();
    let end = (bytes.len() / 8 + 2) * 8;
    all.extend((bytes.len()..end).map(|place| !byte_pattern(place)));
    all.chunks(8).map(|eight| u64::from_le_bytes(eight.try_into().expect("eight bytes"))).collect()
}

impl Lent {
    fn new(purpose: Purpose, words: impl Iterator<Item = u64>) -> Lent {
        let mut all: Vec<u64> = (0..GUARD).map(|place| !pattern(place)).collect();
        all.extend(words);
        all.extend((0..GUARD).map(|place| !pattern(GUARD + place)));
        Lent { purpose, words: all }
    }

    /// Room for so many words, filled with a pattern.
    pub fn room(count: usize) -> Lent {
        Lent::new(Purpose::Answer, (0..count).map(pattern))
    }

    /// Room for a count.
    pub fn count() -> Lent {
        Lent::new(Purpose::Count, (0..1).map(pattern))
    }

    /// One truth, the lowest byte of a word whose others are a pattern.
    pub fn flag(value: bool) -> Lent {
        Lent::new(Purpose::Flag, [(pattern(0) & !0xff) | value as u64].into_iter())
    }

    /// Numbers that are lent to be read.
    pub fn numbers(numbers: &[f64]) -> Lent {
        Lent::new(Purpose::Read, numbers.iter().map(|x| x.to_bits()))
    }

    /// Bytes that are lent to be read.
    pub fn bytes(bytes: &[u8]) -> Lent {
        Lent::new(Purpose::Read, packed(bytes).into_iter())
    }

    /// Room for so many bytes, with these at its front. Bytes that find no room make it longer, so that it equals no
    /// memory that was lent.
    pub fn byte_room(count: usize, front: &[u8]) -> Lent {
        let rest = (front.len()..count).map(byte_pattern);
        let all: Vec<u8> = front.iter().copied().chain(rest).collect();
        Lent::new(Purpose::Kinds, packed(&all).into_iter())
    }

    /// Room for so many worst steps, four bytes each, with these at its front.
    pub fn list_room(count: usize, front: &[u32]) -> Lent {
        let bytes: Vec<u8> = front.iter().flat_map(|n| n.to_le_bytes()).collect();
        Lent { purpose: Purpose::Worst, ..Lent::byte_room(4 * count, &bytes) }
    }

    /// How many words are lent.
    pub fn len(&self) -> usize {
        self.words.len() - 2 * GUARD
    }

    pub fn is_empty(&self) -> bool {
        self.len() == 0
    }

    /// The lent words.
    pub fn words(&self) -> &[u64] {
        &self.words[GUARD..self.words.len() - GUARD]
    }

    /// Where the lent words start.
    pub fn as_mut_ptr<T>(&mut self) -> *mut T {
        self.words[GUARD..].as_mut_ptr().cast()
    }

    /// The same, with these words written to its front. Words that find no room make it longer, so that it equals no
    /// memory that was lent.
    pub fn written(&self, front: &[u64]) -> Lent {
        let rest = self.words().iter().skip(front.len());
        Lent::new(self.purpose, front.iter().chain(rest).copied())
    }

    /// What was written to the front.
    pub fn front(&self) -> &[u64] {
        let count = self.words().iter().enumerate().take_while(|(place, word)| **word != pattern(*place)).count();
        &self.words()[..count]
    }

    /// The same flag with another value.
    pub fn flagged(&self, value: bool) -> Lent {
        let word = self.words()[0];
        self.written(&[(word & !0xff) | value as u64])
    }
}

/// The patterns of numbers.
pub fn patterns(numbers: &[f64]) -> Vec<u64> {
    numbers.iter().map(|x| x.to_bits()).collect()
}
