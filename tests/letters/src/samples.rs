//! The texts that the tests try: every one of a length, and those drawn from a seed.

use std::iter::{repeat_n, successors};

use crate::plain::{open_brackets, MOST_BRACKETS};
pub use crate::xorshift::Xorshift;

/// The bytes of the grammar, and one that it doesn't have.
pub const BYTES: &[u8] = b"dkn~()0123456789x";

/// Every text of that many of the bytes.
pub fn every(length: usize) -> impl Iterator<Item = Vec<u8>> {
    let text = move |number: usize| {
        let rests = successors(Some(number), |rest| Some(rest / BYTES.len()));
        let bytes = rests.map(|rest| BYTES[rest % BYTES.len()]);
        bytes.take(length).collect()
    };
    (0..BYTES.len().pow(length as u32)).map(text)
}

/// Writes texts of the grammar. Once in so many an item is a bracket, has a count, or has one more tilde.
struct Writer<'a> {
    random: &'a mut Xorshift,
    bracket: usize,
    count: usize,
    tilde: usize,
    text: Vec<u8>,
}

impl Writer<'_> {
    /// A sequence of so many objects, with brackets at most so deep.
    fn sequence(&mut self, objects: usize, depth: usize) {
        let mut left = objects;
        while left > 0 {
            left -= self.item(left, depth);
        }
    }

    /// An item of at most so many objects; the answer is how many it has.
    fn item(&mut self, most: usize, depth: usize) -> usize {
        while self.random.once_in(self.tilde) {
            self.text.push(b'~');
        }
        let count = match most > 1 && self.random.once_in(self.count) {
            true => self.random.between(2, most.min(99)),
            false => 1,
        };
        let mut objects = 1;
        if depth > 0 && self.random.once_in(self.bracket) {
            objects = self.random.between(1, most / count);
            self.text.push(b'(');
            self.sequence(objects, depth - 1);
            self.text.push(b')');
        } else {
            self.text.push(self.random.pick(b"dkn"));
        }
        if count > 1 {
            self.text.extend(count.to_string().bytes());
        }
        objects * count
    }
}

/// A sequence of so many objects, with brackets at most 5 deep.
fn sequence(random: &mut Xorshift, objects: usize) -> Vec<u8> {
    let mut writer = Writer {
        bracket: random.pick(&[2, 3, 10]),
        // with few counts a text is long, and the plain reader slow
        count: match random.once_in(100) {
            true => 20,
            false => random.pick(&[1, 1, 2, 2, 3]),
        },
        tilde: random.pick(&[2, 5, 50]),
        text: Vec::new(),
        random,
    };
    writer.sequence(objects, 5);
    writer.text
}

/// The text with brackets around a letter, so many that the letter stands `depth` deep.
fn deepened(random: &mut Xorshift, mut text: Vec<u8>, depth: usize) -> Vec<u8> {
    let is_letter = |&place: &usize| b"dkn".contains(&text[place]);
    let letters: Vec<usize> = (0..text.len()).filter(is_letter).collect();
    let place = random.pick(&letters);
    let more = depth - open_brackets(&text[..place]);
    let bracketed = [&b"(".repeat(more), &text[place..=place], &b")".repeat(more)].concat();
    text.splice(place..=place, bracketed);
    text
}

/// A text of the grammar, most often of about as many objects, and now and then about as deep, as may be.
pub fn drawn(random: &mut Xorshift) -> Vec<u8> {
    let objects = match random.below(4) {
        0 => random.between(1, 40),
        1 => random.between(1_022, 1_027),
        2 => random.between(900, 1_200),
        _ => random.between(1_025, 10_000),
    };
    let text = sequence(random, objects);
    let depth = random.between(MOST_BRACKETS - 1, MOST_BRACKETS + 1);
    match random.once_in(3) {
        true => deepened(random, text, depth),
        false => text,
    }
}

/// The text with a byte changed, left out or put in, or cut short.
pub fn altered(random: &mut Xorshift, text: &[u8]) -> Vec<u8> {
    let mut text = text.to_vec();
    let place = random.below(text.len());
    let byte = random.pick(BYTES);
    match random.below(4) {
        0 => text[place] = byte,
        1 => text.truncate(place),
        2 => text.insert(place, byte),
        _ => drop(text.remove(place)),
    }
    text
}

/// The text with tildes before some of its primaries, so many that it has `size` bytes.
pub fn stretched(random: &mut Xorshift, text: &[u8], size: usize) -> Vec<u8> {
    let mut text = text.to_vec();
    while text.len() < size {
        let place = random.below(text.len());
        if b"dkn(".contains(&text[place]) {
            let tildes = random.between(1, size - text.len());
            text.splice(place..place, repeat_n(b'~', tildes));
        }
    }
    text
}
