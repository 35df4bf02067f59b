//! The memory that a call is lent. Every place holds a sentinel, and so do guard places before and after every slice.

use crate::plain::Answers;

/// What a lent slice holds.
pub trait Element: Copy {
    /// No answer and no zero; other ones beside it and in the same place of another slice.
    fn sentinel(slice: usize, place: usize) -> Self;

    /// Floats are compared by their bits.
    fn bits(self) -> u64;
}

// An interval is below 66, a class below 4, or 255 for none.
impl Element for u8 {
    fn sentinel(slice: usize, place: usize) -> Self {
        0x80 | ((place * 5 + slice) % 0x7F) as u8
    }

    fn bits(self) -> u64 {
        u64::from(self)
    }
}

// A number is below 2^14, or 65,535 for none.
impl Element for u16 {
    fn sentinel(slice: usize, place: usize) -> Self {
        0x8000 | ((place * 7 + slice * 4099) % 0x7FFF) as u16
    }

    fn bits(self) -> u64 {
        u64::from(self)
    }
}

// Far below any tenths.
impl Element for i64 {
    fn sentinel(slice: usize, place: usize) -> Self {
        i64::MIN | (slice << 32 | place) as i64
    }

    fn bits(self) -> u64 {
        self as u64
    }
}

// NaNs with different payloads.
impl Element for f64 {
    fn sentinel(slice: usize, place: usize) -> Self {
        f64::from_bits(!((slice << 32 | place) as u64))
    }

    fn bits(self) -> u64 {
        self.to_bits()
    }
}

// Odd, so that no slice is aligned better than its element needs.
const GUARD: usize = 3;

/// One slice with its guards.
#[derive(Clone)]
pub struct Room<T> {
    places: Vec<T>,
    before: usize,
    count: usize,
}

impl<T: Element> Room<T> {
    /// The slice of this number in its call, of this count. What it lacks of `needed` follows it as guard, so that a call
    /// that writes there is found out and breaks nothing.
    pub fn new(slice: usize, count: usize, needed: usize) -> Self {
        let places = GUARD + count.max(needed) + GUARD;
        Room {
            places: (0..places).map(|at| T::sentinel(slice, at)).collect(),
            before: GUARD,
            count,
        }
    }

    /// An empty slice that points at no memory.
    pub fn dangling() -> Self {
        Room {
            places: Vec::new(),
            before: 0,
            count: 0,
        }
    }

    /// What the lent places hold.
    pub fn lent(&self) -> &[T] {
        &self.places[self.before..][..self.count]
    }

    /// The slice to lend.
    pub fn lend(&mut self) -> &mut [T] {
        &mut self.places[self.before..][..self.count]
    }

    /// Does what a call does that fills the first places.
    pub fn put(&mut self, values: &[T]) {
        self.lend()[..values.len()].copy_from_slice(values);
    }

    /// What every place holds, guards too.
    pub fn bits(&self) -> Vec<u64> {
        self.places.iter().map(|x| x.bits()).collect()
    }

    /// The first place that is not as in `want`; in a guard it is negative or not below the count.
    fn difference(&self, want: &Self) -> Option<String> {
        let (got, want) = (self.bits(), want.bits());
        assert_eq!(got.len(), want.len(), "rooms of two sizes");
        let at = (0..got.len()).find(|&i| got[i] != want[i])?;
        let place = at as i64 - self.before as i64;
        Some(format!("[{place}] is {:#x}, not {:#x}", got[at], want[at]))
    }
}

/// The two slices that every call works in.
#[derive(Clone)]
pub struct Work {
    pub work: Room<u16>,
    pub scratch: Room<f64>,
}

// Their numbers among a call's slices: after the six of encode.
const WORK: usize = 6;
const SCRATCH: usize = 7;

impl Work {
    /// Slices of these counts, with guards for what they lack for n objects.
    pub fn new([work, scratch]: [usize; 2], n: usize) -> Self {
        Work {
            work: Room::new(WORK, work, 8 * n),
            scratch: Room::new(SCRATCH, scratch, n),
        }
    }

    /// Two empty slices that point at no memory.
    pub fn dangling() -> Self {
        Work {
            work: Room::dangling(),
            scratch: Room::dangling(),
        }
    }

    /// Does what an accepting call on n objects does.
    pub fn clear(&mut self, n: usize) {
        self.work.put(&vec![0; 8 * n]);
        self.scratch.put(&vec![0.0; n]);
    }

    pub fn bits(&self) -> [Vec<u64>; 2] {
        [self.work.bits(), self.scratch.bits()]
    }
}

/// The counts of the four slices of a call that gives an object two answers: these, work, scratch.
pub type FourSizes = [usize; 4];

/// The fewest places for n objects.
pub fn exact_four(n: usize) -> FourSizes {
    [n, n, 8 * n, n]
}

/// Some more.
pub fn roomy_four(n: usize) -> FourSizes {
    [n + 3, n + 1, 8 * n + 5, n + 2]
}

/// The four slices, where both answers are numbers; record is lent the last two.
#[derive(Clone)]
pub struct TwoNumbers {
    pub numbers: [Room<u16>; 2],
    pub working: Work,
}

impl TwoNumbers {
    /// Slices of these counts, with guards for what they lack for n objects.
    pub fn of_sizes([first, second, work, scratch]: FourSizes, n: usize) -> Self {
        TwoNumbers {
            numbers: [Room::new(0, first, n), Room::new(1, second, n)],
            working: Work::new([work, scratch], n),
        }
    }

    /// Four empty slices that point at no memory.
    pub fn dangling() -> Self {
        TwoNumbers {
            numbers: [(); 2].map(|()| Room::dangling()),
            working: Work::dangling(),
        }
    }

    /// What every place holds.
    pub fn bits(&self) -> [Vec<u64>; 4] {
        let [first, second] = self.numbers.each_ref().map(|room| room.bits());
        let [work, scratch] = self.working.bits();
        [first, second, work, scratch]
    }

    /// The memory after an accepted call on n objects that fills no answers.
    pub fn cleared(&self, n: usize) -> Self {
        let mut after = self.clone();
        after.working.clear(n);
        after
    }

    /// The memory after an accepted call that fills these.
    pub fn filled(&self, answers: &[Vec<u16>; 2]) -> Self {
        let mut after = self.cleared(answers[0].len());
        for (room, values) in after.numbers.iter_mut().zip(answers) {
            room.put(values);
        }
        after
    }
}

/// The counts of the eight slices that encode is lent, in the order in which it takes them.
pub type Sizes = [usize; 8];

/// Their names.
pub const SLICES: [&str; 8] = [
    "streak",
    "streak_place",
    "pattern",
    "pattern_place",
    "hit",
    "interval",
    "work",
    "scratch",
];

/// The fewest places for n objects.
pub fn exact_sizes(n: usize) -> Sizes {
    [n, n, n, n, n, n, 8 * n, n]
}

/// All eight slices.
#[derive(Clone)]
pub struct Lent {
    pub numbers: [Room<u16>; 5],
    pub interval: Room<u8>,
    pub working: Work,
}

impl Lent {
    /// Slices of these counts, with guards for what they lack for n objects.
    pub fn new(sizes: Sizes, n: usize) -> Self {
        Lent {
            numbers: [0, 1, 2, 3, 4].map(|slice| Room::new(slice, sizes[slice], n)),
            interval: Room::new(5, sizes[5], n),
            working: Work::new([sizes[WORK], sizes[SCRATCH]], n),
        }
    }

    /// Eight empty slices that point at no memory.
    pub fn dangling() -> Self {
        Lent {
            numbers: [(); 5].map(|()| Room::dangling()),
            interval: Room::dangling(),
            working: Work::dangling(),
        }
    }

    /// Does what an accepting call does: answers in the first n places, and the work slices cleared.
    pub fn fill(&mut self, answers: &Answers) {
        let n = answers.interval.len();
        for (room, values) in self.numbers.iter_mut().zip(&answers.numbers) {
            assert_eq!(values.len(), n, "answers of two lengths");
            room.put(values);
        }
        self.interval.put(&answers.interval);
        self.working.clear(n);
    }

    /// The first place of each slice that is not as in `want`; none if all are.
    pub fn differences(&self, want: &Lent) -> Vec<String> {
        let numbers = self.numbers.iter().zip(&want.numbers);
        let mut found: Vec<Option<String>> = numbers.map(|(a, b)| a.difference(b)).collect();
        let (ours, theirs) = (&self.working, &want.working);
        found.push(self.interval.difference(&want.interval));
        found.push(ours.work.difference(&theirs.work));
        found.push(ours.scratch.difference(&theirs.scratch));
        let named = SLICES.iter().zip(found);
        named
            .filter_map(|(name, at)| Some(format!("{name}{}", at?)))
            .collect()
    }
}
