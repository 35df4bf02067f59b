//! Which refusal goes first: inputs that refusals are made to apply to, alone, in pairs and all together.

/// An input of a call, and the memory that it is lent.
pub trait Input: Sized {
    /// The call's refusals, in the order in which they are tested.
    const ORDER: &'static [u64];

    /// Nothing wrong, or too many objects.
    fn new(too_many: bool) -> Self;

    /// In how many ways `spoil` makes the refusal apply.
    fn ways(refusal: u64) -> usize;

    /// Makes a refusal apply; the later ones of the order first, where one input gets several.
    fn spoil(&mut self, refusal: u64, way: usize);

    /// The call refuses it with this number, at the object that is spoiled.
    fn refused(&self, refusal: u64);
}

/// What `spoil` does is enough for the refusal by itself.
pub fn each_alone<I: Input>() {
    for &refusal in I::ORDER {
        for way in 0..I::ways(refusal) {
            let mut input = I::new(refusal == 1);
            input.spoil(refusal, way);
            input.refused(refusal);
        }
    }
}

/// How many pairs there are; in every way the first of the two is told.
pub fn every_pair<I: Input>() -> usize {
    let mut pairs = 0;
    for (at, &first) in I::ORDER.iter().enumerate() {
        for &second in &I::ORDER[at + 1..] {
            for way in 0..I::ways(first) * I::ways(second) {
                let mut input = I::new(first == 1);
                input.spoil(second, way / I::ways(first));
                input.spoil(first, way % I::ways(first));
                input.refused(first);
            }
            pairs += 1;
        }
    }
    pairs
}

/// All refusals from one on apply.
pub fn first_of_many<I: Input>() {
    for (at, &first) in I::ORDER.iter().enumerate() {
        let mut input = I::new(first == 1);
        let later = I::ORDER[at..].iter().rev();
        later.for_each(|&refusal| input.spoil(refusal, 0));
        input.refused(first);
    }
}

/// Two of these refusals, in two of nine objects: the earlier one and its object, and the later ones.
pub fn of_two_objects(refusals: &[u64]) -> Vec<[(u64, usize); 2]> {
    let mut all = Vec::new();
    for &first in refusals {
        for &second in refusals {
            for (early, late) in [(0, 1), (0, 8), (3, 5), (7, 8)] {
                all.push([(first, early), (second, late)]);
            }
        }
    }
    all
}
