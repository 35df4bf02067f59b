//! Reads the stored answers: a line a case, floats as their bits, `:`, the answer. Lines that begin with # are no cases.

/// The floats of a text of words of 16 digits each.
pub fn floats(words: &str) -> Vec<f64> {
    let float = |word: &str| {
        assert_eq!(word.len(), 16, "{word:?} is no f64");
        let bits = u64::from_str_radix(word, 16);
        f64::from_bits(bits.unwrap_or_else(|error| panic!("{word:?}: {error}")))
    };
    words.split_whitespace().map(float).collect()
}

/// The values of each case, and its answer's text.
pub fn cases(text: &str) -> impl Iterator<Item = (Vec<f64>, &str)> {
    let lines = text.lines().filter(|line| !line.starts_with('#'));
    lines.map(|line| {
        let parts = line.split_once(':');
        let (values, answer) = parts.unwrap_or_else(|| panic!("{line:?} has no colon"));
        (floats(values), answer)
    })
}
