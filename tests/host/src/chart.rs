//! A chart: four lists, of one length where the chart is a good one.

use std::fmt;

use dresserduck::Settings;

/// A chart's slices as the host lends them.
#[derive(Clone, Default)]
pub struct Chart {
    pub kind: Vec<u8>,
    pub start: Vec<f64>,
    pub delta: Vec<f64>,
    pub ratio: Vec<f64>,
    /// the settings that it is asked under
    pub settings: Settings,
}

const COMMON_DELTA: f64 = 125.0;

fn common_start(object: usize) -> f64 {
    object as f64 * COMMON_DELTA - 1000.0
}

fn common_ratio(object: usize) -> f64 {
    [1.0, 0.5, 2.0][object % 3]
}

fn letter_of(kind: u8) -> String {
    match kind {
        0 => "d".into(),
        1 => "k".into(),
        2 => "n".into(),
        _ => format!("<{kind}>"),
    }
}

fn kind_of(letter: char) -> u8 {
    match letter {
        'd' => 0,
        'k' => 1,
        'n' => 2,
        _ => panic!("{letter:?} is no kind"),
    }
}

impl Chart {
    /// A chart of these kinds with good starts, deltas and ratios.
    pub fn of_kinds(kind: Vec<u8>) -> Self {
        let n = kind.len();
        Chart {
            kind,
            start: (0..n).map(common_start).collect(),
            delta: vec![COMMON_DELTA; n],
            ratio: (0..n).map(common_ratio).collect(),
            settings: Settings::DEFAULT,
        }
    }

    /// The same from letters d, k and n; blanks are left out.
    pub fn of_text(letters: &str) -> Self {
        let shown = letters.chars().filter(|&letter| letter != ' ');
        Self::of_kinds(shown.map(kind_of).collect())
    }

    /// A good chart of n objects that has all three kinds from n = 6 on.
    pub fn of_size(n: usize) -> Self {
        Self::of_kinds((0..n).map(|i| [0, 1, 1, 0, 0, 2, 1][i % 7]).collect())
    }

    /// The same, asked under these settings.
    pub fn under(&self, settings: Settings) -> Self {
        Chart {
            settings,
            ..self.clone()
        }
    }

    /// As the calls take it.
    pub fn lent(&self) -> dresserduck::Chart<'_> {
        dresserduck::Chart::new(&self.kind, &self.start, &self.delta, &self.ratio)
    }

    /// How many objects, counted on the kinds.
    pub fn size(&self) -> usize {
        self.kind.len()
    }

    /// The objects that are notes.
    pub fn notes(&self) -> Vec<usize> {
        (0..self.size()).filter(|&i| self.kind[i] < 2).collect()
    }

    fn is_common(&self, object: usize) -> bool {
        let near = |list: &[f64], common: f64| list.get(object).is_none_or(|&x| x == common);
        near(&self.start, common_start(object))
            && near(&self.delta, COMMON_DELTA)
            && near(&self.ratio, common_ratio(object))
    }
}

/// Bits beside the value, since there are many NaNs.
fn with_bits(x: f64) -> String {
    format!("{x:e} ({:016x})", x.to_bits())
}

fn value_text(list: &[f64], object: usize) -> String {
    list.get(object).map_or("none".into(), |&x| with_bits(x))
}

/// Nothing for the default.
fn settings_text(settings: Settings) -> String {
    if settings == Settings::DEFAULT {
        return String::new();
    }
    let Settings {
        margin,
        search_limit,
        threshold,
        tolerance,
    } = settings;
    let [margin, threshold, tolerance] = [margin, threshold, tolerance].map(with_bits);
    format!(
        ", asked under margin {margin}, search limit {search_limit}, threshold {threshold}, tolerance {tolerance}"
    )
}

/// The lengths, the settings where they are not the default, the kinds as letters, and the first few objects whose start,
/// delta or ratio is not the builder's.
impl fmt::Display for Chart {
    fn fmt(&self, out: &mut fmt::Formatter) -> fmt::Result {
        let rest = [&self.start, &self.delta, &self.ratio];
        let lengths = rest.map(|list| list.len());
        let letters: String = self.kind.iter().map(|&kind| letter_of(kind)).collect();
        write!(
            out,
            "chart of {} kinds and {lengths:?}{}: {letters}",
            self.size(),
            settings_text(self.settings)
        )?;
        let odd = (0..self.size()).filter(|&object| !self.is_common(object));
        for object in odd.take(20) {
            let [start, delta, ratio] = rest.map(|list| value_text(list, object));
            write!(
                out,
                "\n  object {object}: start {start}, delta {delta}, ratio {ratio}"
            )?;
        }
        Ok(())
    }
}
