//! The four numbers that every call on a chart takes.

/// How a call on a chart groups and scores, for the player at hand: for one whose hands shake the default margin is narrow.
///
/// Two charts are compared fairly only under the same settings. Nothing is tested here: a call tells
/// ([`BadSettings`](crate::Refusal::BadSettings)) that a number lies outside its range or is a NaN; a −0.0 is a 0.0.
///
/// ```
/// use dresserduck::{Chart, Refusal, Settings, Workspace};
///
/// // three notes at 100 ms, and one 8 ms later than that
/// let start = [0.0, 100.0, 200.0, 308.0];
/// let chart = Chart::new(&[0; 4], &start, &[100.0, 100.0, 100.0, 108.0], &[1.0; 4]);
/// let mut workspace = Workspace::new();
/// assert_eq!(workspace.rhythm(&chart, Settings::default())?.groups, 2);
///
/// let wide = Settings::default().with_margin(10.0);
/// assert_eq!(workspace.rhythm(&chart, wide)?.groups, 1);
///
/// let refusal = workspace.rhythm(&chart, wide.with_margin(50.5)).unwrap_err();
/// assert_eq!(refusal, Refusal::BadSettings);
/// # Ok::<(), Refusal>(())
/// ```
#[repr(C)]
#[derive(Clone, Copy, Debug, PartialEq)]
pub struct Settings {
    /// how far apart two times may lie and still be near, in milliseconds: from 0.0 to 50.0
    pub margin: f64,
    /// a repetition of a hit pattern is searched less than this far back, and an interval of one more says that there
    /// is none: from 2 to 64
    pub search_limit: u64,
    /// own intervals count as repeated where their quotient is no further from 1: from 0.0 to 1.0
    pub threshold: f64,
    /// an object's ratio counts as that of the object two before it where their quotient is no further from 1: from 0.0
    /// to 1.0
    pub tolerance: f64,
}

impl Settings {
    /// 5 ms, 16, 0.1 and 0.01: the original's.
    pub const DEFAULT: Settings = Settings {
        margin: 5.0,
        search_limit: 16,
        threshold: 0.1,
        tolerance: 0.01,
    };

    /// The same with this margin.
    pub const fn with_margin(self, margin: f64) -> Self {
        Settings { margin, ..self }
    }

    /// The same with this search limit.
    pub const fn with_search_limit(self, search_limit: u64) -> Self {
        Settings {
            search_limit,
            ..self
        }
    }

    /// The same with this threshold.
    pub const fn with_threshold(self, threshold: f64) -> Self {
        Settings { threshold, ..self }
    }

    /// The same with this tolerance.
    pub const fn with_tolerance(self, tolerance: f64) -> Self {
        Settings { tolerance, ..self }
    }
}

impl Default for Settings {
    fn default() -> Self {
        Self::DEFAULT
    }
}
