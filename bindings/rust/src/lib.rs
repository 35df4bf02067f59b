//! How new each change of colour in a drum chart is, for trainers of players with one hand or a foot switch, and the chart's
//! rhythm groups. The answers come from code that is proved to give them: they are the same in every build, bit for bit.
//!
//! A [`Chart`] borrows four slices. A [`Workspace`] has the memory that the calls work in; it grows as needed and can
//! be used again and again. Every call answers every chart: with its result, or with the first [`Refusal`] that
//! applies. [`Settings`] are the four numbers that may be other ones for another player. What a player is to practise
//! is one stretch of a chart, or a [`Lesson`] of several. A [`RawChart`], of kinds and times as an editor holds them,
//! builds a chart. Of a [`TapChart`], whose deltas are only known to within ranges, as a foot switch gives them, a
//! call tells whether its rhythm groups are sure. A host that lends memory of its own finds the same calls in
//! [`calls`].
//!
//! ```
//! use dresserduck::{Chart, Settings, Workspace, CENTER, RIM};
//!
//! // d kk dd k, an eighth apart
//! let kind = [CENTER, RIM, RIM, CENTER, CENTER, RIM];
//! let start = [0.0, 125.0, 250.0, 375.0, 500.0, 625.0];
//! let chart = Chart::new(&kind, &start, &[125.0; 6], &[1.0; 6]);
//!
//! let mut workspace = Workspace::new();
//! let settings = Settings::default();
//! let encoding = workspace.encode(&chart, settings)?;
//! assert_eq!(encoding.hit_patterns, 3);
//! assert_eq!(encoding.interval, [17, 17, 17, 17, 17, 2]);
//!
//! let stretch = workspace.stretch(&chart, settings, 1..5)?;
//! assert_eq!(stretch.tenths, 14);
//! let lesson = workspace.lesson(&chart, settings, &[0..4, 1..5])?;
//! assert_eq!(lesson.stretches[1], stretch);
//! # Ok::<(), dresserduck::Refusal>(())
//! ```
//!
//! From an editor, played at three quarters of the speed; the first two objects are only what came before:
//!
//! ```
//! use dresserduck::{RawChart, Settings, Workspace};
//!
//! let raw = RawChart::new(&[0, 0, 0, 1, 1], &[0.0, 75.0, 150.0, 225.0, 375.0], 0.75);
//! let built = raw.build()?;
//! assert_eq!(built.delta, [100.0, 100.0, 200.0]);
//! assert_eq!(built.ratio, [1.0, 1.0, 2.0]);
//! let values = Workspace::new().colour(&built.chart(), Settings::default())?;
//! assert_eq!(values.len(), 3);
//! # Ok::<(), dresserduck::Refusal>(())
//! ```

#![warn(missing_docs)]

pub mod calls;
mod chart;
mod pairs;
mod raw_chart;
mod refusal;
mod result;
mod settings;
mod tap_chart;
mod workspace;

pub use chart::{Chart, CENTER, LARGEST_CHART, NON_HIT, RIM};
pub use raw_chart::{BuiltChart, RawChart, LARGEST_RAW_CHART};
pub use refusal::Refusal;
pub use result::{
    Encoding, GroupRecord, Lesson, PairClass, Rhythm, Stretch, Taps, Turns, MOST_PAIRS, NO_GROUP,
    NO_PAIR, NO_TURN,
};
pub use settings::Settings;
pub use tap_chart::TapChart;
pub use workspace::Workspace;
