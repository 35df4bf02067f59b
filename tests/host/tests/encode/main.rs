//! encode on good charts: the scope's examples written out, and a plain encoder compared at scale.

mod examples;
mod intervals;
mod scale;
