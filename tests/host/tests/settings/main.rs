//! The settings of a call on a chart: the answers of all eight calls under other ones, each number at its limits, and
//! the two zeros. After a refusal all lent memory is as it was.

mod answers;
mod limits;
mod repeats;
mod zeros;
