//! A chart put to the library and to the original.

pub mod answers;
pub mod built;
pub mod lesson_times;
pub mod lessons;
pub mod original;
pub mod timing;
