//! Document 01 read plainly, apart from the library: cases, answers and a generator of cases.
pub mod answer;
pub mod batch;
pub mod calls;
pub mod case;
pub mod engines;
pub mod generate;
pub mod lists;
pub mod named;
pub mod number;
pub mod random;
pub mod rows;
pub mod sheet;
pub mod short;
