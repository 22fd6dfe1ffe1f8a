//! A second implementation of the path ordering examiner: reading a sheet, comparing ground terms, solving both
//! directions of each equation, judging values, running terms, listing a sheet.

pub mod calls;
pub mod generate;
pub mod ground;
pub mod limits;
pub mod listing;
pub mod nodes;
pub mod random;
pub mod rewrite;
pub mod sheet;
pub mod special;
pub mod timing;
pub mod walk;

pub use calls::{always, check, compare, judge, run, solve};
pub use listing::listing;
