//! What the benchmark and the tests of the product beside the second implementation share.

pub mod both;
pub mod calls;
pub mod lent;
pub mod memoised;
pub mod program;
pub mod runs;
