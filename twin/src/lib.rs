//! A second bench for duty tables.
//!
//! It was written from the documentation alone and shares no line with the
//! product. It is there to be compared with it: what both programs make of
//! the same sheet and the same letters has to be the same, to the byte.
//!
//! Reading order: [`periods`], [`table`], [`sheet`], [`verdict`], [`ready`],
//! [`bench`], [`log`], [`program`]. [`calls`] has the three calls that the
//! product exports, [`product`] the product's own; [`draft`] makes sheets for
//! tests and comparisons.

pub mod bench;
pub mod calls;
pub mod draft;
pub mod log;
pub mod periods;
pub mod product;
pub mod program;
pub mod ready;
pub mod sheet;
pub mod table;
pub mod verdict;
