//! An independent implementation of Pagesorrel, from its documents and the two Recommendations alone:
//! readers, reconstruction, writers, blocks, sender, receiver and lister of H.261 and H.263, and a maker of
//! test inputs.

pub mod annex_a;
pub mod bits;
pub mod block;
pub mod check;
pub mod clips;
pub mod codewords;
pub mod coding;
pub mod description;
pub mod edges;
pub mod format;
pub mod h263;
pub mod kind;
pub mod line;
pub mod lister;
pub mod maker;
pub mod random;
pub mod reader;
pub mod reads;
pub mod receiver;
pub mod reconstruction;
pub mod refusal;
pub mod salvage;
pub mod sender;
pub mod stores;
pub mod stream;
pub mod tables;
pub mod ticks;
pub mod transform;
pub mod writer;
