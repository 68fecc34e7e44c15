//! H.263 baseline, from document 004 and T-04 of document 02 alone: reading, reconstruction and writing of
//! sub-QCIF, QCIF and CIF pictures, and a maker of test inputs. Dequantiser, transform and cuts are H.261's.

pub mod description;
pub mod edges;
pub mod format;
pub mod maker;
pub mod reader;
pub mod reads;
pub mod reconstruction;
pub mod stream;
pub mod tables;
pub mod vectors;
pub mod words;
pub mod writer;

pub use crate::refusal;
