//! What sender and receiver need of a clip's standard: reading, writing and drawing its pictures.

use crate::bits::Bits;
use crate::description::Description;
use crate::h263;
use crate::kind::{Kind, Standard};
use crate::reads::Read;
use crate::refusal::Refusal;
use crate::{reader, reconstruction, writer};

/// A description in its standard.
#[derive(Clone, PartialEq, Eq, Debug)]
pub enum Picture {
    H261(Description),
    H263(h263::description::Description),
}

impl From<Description> for Picture {
    fn from(description: Description) -> Picture {
        Picture::H261(description)
    }
}

impl From<h263::description::Description> for Picture {
    fn from(description: h263::description::Description) -> Picture {
        Picture::H263(description)
    }
}

/// What comes of a picture's bits, and the reads up to there.
pub struct Reading {
    pub answer: Result<Picture, Refusal>,
    pub reads: Vec<Read>,
}

pub fn read_listed(bytes: &[u8], count: usize, opened: Kind) -> Reading {
    match opened {
        Kind::H261(format) => {
            let reading = reader::read_listed(bytes, count, format);
            Reading {
                answer: reading.answer.map(Picture::H261),
                reads: reading.reads,
            }
        }
        Kind::H263(format) => {
            let reading = h263::reader::read_listed(bytes, count, format);
            Reading {
                answer: reading.answer.map(Picture::H263),
                reads: reading.reads,
            }
        }
    }
}

impl Picture {
    /// Nothing sent; in H.263 of type INTER.
    pub fn empty(kind: Kind) -> Picture {
        match kind {
            Kind::H261(format) => Description::empty(format).into(),
            Kind::H263(format) => h263::description::Description::empty(format).into(),
        }
    }

    /// Refusal 1 unless the slices have the lengths of one of the standard's formats.
    pub fn from_slices(
        standard: Standard,
        (head, macroblocks, levels): (&[u8], &[u8], &[u8]),
    ) -> Result<Picture, Refusal> {
        Ok(match standard {
            Standard::H261 => Description::from_slices(head, macroblocks, levels)?.into(),
            Standard::H263 => {
                h263::description::Description::from_slices(head, macroblocks, levels)?.into()
            }
        })
    }

    /// Head, macroblocks, levels.
    pub fn slices(&self) -> [Vec<u8>; 3] {
        match self {
            Picture::H261(picture) => [
                picture.head(),
                picture.macroblock_bytes(),
                picture.level_bytes(),
            ],
            Picture::H263(picture) => [
                picture.head(),
                picture.macroblock_bytes(),
                picture.level_bytes(),
            ],
        }
    }

    pub fn temporal_reference(&self) -> u8 {
        match self {
            Picture::H261(picture) => picture.temporal_reference,
            Picture::H263(picture) => picture.temporal_reference,
        }
    }

    pub fn set_temporal_reference(&mut self, temporal_reference: u8) {
        match self {
            Picture::H261(picture) => picture.temporal_reference = temporal_reference,
            Picture::H263(picture) => picture.temporal_reference = temporal_reference,
        }
    }

    /// In H.261 every macroblock is sent as INTRA; in H.263 the type is INTRA.
    pub fn is_refresh(&self) -> bool {
        match self {
            Picture::H261(picture) => picture.is_refresh(),
            Picture::H263(picture) => picture.is_refresh(),
        }
    }

    pub fn is_valid(&self, opened: Kind) -> bool {
        match (self, opened) {
            (Picture::H261(picture), Kind::H261(format)) => picture.is_valid(format),
            (Picture::H263(picture), Kind::H263(format)) => picture.is_valid(format),
            _ => false,
        }
    }

    /// 31, 32, or the bits.
    pub fn write(&self, opened: Kind) -> Result<Bits, Refusal> {
        match (self, opened) {
            (Picture::H261(picture), Kind::H261(format)) => writer::write_picture(picture, format),
            (Picture::H263(picture), Kind::H263(format)) => {
                h263::writer::write_picture(picture, format)
            }
            _ => Err(Refusal::plain(31)),
        }
    }

    pub fn reconstruct(&self, reference: &[u8]) -> Vec<u8> {
        match self {
            Picture::H261(picture) => reconstruction::reconstruct(picture, reference),
            Picture::H263(picture) => h263::reconstruction::reconstruct(picture, reference),
        }
    }
}
