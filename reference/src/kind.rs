//! What a clip is opened as: one of five (document 02, T-04), H.261 in two sizes or H.263 in three.

use crate::format::Format;
use crate::h263;

#[derive(Clone, Copy, PartialEq, Eq, Debug)]
pub enum Standard {
    H261,
    H263,
}

impl Standard {
    pub fn other(self) -> Standard {
        match self {
            Standard::H261 => Standard::H263,
            Standard::H263 => Standard::H261,
        }
    }
}

/// A picture's size alone, which a vault is listed and shown by.
#[derive(Clone, Copy, PartialEq, Eq, Debug)]
pub enum Size {
    SubQcif,
    Qcif,
    Cif,
}

impl Size {
    pub const ALL: [Size; 3] = [Size::SubQcif, Size::Qcif, Size::Cif];

    pub fn name(self) -> &'static str {
        match self {
            Size::SubQcif => "sqcif",
            Size::Qcif => "qcif",
            Size::Cif => "cif",
        }
    }

    pub fn from_name(name: &str) -> Option<Size> {
        Size::ALL.into_iter().find(|size| size.name() == name)
    }

    /// Of the same width and height; there is one for each.
    pub fn of_h263(self) -> h263::format::Format {
        match self {
            Size::SubQcif => h263::format::Format::SubQcif,
            Size::Qcif => h263::format::Format::Qcif,
            Size::Cif => h263::format::Format::Cif,
        }
    }

    /// Of the same width and height; there is no sub-QCIF of H.261.
    pub fn of_h261(self) -> Option<Format> {
        match self {
            Size::SubQcif => None,
            Size::Qcif => Some(Format::Qcif),
            Size::Cif => Some(Format::Cif),
        }
    }

    /// "Sub-QCIF uses QCIF's limits and buffer lengths": the format that has them.
    fn limits(self) -> Format {
        self.of_h261().unwrap_or(Format::Qcif)
    }

    /// The highest part that a block may name.
    pub fn last_part(self) -> u8 {
        self.limits().last_part()
    }
}

impl From<Format> for Size {
    fn from(format: Format) -> Size {
        match format {
            Format::Qcif => Size::Qcif,
            Format::Cif => Size::Cif,
        }
    }
}

#[derive(Clone, Copy, PartialEq, Eq, Debug)]
pub enum Kind {
    H261(Format),
    H263(h263::format::Format),
}

impl From<Format> for Kind {
    fn from(format: Format) -> Kind {
        Kind::H261(format)
    }
}

impl From<h263::format::Format> for Kind {
    fn from(format: h263::format::Format) -> Kind {
        Kind::H263(format)
    }
}

impl From<Kind> for Size {
    fn from(kind: Kind) -> Size {
        kind.size()
    }
}

impl Kind {
    pub const ALL: [Kind; 5] = [
        Kind::H261(Format::Qcif),
        Kind::H261(Format::Cif),
        Kind::H263(h263::format::Format::SubQcif),
        Kind::H263(h263::format::Format::Qcif),
        Kind::H263(h263::format::Format::Cif),
    ];

    pub fn of(standard: Standard, size: Size) -> Option<Kind> {
        match standard {
            Standard::H261 => size.of_h261().map(Kind::H261),
            Standard::H263 => Some(Kind::H263(size.of_h263())),
        }
    }

    /// As records of the comparison have it.
    pub fn number(self) -> u8 {
        match self {
            Kind::H261(format) => format.number(),
            Kind::H263(format) => format.kind(),
        }
    }

    pub fn from_number(number: u8) -> Option<Kind> {
        Kind::ALL.into_iter().find(|kind| kind.number() == number)
    }

    /// The word for one that is told how to open a clip.
    pub fn name(self) -> &'static str {
        match self {
            Kind::H261(_) => self.size().name(),
            Kind::H263(format) => format.name(),
        }
    }

    pub fn from_name(name: &str) -> Option<Kind> {
        Kind::ALL.into_iter().find(|kind| kind.name() == name)
    }

    pub fn standard(self) -> Standard {
        match self {
            Kind::H261(_) => Standard::H261,
            Kind::H263(_) => Standard::H263,
        }
    }

    pub fn size(self) -> Size {
        match self {
            Kind::H261(format) => format.into(),
            Kind::H263(h263::format::Format::SubQcif) => Size::SubQcif,
            Kind::H263(h263::format::Format::Qcif) => Size::Qcif,
            Kind::H263(h263::format::Format::Cif) => Size::Cif,
        }
    }

    pub fn width(self) -> usize {
        self.size().of_h263().width()
    }

    pub fn height(self) -> usize {
        self.size().of_h263().height()
    }

    pub fn store_length(self) -> usize {
        match self {
            Kind::H261(format) => format.store_length(),
            Kind::H263(format) => format.store_length(),
        }
    }

    pub fn bit_limit(self) -> usize {
        match self {
            Kind::H261(format) => format.bit_limit(),
            Kind::H263(format) => format.bit_limit(),
        }
    }

    pub fn last_part(self) -> u8 {
        self.size().last_part()
    }

    /// The sender's output.
    pub fn sent_length(self) -> usize {
        self.size().limits().sent_length()
    }

    pub fn collection_length(self) -> usize {
        self.size().limits().collection_length()
    }

    /// "TR has 8 bits there, and T-02 then reads 256 for 32."
    pub fn tick_modulus(self) -> u32 {
        match self.standard() {
            Standard::H261 => 32,
            Standard::H263 => 256,
        }
    }
}

#[cfg(test)]
mod tests {
    use super::*;

    #[test]
    fn lengths_as_the_documents_have_them() {
        let of = |kind: Kind| {
            (
                kind.store_length(),
                kind.bit_limit(),
                kind.last_part(),
                kind.collection_length(),
                kind.sent_length(),
            )
        };
        let [qcif, cif, sub, other_qcif, other_cif] = Kind::ALL;
        assert_eq!(of(qcif), (38_016, 65_536, 16, 8_500, 8_704));
        assert_eq!(of(cif), (152_064, 262_144, 65, 33_000, 33_792));
        assert_eq!(of(sub), (18_432, 65_536, 16, 8_500, 8_704));
        assert_eq!(of(other_qcif), of(qcif));
        assert_eq!(of(other_cif), of(cif));
        assert_eq!((sub.width(), sub.height()), (128, 96));
    }

    #[test]
    fn words_and_numbers_name_one_kind_each() {
        for (number, kind) in (0u8..).zip(Kind::ALL) {
            assert_eq!(kind.number(), number);
            assert_eq!(Kind::from_number(number), Some(kind));
            assert_eq!(Kind::from_name(kind.name()), Some(kind));
            assert_eq!(Kind::of(kind.standard(), kind.size()), Some(kind));
        }
        assert_eq!(Kind::from_number(5), None);
        assert_eq!(Kind::from_name("sqcif"), None);
        assert_eq!(Kind::of(Standard::H261, Size::SubQcif), None);
    }
}
