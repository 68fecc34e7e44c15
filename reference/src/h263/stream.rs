//! A raw H.263 stream: pictures at bytes, at their start codes, with fill and end codes between.

use crate::bits::{bit_of, digits, Bits};

use super::description::Description;
use super::format::Format;
use super::reader::{read, PICTURE_START_CODE};
use super::refusal::Refusal;

pub const END_OF_SEQUENCE: &str = "0000 0000 0000 0000 1 11111";

/// A picture of the stream: the byte where it begins, how many bits it has, and what the reader says.
pub struct StreamPicture {
    pub byte: usize,
    pub count: usize,
    pub answer: Result<Description, Refusal>,
}

/// The bytes at which a code begins: "all picture start codes shall and GOB and EOS start codes may be byte
/// aligned".
fn bytes_with(code: &str, bytes: &[u8]) -> Vec<usize> {
    let code = digits(code);
    let stands = |at: usize| {
        let mut places = 8 * at..8 * at + code.len();
        8 * bytes.len() >= places.end
            && places.all(|place| bit_of(bytes, place) == code[place - 8 * at])
    };
    (0..bytes.len()).filter(|&at| stands(at)).collect()
}

/// "Pictures begin at bytes, at their PSC, and end before the next PSC or end code": one that stands at a
/// byte here, and one at any bit right after the last macroblock in `read_stretch`. What stands between an end
/// code and the next PSC is nobody's.
pub fn pictures(bytes: &[u8], opened: Format) -> Vec<StreamPicture> {
    let starts = bytes_with(PICTURE_START_CODE, bytes);
    let ends = bytes_with(END_OF_SEQUENCE, bytes);
    let end_of = |start: usize| {
        let codes = starts.iter().chain(&ends).copied();
        let after = codes.filter(|&code| code > start).min();
        after.unwrap_or(bytes.len())
    };
    starts
        .iter()
        .map(|&start| read_stretch(&bytes[start..end_of(start)], start, opened))
        .collect()
}

/// A picture and what stands between it and the next code. The place of 13 says where it ends; what is dropped
/// after it doesn't count towards the limit.
fn read_stretch(stretch: &[u8], byte: usize, opened: Format) -> StreamPicture {
    let all = 8 * stretch.len();
    let seen = all.min(opened.bit_limit());
    let end = match read(stretch, seen, opened) {
        Ok(_) => Some(seen),
        Err(Refusal {
            number: 13, place, ..
        }) => Some(place),
        Err(_) => None,
    };
    let count = end.filter(|&end| is_dropped(stretch, end)).unwrap_or(all);
    StreamPicture {
        byte,
        count,
        answer: read(stretch, count, opened),
    }
}

/// Whether what stands from this place on is fill, or after fill an end code and whatever.
fn is_dropped(stretch: &[u8], from: usize) -> bool {
    let row = |from: usize, to: usize| -> Vec<bool> {
        (from..to).map(|place| bit_of(stretch, place)).collect()
    };
    let rest = row(from, 8 * stretch.len());
    let is_fill = |bits: &[bool]| bits.len() < 8 && bits.iter().all(|&bit| !bit);
    let code = digits(END_OF_SEQUENCE);
    is_fill(&rest)
        || (0..8).any(|fill| {
            let begun = rest.get(..fill).is_some_and(is_fill);
            begun && rest[fill..].starts_with(&code)
        })
}

/// A picture followed by fill to the byte's end.
pub fn append(stream: &mut Bits, picture: &Bits) {
    stream.append(picture);
    stream.fill();
}

#[cfg(test)]
mod tests {
    use super::*;
    use crate::h263::maker::{self, Style};
    use crate::h263::writer::write_picture;
    use crate::random::Random;

    #[test]
    fn pictures_with_fill_and_end_codes() {
        let mut random = Random::new(21);
        for format in Format::ALL {
            let mut stream = Bits::default();
            let mut sent = Vec::new();
            for number in 0..24 {
                let style = random.pick(&[Style::Empty, Style::Sparse, Style::Refresh]);
                let description = maker::description(&mut random, format, style);
                let mut bits = write_picture(&description, format).unwrap();
                sent.push((bits.count, description));
                if number % 3 == 0 {
                    // An end code right after the picture or, with ESTUF, from a byte on; now and then
                    // something after it.
                    if number % 2 == 0 {
                        bits.fill();
                    }
                    bits.word(END_OF_SEQUENCE);
                    if number % 4 == 0 {
                        bits.word("1010 1010 1010 1010");
                    }
                }
                append(&mut stream, &bits);
            }
            let read: Vec<_> = pictures(&stream.bytes, format)
                .into_iter()
                .map(|picture| (picture.count, picture.answer.unwrap()))
                .collect();
            assert!(read == sent);
        }
    }

    /// Up to seven zeros are no part of a picture, an eighth is 13; a picture that is cut by a code is 3.
    #[test]
    fn more_zeros_and_cut_pictures() {
        let format = Format::SubQcif;
        let description = Description::empty(format);
        let picture = write_picture(&description, format).unwrap();
        // 98 bits; with 6 zeros they end at a byte.
        assert_eq!(picture.count, 98);
        for (zeros, code, answer) in [
            (6, "", Ok(description.clone())),
            (14, "", Err(Refusal::at(13, 98))),
            (6, END_OF_SEQUENCE, Ok(description.clone())),
            (14, END_OF_SEQUENCE, Err(Refusal::at(13, 98))),
            (5, END_OF_SEQUENCE, Ok(description.clone())),
            (7, END_OF_SEQUENCE, Ok(description.clone())),
        ] {
            let mut stream = picture.clone();
            stream.word(&"0".repeat(zeros));
            stream.word(code);
            let found = pictures(&stream.bytes, format);
            assert_eq!((found.len(), &found[0].answer), (1, &answer), "{zeros}");
        }
        let mut stream = picture.cut(64);
        stream.word(END_OF_SEQUENCE);
        let found = pictures(&stream.bytes, format);
        assert_eq!(found[0].answer, Err(Refusal::at(3, 64)));
        let mut stream = picture.cut(64);
        stream.append(&picture);
        let found = pictures(&stream.bytes, format);
        assert_eq!((found.len(), found[1].byte, found[1].count), (2, 8, 98));
        assert_eq!(found[0].answer, Err(Refusal::at(3, 64)));
        assert_eq!(found[1].answer, Ok(description));
    }
}
