//! A raw H.261 stream: pictures at their start codes, at any bit, with fill of zeros between.

use crate::bits::{bit_of, Bits};
use crate::description::Description;
use crate::format::Format;
use crate::reader::read;
use crate::refusal::Refusal;

/// A picture of the stream: where its start code begins, and what the reader says.
pub struct StreamPicture {
    pub place: usize,
    pub answer: Result<Description, Refusal>,
}

/// The places of all picture start codes: fifteen zeros, a one, four zeros.
pub fn start_codes(bytes: &[u8]) -> Vec<usize> {
    let mut places = Vec::new();
    let mut window: u32 = u32::MAX;
    for place in 0..8 * bytes.len() {
        window = window << 1 | u32::from(bit_of(bytes, place));
        if window & 0xF_FFFF == 0x0_0010 {
            places.push(place - 19);
        }
    }
    places
}

pub fn pictures(bytes: &[u8], opened: Format) -> Vec<StreamPicture> {
    let places = start_codes(bytes);
    let ends = places.iter().copied().skip(1).chain([8 * bytes.len()]);
    places
        .iter()
        .zip(ends)
        .map(|(&place, end)| StreamPicture {
            place,
            answer: read_filled(&extract(bytes, place, end), opened),
        })
        .collect()
}

fn extract(bytes: &[u8], from: usize, to: usize) -> Bits {
    let mut bits = Bits::default();
    for place in from..to {
        bits.push(bit_of(bytes, place));
    }
    bits
}

/// Zeros at the end may be fill or belong to the picture. They are fill from the place where the reader
/// meets only zeros and refuses them, if the picture is whole without them.
fn read_filled(bits: &Bits, opened: Format) -> Result<Description, Refusal> {
    let after_last_one = (0..bits.count)
        .rev()
        .find(|&place| bit_of(&bits.bytes, place))
        .map_or(0, |place| place + 1);
    // Fill doesn't count towards the limit.
    let count = bits.count.min(opened.bit_limit().max(after_last_one));
    let refusal = match read(&bits.bytes, count, opened) {
        Ok(description) => return Ok(description),
        Err(refusal) => refusal,
    };
    if refusal.has_place() && refusal.place >= after_last_one {
        if let Ok(description) = read(&bits.bytes, refusal.place, opened) {
            return Ok(description);
        }
    }
    Err(refusal)
}

#[cfg(test)]
mod tests {
    use super::*;
    use crate::maker::{self, Style};
    use crate::random::Random;
    use crate::writer::write_picture;

    #[test]
    fn pictures_at_any_bit_with_fill() {
        let mut random = Random::new(21);
        let format = Format::Qcif;
        let mut stream = Bits::default();
        let mut sent = Vec::new();
        for _ in 0..30 {
            // Zeros to run up to any bit, now and then many.
            let most = random.pick(&[1, 9, 200]);
            for _ in 0..random.below(most) {
                stream.push(false);
            }
            let style = random.pick(&[Style::Empty, Style::Sparse, Style::Refresh]);
            let description = maker::description(&mut random, format, style);
            stream.append(&write_picture(&description, format).unwrap());
            sent.push(description);
        }
        let read: Vec<Description> = pictures(&stream.bytes, format)
            .into_iter()
            .map(|picture| picture.answer.unwrap())
            .collect();
        assert!(read == sent);
    }
}
