//! Raw H.263 streams: their samples, the comparison with another decoder, and streams to compare by.

use reference::h263::description::{Description, INTER_Q};
use reference::h263::format::Format;
use reference::h263::maker;
use reference::h263::reconstruction::reconstruct;
use reference::h263::stream::pictures;

use super::super::made::File;
use super::super::streams::Difference;

/// The samples of every accepted picture, each over the one before; a grey store stands first.
pub fn decode(format: Format, raw: &[u8]) -> Vec<u8> {
    let mut store = vec![128; format.store_length()];
    let mut output = Vec::new();
    for picture in pictures(raw, format) {
        match picture.answer {
            Ok(description) => {
                store = reconstruct(&description, &store);
                output.extend(&store);
            }
            Err(refusal) => eprintln!("byte {}: {refusal}", picture.byte),
        }
    }
    output
}

/// What a stream's pictures have, so that a comparison says what it has seen.
#[derive(Default)]
struct Census {
    types: [usize; INTER_Q as usize + 1],
    headers: usize,
    half_vectors: usize,
}

impl Census {
    fn count(&mut self, description: &Description) {
        for macroblock in &description.macroblocks {
            self.types[usize::from(macroblock.kind)] += 1;
            let vector = macroblock.vector;
            let halves = vector.horizontal % 2 != 0 || vector.vertical % 2 != 0;
            self.half_vectors += usize::from(halves);
        }
        let stands = |quantiser: &&u8| **quantiser != 0;
        self.headers += description.group_quantisers.iter().filter(stands).count();
    }
}

/// Another decoder's samples against ours: each picture over the other decoder's own last picture, so
/// that roundings don't add up, and over our own, where they do.
pub fn compare(format: Format, raw: &[u8], theirs: &[u8]) -> Result<String, String> {
    let length = format.store_length();
    let read = pictures(raw, format);
    if theirs.len() != length * read.len() {
        return Err(format!(
            "{} pictures in the stream, {} among the samples",
            read.len(),
            theirs.len() as f64 / length as f64
        ));
    }
    let (mut largest, mut differing, mut drift) = (0, 0, 0);
    let mut census = Census::default();
    let grey = vec![128; length];
    let mut own = grey.clone();
    let mut last = &grey[..];
    for (picture, samples) in read.iter().zip(theirs.chunks(length)) {
        let description = picture
            .answer
            .as_ref()
            .map_err(|refusal| format!("byte {}: {refusal}", picture.byte))?;
        census.count(description);
        let one = Difference::between(&reconstruct(description, last), samples);
        largest = largest.max(one.largest);
        differing += one.differing;
        own = reconstruct(description, &own);
        drift = drift.max(Difference::between(&own, samples).largest);
        last = samples;
    }
    Ok(format!(
        "{} pictures accepted; over the other's last picture: largest difference {largest}, {:.4} % of samples differ; over our own: largest {drift}; macroblocks of types 0 to 4: {:?}, {} with half samples; {} group headers\n",
        read.len(),
        100.0 * differing as f64 / theirs.len() as f64,
        census.types,
        census.half_vectors,
        census.headers,
    ))
}

/// stream-FORMAT-MANNER-N.h263, each `tame` or `flat`.
pub fn files(seed: u64, count: usize) -> Vec<File> {
    let streams = maker::streams(seed, count).into_iter().enumerate();
    streams
        .map(|(number, stream)| {
            let format = stream.format.name();
            let manner = if stream.is_flat { "flat" } else { "tame" };
            let name = format!("stream-{format}-{manner}-{number}.h263");
            (name, stream.bits.bytes)
        })
        .collect()
}
