//! The outside clips of H.263: every picture within the limit is accepted, and writes and reads back.

use std::fs;
use std::path::PathBuf;

use reference::h263::format::Format;
use reference::h263::reader::{read, read_listed};
use reference::h263::reconstruction::reconstruct;
use reference::h263::refusal::Refusal;
use reference::h263::stream::pictures;
use reference::h263::writer::write_picture;

fn clips() -> Vec<(String, Format, Vec<u8>)> {
    let folder = PathBuf::from(env!("CARGO_MANIFEST_DIR")).join("../clips");
    fs::read_dir(folder)
        .expect("the folder of clips")
        .map(|entry| entry.expect("a clip").path())
        .filter(|path| path.extension().is_some_and(|kind| kind == "h263"))
        .map(|path| {
            let name = path.file_name().unwrap().to_string_lossy().to_string();
            let format = if name.contains("sqcif") {
                Format::SubQcif
            } else if name.contains("qcif") {
                Format::Qcif
            } else {
                Format::Cif
            };
            (name, format, fs::read(path).expect("a clip"))
        })
        .collect()
}

/// What all pictures of a format have together.
#[derive(Default)]
struct Census {
    types: [usize; 5],
    half_components: [usize; 2],
    headers: usize,
    /// GSTUF of 1 to 7 bits, by its width.
    stuffed: [usize; 8],
}

#[test]
fn every_clip_is_accepted() {
    let clips = clips();
    assert!(clips.len() > 30);
    for format in Format::ALL {
        let mut census = Census::default();
        for (name, _, raw) in clips.iter().filter(|clip| clip.1 == format) {
            let found = pictures(raw, format);
            if name.starts_with("above-limit") {
                assert!(found.len() == 1 && found[0].answer == Err(Refusal::plain(2)));
                continue;
            }
            assert!(found.len() >= 5 && found[0].byte == 0, "{name}");
            let mut since_refresh = 12;
            let mut store = vec![128; format.store_length()];
            for picture in found {
                let description = picture.answer.unwrap();
                assert!(description.is_valid(format), "{name}");
                // A refresh at first, and then one of twelve at least.
                since_refresh = if description.is_refresh() {
                    0
                } else {
                    since_refresh + 1
                };
                assert!(since_refresh < 12, "{name}");
                store = reconstruct(&description, &store);
                census.count(&raw[picture.byte..], picture.count, format);
                let bits = write_picture(&description, format).unwrap();
                assert!(bits.count <= picture.count);
                assert_eq!(read(&bits.bytes, bits.count, format), Ok(description));
            }
        }
        assert!(census.types.iter().all(|&count| count > 0), "{format:?}");
        assert!(census.half_components.iter().all(|&count| count > 0));
        let stuffed: usize = census.stuffed.iter().sum();
        assert!(stuffed > 0 && stuffed < census.headers, "{format:?}");
    }
}

impl Census {
    fn count(&mut self, bytes: &[u8], count: usize, format: Format) {
        let reading = read_listed(bytes, count, format);
        let widths: usize = reading.reads.iter().map(|read| read.width).sum();
        assert_eq!(widths, count);
        let description = reading.answer.unwrap();
        for macroblock in &description.macroblocks {
            self.types[usize::from(macroblock.kind)] += 1;
            let vector = macroblock.vector;
            for (halves, component) in [vector.horizontal, vector.vertical].iter().enumerate() {
                self.half_components[halves] += usize::from(component % 2 != 0);
            }
        }
        // No other read than GBSC has 17 bits.
        for (before, read) in reading.reads.iter().zip(&reading.reads[1..]) {
            if read.width == 17 {
                self.headers += 1;
                let is_zeros =
                    (before.place..read.place).all(|place| !reference::bits::bit_of(bytes, place));
                if is_zeros && read.place % 8 == 0 && before.width < 8 {
                    self.stuffed[before.width] += 1;
                }
            }
        }
    }
}
