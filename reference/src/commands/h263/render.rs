//! Random H.263 descriptions over random reference stores.

use reference::check::check;
use reference::h263::format::Format;
use reference::h263::maker::{self, Style};
use reference::h263::reconstruction::reconstruct;
use reference::random::Random;

use super::super::made::Made;

pub fn make(seed: u64, count: usize) -> Made {
    let mut random = Random::new(seed);
    let mut input = Vec::new();
    let mut expected = String::new();
    for number in 0..count {
        let format = Format::ALL[number % 3];
        let style = Style::any(&mut random);
        let description = maker::unlimited_description(&mut random, format, style);
        let reference = random.bytes(format.store_length());
        input.push(format.kind());
        input.extend(description.all_bytes());
        input.extend(&reference);
        let store = reconstruct(&description, &reference);
        expected.push_str(&format!("{}\n", check(&store)));
    }
    Made {
        input,
        expected: expected.into_bytes(),
    }
}
