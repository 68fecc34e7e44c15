//! Random descriptions over random reference stores.

use reference::check::check;
use reference::format::Format;
use reference::maker::{self, Style};
use reference::random::Random;
use reference::reconstruction::reconstruct;

use super::made::Made;

pub fn make(seed: u64, count: usize) -> Made {
    let mut random = Random::new(seed);
    let mut input = Vec::new();
    let mut expected = String::new();
    for number in 0..count {
        let format = if number % 4 == 3 {
            Format::Cif
        } else {
            Format::Qcif
        };
        let style = Style::any(&mut random);
        let description = maker::unlimited_description(&mut random, format, style);
        let reference = random.bytes(format.store_length());
        input.push(format.number());
        input.extend(description.all_bytes());
        input.extend(&reference);
        let store = reconstruct(&description, &reference);
        expected.push_str(&format!("{}\n", check(&store)));
    }
    Made {
        input,
        expected: expected.into_bytes(),
    }
}
