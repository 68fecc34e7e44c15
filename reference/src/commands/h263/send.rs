//! Sessions of a sender of H.263, and of one that is lent slices of the other standard.

use reference::block::PICTURES;
use reference::clips;
use reference::description::Description as Description261;
use reference::format::Format as Format261;
use reference::h263::description::Description;
use reference::h263::format::Format;
use reference::h263::maker::{self, Style};
use reference::random::Random;

use super::super::made::Made;
use super::super::send::{in_turn, session, Call};
use super::super::Slices;
use super::slices_of;
use super::write::{near_limit, spoil};

pub fn make(seed: u64, count: usize) -> Made {
    let mut random = Random::new(seed);
    let mut made = Made::default();
    for format in Format::ALL {
        session(&mut made, format.into(), 0, 0, &[]);
        // Past 65,535, to the last one, and from a state past it.
        let calls = many_pictures(&mut random, format, 2);
        session(&mut made, format.into(), 7, 65_534, &calls);
        session(&mut made, format.into(), 7, PICTURES - 3, &calls);
        session(&mut made, format.into(), 7, PICTURES, &calls);
    }
    // All of 4,100 pictures.
    let calls = many_pictures(&mut random, Format::SubQcif, 4_099);
    session(&mut made, Format::SubQcif.into(), 65_535, 0, &calls);
    for format in Format261::ALL {
        let of_h263 = Description::empty(Format::Qcif);
        let calls = [Call::once(slices_of(&of_h263))];
        session(&mut made, format.into(), 7, 1, &calls);
    }
    for number in 0..count {
        let format = match number % 4 {
            3 => Format::Cif,
            0 => Format::Qcif,
            _ => Format::SubQcif,
        };
        let clip = random.between(1, 65_535) as u16;
        let calls = random_calls(&mut random, format);
        let next = clips::first_number(&mut random, calls.len());
        session(&mut made, format.into(), clip, next, &calls);
    }
    made
}

/// A refresh, and then pictures in which nothing is sent; an invalid one has an unsent macroblock in type
/// INTRA.
fn many_pictures(random: &mut Random, format: Format, times: usize) -> Vec<Call> {
    let refresh = maker::description(random, format, Style::Refresh);
    let empty = Description::empty(format);
    let mut invalid = empty.clone();
    invalid.picture_type = refresh.picture_type;
    let [refresh, empty, invalid] = [&refresh, &empty, &invalid].map(slices_of);
    in_turn(refresh, empty, invalid, times)
}

fn random_calls(random: &mut Random, format: Format) -> Vec<Call> {
    let mut calls = Vec::new();
    let mut started = false;
    for _ in 0..random.between(3, 9) {
        let style = if !started && !random.chance(3) {
            random.pick(&[Style::Refresh, Style::DenseRefresh])
        } else {
            Style::any(random)
        };
        let mut description = maker::description(random, format, style);
        started |= description.is_refresh();
        let mut slices = None;
        match random.below(9) {
            0 => spoil(random, &mut description),
            1 => description = near_limit(random, format),
            2 => description = Description::empty(random.pick(&Format::ALL)),
            3 => {
                let other = Description261::empty(random.pick(&Format261::ALL));
                slices = Some(Slices::of(&other));
            }
            _ => {}
        }
        let slices = slices.unwrap_or_else(|| slices_of(&description));
        calls.push(Call::once(slices).with_lengths(random));
    }
    calls
}
