//! Sessions of a sender.

use reference::block::PICTURES;
use reference::check::check;
use reference::clips;
use reference::description::Description;
use reference::format::Format;
use reference::kind::Kind;
use reference::maker::{self, Style};
use reference::random::Random;
use reference::sender::Sender;

use super::made::Made;
use super::write::{near_limit, spoil};
use super::Slices;

/// What every byte of the buffers holds before a session: output, first store, second store.
const BEFORE: [u8; 3] = [165, 17, 34];

/// Which buffer is lent without its last byte: none, first store, second store, output.
const LENGTH_KINDS: u8 = 4;

pub struct Call {
    pub times: usize,
    pub length_kind: u8,
    pub slices: Slices,
}

impl Call {
    pub fn once(slices: Slices) -> Call {
        Call {
            times: 1,
            length_kind: 0,
            slices,
        }
    }

    /// Now and then a buffer or a slice hasn't its length.
    pub fn with_lengths(mut self, random: &mut Random) -> Call {
        if random.chance(8) {
            self.length_kind = 1 + random.below(usize::from(LENGTH_KINDS) - 1) as u8;
        }
        if random.chance(20) {
            self.slices.levels.pop();
        }
        self
    }
}

pub fn make(seed: u64, count: usize) -> Made {
    let mut random = Random::new(seed);
    let mut made = Made::default();
    session(&mut made, Format::Qcif.into(), 0, 0, &[]);
    session(&mut made, Format::Cif.into(), 0, 0, &[]);
    // All of 4,100 pictures; past 65,535; to the last one, and from a state past it.
    let calls = many_pictures(&mut random, Format::Qcif, 4_099);
    session(&mut made, Format::Qcif.into(), 65_535, 0, &calls);
    for format in Format::ALL {
        let calls = many_pictures(&mut random, format, 2);
        session(&mut made, format.into(), 7, 65_534, &calls);
        session(&mut made, format.into(), 7, PICTURES - 3, &calls);
        session(&mut made, format.into(), 7, PICTURES, &calls);
    }
    session(&mut made, Format::Qcif.into(), 1, u32::MAX, &calls);
    for number in 0..count {
        let format = if number % 4 == 3 {
            Format::Cif
        } else {
            Format::Qcif
        };
        let clip = random.between(1, 65_535) as u16;
        let calls = random_calls(&mut random, format);
        let next = clips::first_number(&mut random, calls.len());
        session(&mut made, format.into(), clip, next, &calls);
    }
    made
}

/// A refresh, and then pictures in which nothing is sent, one by one after the first `times` of them; at the clip's end 34 whatever comes, but for 1.
fn many_pictures(random: &mut Random, format: Format, times: usize) -> Vec<Call> {
    let refresh = maker::description(random, format, Style::Refresh);
    let empty = Description::empty(format);
    let mut invalid = empty.clone();
    invalid.temporal_reference = 32;
    let [refresh, empty, invalid] = [&refresh, &empty, &invalid].map(Slices::of);
    in_turn(refresh, empty, invalid, times)
}

pub fn in_turn(refresh: Slices, empty: Slices, invalid: Slices, times: usize) -> Vec<Call> {
    let mut many = Call::once(empty.clone());
    many.times = times;
    let mut short = Call::once(empty.clone());
    short.length_kind = 3;
    vec![
        Call::once(refresh),
        many,
        Call::once(empty),
        Call::once(invalid),
        short,
    ]
}

fn random_calls(random: &mut Random, format: Format) -> Vec<Call> {
    let mut calls = Vec::new();
    let mut started = false;
    for _ in 0..random.between(3, 9) {
        let style = if !started && !random.chance(3) {
            random.pick(&[Style::Refresh, Style::DenseRefresh])
        } else {
            Style::any(random)
        };
        let mut description = maker::description(random, format, style);
        started |= description.is_refresh();
        match random.below(8) {
            0 => spoil(random, &mut description),
            1 => description = near_limit(random, format),
            2 => description = Description::empty(random.pick(&Format::ALL)),
            _ => {}
        }
        let call = Call::once(Slices::of(&description));
        calls.push(call.with_lengths(random));
    }
    calls
}

pub fn session(made: &mut Made, kind: Kind, clip: u16, next: u32, calls: &[Call]) {
    made.input.push(kind.number());
    super::put16(&mut made.input, usize::from(clip));
    super::put32(&mut made.input, calls.len());
    super::put32(&mut made.input, next as usize);
    let mut sender = match Sender::open(kind, clip) {
        Ok(sender) => sender.before(next),
        Err(refusal) => {
            made.expected.extend(format!("{refusal}\n").bytes());
            return;
        }
    };
    made.expected.extend(b"opened\n");
    let mut out = vec![BEFORE[0]; kind.sent_length()];
    let mut first = vec![BEFORE[1]; kind.store_length()];
    let mut second = vec![BEFORE[2]; kind.store_length()];
    for call in calls {
        super::put16(&mut made.input, call.times);
        made.input.push(call.length_kind);
        call.slices.put(&mut made.input);
        let mut line = String::new();
        for _ in 0..call.times {
            let less = |kind: u8| usize::from(call.length_kind == kind);
            let first_length = first.len() - less(1);
            let second_length = second.len() - less(2);
            let out_length = out.len() - less(3);
            let answer = sender.send(
                call.slices.lent(),
                &mut first[..first_length],
                &mut second[..second_length],
                &mut out[..out_length],
            );
            line = match answer {
                Ok(sent) => format!("sent {} {}", sent.picture, sent.blocks),
                Err(refusal) => refusal.to_string(),
            };
        }
        let checks = format!("{} {} {}", check(&out), check(&first), check(&second));
        made.expected.extend(format!("{line} {checks}\n").bytes());
    }
}
