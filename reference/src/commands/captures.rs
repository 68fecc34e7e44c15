//! Recordings of the raw line, made from this maker's own streams and from patterns of wrong bits.

use reference::bits::{bit_of, Bits};
use reference::check::check;
use reference::line::{framing, replay, Code, FRAME};
use reference::random::Random;

use super::made::{File, Made};
use super::{packs, put16, put32};

/// What the replay writes: the data bits in bytes, and its lines on standard error.
pub struct Replayed {
    pub stream: Vec<u8>,
    pub errors: String,
}

pub fn replayed(code: &Code, capture: &[u8]) -> Replayed {
    let bits: Vec<bool> = (0..8 * capture.len())
        .map(|place| bit_of(capture, place))
        .collect();
    let outcome = match replay(code, &bits) {
        Ok(outcome) => outcome,
        Err(number) => {
            return Replayed {
                stream: Vec::new(),
                errors: format!("refused {number}\n"),
            }
        }
    };
    let mut errors = format!("lock {}\n", outcome.lock);
    for &place in &outcome.reports {
        let word = if place + FRAME > bits.len() {
            "cut"
        } else {
            "unmended"
        };
        errors += &format!("{word} {place}\n");
    }
    errors += &format!("data {}\n", outcome.data.len());
    Replayed {
        stream: packed(&outcome.data).bytes,
        errors,
    }
}

fn packed(bits: &[bool]) -> Bits {
    let mut row = Bits::default();
    bits.iter().for_each(|&bit| row.push(bit));
    row
}

/// capture-NAME.input, .expected (the stream) and .errors.
pub fn files(seed: u64, count: usize) -> Vec<File> {
    let code = Code::new();
    let mut random = Random::new(seed);
    let mut captures: Vec<(String, Vec<bool>)> = vec![
        ("none".to_string(), Vec::new()),
        ("noise".to_string(), noise(&mut random, 40_000)),
        ("one-wrong".to_string(), one_wrong(&code, &mut random)),
        ("two-wrong".to_string(), two_wrong(&code, &mut random)),
        ("late-lock".to_string(), late_lock(&code, &mut random)),
        (
            "one-framing-bit-short".to_string(),
            short(&code, &mut random, 23 * FRAME),
        ),
        (
            "just-locked".to_string(),
            short(&code, &mut random, 23 * FRAME + 8),
        ),
        ("false-lock".to_string(), false_lock(&code, &mut random)),
        (
            "wrong-framing-bit".to_string(),
            wrong_framing_bit(&code, &mut random, 3),
        ),
        (
            "later-wrong-framing-bit".to_string(),
            wrong_framing_bit(&code, &mut random, 30),
        ),
        ("all-fill".to_string(), frames(&code, &vec![None; 40], 0)),
        ("beyond-mending".to_string(), all_beyond(&code, &mut random)),
    ];
    for cut in 0..FRAME {
        captures.push((format!("cut-{cut}"), cut_frame(&code, &mut random, cut)));
    }
    for number in 0..count {
        captures.push((number.to_string(), rough(&code, &mut random)));
    }
    let mut files = Vec::new();
    for (name, bits) in captures {
        assert!(bits.len() % 8 == 0, "{name}");
        let capture = packed(&bits).bytes;
        let outcome = replayed(&code, &capture);
        files.extend([
            (format!("capture-{name}.input"), capture),
            (format!("capture-{name}.expected"), outcome.stream),
            (
                format!("capture-{name}.errors"),
                outcome.errors.into_bytes(),
            ),
        ]);
    }
    files
}

/// A raw stream on a line that isn't clean: 100 ones before lock, fill frames, frames with one or two wrong
/// bits, one beyond mending, and a cut last one.
pub fn recorded(stream: &[u8]) -> Vec<u8> {
    let code = Code::new();
    let mut row: Vec<bool> = (0..8 * stream.len())
        .map(|place| bit_of(stream, place))
        .collect();
    row.resize(row.len().div_ceil(492).max(24) * 492, false);
    let mut contents = Vec::new();
    for (number, chunk) in row.chunks(492).enumerate() {
        if number % 5 == 0 {
            contents.push(None);
        }
        contents.push(Some(chunk.to_vec()));
    }
    contents.push(None);
    let mut bits = vec![true; 100];
    let beyond = contents.len() * 2 / 3;
    for (number, content) in contents.iter().enumerate() {
        let mut frame = code.frame(framing(number), content.as_deref());
        let word = number * 37 % 400;
        match number % 7 {
            _ if number == beyond => {
                let third = (word + 2..511).find(|&third| {
                    let mut wrong = frame[1..].to_vec();
                    [word, word + 1, third]
                        .iter()
                        .for_each(|&place| flip(&mut wrong, place));
                    code.mend(&wrong).is_none()
                });
                let third = third.expect("half of all words are beyond mending");
                [word, word + 1, third]
                    .iter()
                    .for_each(|&place| flip(&mut frame, 1 + place));
            }
            3 => flip(&mut frame, 1 + word),
            5 => [word, word + 90]
                .iter()
                .for_each(|&place| flip(&mut frame, 1 + place)),
            _ => {}
        }
        bits.extend(frame);
    }
    bits.truncate(bits.len() - 212);
    bits.truncate(bits.len() / 8 * 8);
    packed(&bits).bytes
}

/// Lent captures of any number of bits, with the answers and both buffers: see README.md, **replays**.
pub fn make(seed: u64, count: usize) -> Made {
    let code = Code::new();
    let mut random = Random::new(seed);
    let mut made = Made::default();
    for cut in 0..=2 * FRAME {
        let bits = some(&code, &mut random, 26);
        record(&code, &mut made, &bits, 24 * FRAME + cut, 0);
    }
    let bits = some(&code, &mut random, 26);
    for short in 0..3 {
        for n in [
            0,
            11_776,
            11_777,
            bits.len(),
            bits.len() + 1,
            bits.len() + 7,
            1 << 31,
        ] {
            record(&code, &mut made, &bits, n, short);
        }
    }
    record(&code, &mut made, &[], 0, 0);
    record(&code, &mut made, &[], 0, 1);
    record(&code, &mut made, &[], 1, 2);
    for _ in 0..count {
        let before = random.below(700);
        let mut bits = noise(&mut random, before);
        let frames = 24 + random.below(36);
        bits.extend(some(&code, &mut random, frames));
        let wrong = random.below(80);
        for _ in 0..wrong {
            let place = random.below(bits.len());
            if !(place - before.min(place)).is_multiple_of(FRAME) || random.chance(20) {
                flip(&mut bits, place);
            }
        }
        let n = bits.len() - random.below(FRAME);
        record(
            &code,
            &mut made,
            &bits,
            n,
            random.pick(&[0, 0, 0, 0, 0, 0, 0, 1, 2]),
        );
    }
    made
}

/// N, which buffer is short, the slice's length, the slice; and the line that is expected.
fn record(code: &Code, made: &mut Made, bits: &[bool], n: usize, short: usize) {
    let slice = packed(bits).bytes;
    put32(&mut made.input, n);
    made.input.push(short as u8);
    put16(&mut made.input, slice.len());
    made.input.extend(&slice);
    let mut out = vec![165; 4096];
    let mut places = vec![7; 65];
    let answer = if short != 0 && !(short == 1 && slice.is_empty()) {
        Err(1)
    } else if n > 8 * slice.len() {
        Err(2)
    } else {
        let row: Vec<bool> = (0..n).map(|place| bit_of(&slice, place)).collect();
        replay(code, &row)
    };
    let line = match answer {
        Err(number) => format!("refused {number}"),
        Ok(outcome) => {
            let data = packed(&outcome.data);
            out[..data.bytes.len()].copy_from_slice(&data.bytes);
            places[..outcome.reports.len()].copy_from_slice(&outcome.reports);
            format!(
                "replayed {} {} {}",
                outcome.lock,
                data.count,
                outcome.reports.len()
            )
        }
    };
    let places: Vec<String> = places.iter().map(usize::to_string).collect();
    let line = format!("{line} {} {}\n", check(&out), places.join(" "));
    made.expected.extend(line.into_bytes());
}

fn noise(random: &mut Random, count: usize) -> Vec<bool> {
    (0..count).map(|_| random.chance(2)).collect()
}

fn data(random: &mut Random) -> Option<Vec<bool>> {
    Some(noise(random, 492))
}

/// Frames from the framing bit `from` on, each with its data or fill.
fn frames(code: &Code, contents: &[Option<Vec<bool>>], from: usize) -> Vec<bool> {
    let numbered = contents.iter().enumerate();
    numbered
        .flat_map(|(number, content)| code.frame(framing(from + number), content.as_deref()))
        .collect()
}

/// So many frames of data or, now and then, fill.
fn some(code: &Code, random: &mut Random, count: usize) -> Vec<bool> {
    let contents: Vec<_> = (0..count)
        .map(|_| if random.chance(4) { None } else { data(random) })
        .collect();
    frames(code, &contents, 0)
}

fn flip(bits: &mut [bool], place: usize) {
    bits[place] = !bits[place];
}

/// A wrong bit at every place of a word, frame after frame.
fn one_wrong(code: &Code, random: &mut Random) -> Vec<bool> {
    let mut bits = some(code, random, 24 + 511);
    for wrong in 0..511 {
        flip(&mut bits, FRAME * (24 + wrong) + 1 + wrong);
    }
    bits
}

/// Two wrong bits at every pair of places.
fn two_wrong(code: &Code, random: &mut Random) -> Vec<bool> {
    let mut bits = some(code, random, 24);
    let mut words: Vec<Vec<bool>> = (0..8)
        .map(|_| code.frame(false, data(random).as_deref()))
        .collect();
    words.push(code.frame(true, None));
    for one in 0..511 {
        for other in one + 1..511 {
            let mut frame = words[(one + other) % words.len()].clone();
            flip(&mut frame, 1 + one);
            flip(&mut frame, 1 + other);
            bits.extend(frame);
        }
    }
    bits
}

/// Lock comes after more than a buffer of noise.
fn late_lock(code: &Code, random: &mut Random) -> Vec<bool> {
    let mut bits = noise(random, 8 * 70_000 + 3);
    bits.extend(some(code, random, 60));
    bits.extend(vec![false; 5]);
    bits
}

fn short(code: &Code, random: &mut Random, count: usize) -> Vec<bool> {
    let mut bits = some(code, random, 24);
    bits.truncate(count);
    bits
}

/// The pattern stands in what comes before the frames, out of their phase.
fn false_lock(code: &Code, random: &mut Random) -> Vec<bool> {
    let mut bits = noise(random, FRAME * 4 + 40);
    bits.extend(some(code, random, 60));
    for number in 0..24 {
        bits[77 + FRAME * number] = framing(number);
    }
    bits
}

/// One framing bit is wrong: among the first 24 it puts lock off, later it changes nothing.
fn wrong_framing_bit(code: &Code, random: &mut Random, number: usize) -> Vec<bool> {
    let mut bits = some(code, random, 60);
    flip(&mut bits, FRAME * number);
    bits
}

/// Every frame has exactly three wrong bits.
fn all_beyond(code: &Code, random: &mut Random) -> Vec<bool> {
    let mut bits = some(code, random, 200);
    for number in 0..200 {
        for third in 0..3 {
            let place = FRAME * number + 1 + 170 * third + random.below(170);
            flip(&mut bits, place);
        }
    }
    bits
}

/// The last frame has `cut` bits, 0 for none; noise before lock makes whole bytes of it.
fn cut_frame(code: &Code, random: &mut Random, cut: usize) -> Vec<bool> {
    let before = (8 - cut % 8) % 8;
    let mut bits = noise(random, before);
    bits.extend(some(code, random, 26));
    bits.truncate(before + 25 * FRAME + cut);
    bits
}

/// A raw stream in frames, from any bit on, with fill between and wrong bits.
fn rough(code: &Code, random: &mut Random) -> Vec<bool> {
    let stream = packs::any_stream(random);
    let mut row: Vec<bool> = (0..stream.count)
        .map(|place| bit_of(&stream.bytes, place))
        .collect();
    while !row.len().is_multiple_of(492) {
        row.push(false);
    }
    let mut contents = Vec::new();
    for chunk in row.chunks(492) {
        while random.chance(5) {
            contents.push(None);
        }
        contents.push(Some(chunk.to_vec()));
    }
    while contents.len() < 24 {
        contents.push(None);
    }
    let before = random.below(3000);
    let mut bits = noise(random, before);
    let start = bits.len();
    let first = random.below(8);
    bits.extend(frames(code, &contents, first));
    for number in 0..contents.len() {
        let wrong = random.pick(&[0, 0, 0, 0, 1, 2, 2, 3, 4, 6]);
        for _ in 0..wrong {
            let place = start + FRAME * number + 1 + random.below(FRAME - 1);
            flip(&mut bits, place);
        }
    }
    let lost = if random.chance(3) {
        random.below(FRAME)
    } else {
        0
    };
    bits.truncate(bits.len() - lost);
    bits.truncate(bits.len() / 8 * 8);
    bits
}
