//! Raw streams into blocks, blocks into frames, and the comparison with another decoder.

use reference::block::BLOCK_LENGTH;
use reference::coding::Picture;
use reference::format::Format;
use reference::h263;
use reference::kind::{Kind, Size};
use reference::lister::Vault;
use reference::receiver::Answer;
use reference::reconstruction::reconstruct;
use reference::refusal::Refusal;
use reference::sender::Sender;
use reference::stream::pictures;

/// The blocks of a packed stream, and the lines on standard error: what stands before the first picture, each refused picture, how many were recorded.
pub struct Packed {
    pub blocks: Vec<u8>,
    pub errors: String,
}

/// A picture of a stream: the byte in which its start code begins, and what the reader says.
struct Found {
    byte: usize,
    answer: Result<Picture, Refusal>,
}

fn found_in(raw: &[u8], kind: Kind) -> Vec<Found> {
    match kind {
        Kind::H261(format) => pictures(raw, format)
            .into_iter()
            .map(|picture| Found {
                byte: picture.place / 8,
                answer: picture.answer.map(Picture::H261),
            })
            .collect(),
        Kind::H263(format) => h263::stream::pictures(raw, format)
            .into_iter()
            .map(|picture| Found {
                byte: picture.byte,
                answer: picture.answer.map(Picture::H263),
            })
            .collect(),
    }
}

/// Each picture of the stream under the next number.
pub fn pack(kind: Kind, clip: u16, raw: &[u8]) -> Result<Packed, String> {
    let mut sender = Sender::open(kind, clip).map_err(|refusal| refusal.to_string())?;
    let mut first = vec![0; kind.store_length()];
    let mut second = vec![0; kind.store_length()];
    let mut out = vec![0; kind.sent_length()];
    let mut packed = Packed {
        blocks: Vec::new(),
        errors: String::new(),
    };
    let found = found_in(raw, kind);
    match found.first() {
        None => packed.errors = format!("no picture in {} bytes\n", raw.len()),
        Some(first) if first.byte > 0 => {
            packed.errors = format!("{} bytes before the first picture\n", first.byte);
        }
        Some(_) => {}
    }
    let (any, mut recorded) = (!found.is_empty(), 0);
    for picture in found {
        let answer = picture.answer.and_then(|description| {
            let [head, macroblocks, levels] = &description.slices();
            let slices = (&head[..], &macroblocks[..], &levels[..]);
            sender.send(slices, &mut first, &mut second, &mut out)
        });
        match answer {
            Ok(sent) => {
                packed.blocks.extend(&out[..BLOCK_LENGTH * sent.blocks]);
                recorded += 1;
            }
            Err(refusal) => {
                let line = format!("byte {}: {refusal}\n", picture.byte);
                packed.errors.push_str(&line);
            }
        }
    }
    if any {
        packed.errors.push_str(&format!("{recorded} pictures\n"));
    }
    Ok(packed)
}

/// How many frames a finished picture has.
#[derive(Clone, Copy, PartialEq, Eq)]
pub enum Frames {
    /// One.
    Each,
    /// One for each tick until the next picture's; where the receiver left step in between, one, and grey
    /// for the other ticks.
    Timed,
}

/// The last finished picture: its number, its tick, its samples, and whether step was left since.
struct Standing {
    picture: u32,
    tick: u32,
    samples: Vec<u8>,
    left_step: bool,
}

/// YUV4MPEG2 of the pictures finished in step.
pub fn frames(size: Size, blocks: &[u8], how: Frames) -> Vec<u8> {
    let format = size.of_h263();
    // 4:3 over 352 by 288 makes a sample 12:11, in all sizes; chroma lies in the middle of four Y samples.
    let header = format!(
        "YUV4MPEG2 W{} H{} F30000:1001 Ip A12:11 C420jpeg\n",
        format.width(),
        format.height()
    );
    let mut output = header.into_bytes();
    let mut vault = Vault::new(size);
    let mut last: Option<Standing> = None;
    let grey = vec![128; format.store_length()];
    for block in blocks.chunks_exact(BLOCK_LENGTH) {
        let answer = vault.receive(block);
        let Answer::Finished(picture, tick) = answer else {
            if let Some(last) = &mut last {
                last.left_step |= vault.shown(&answer).is_none();
            }
            continue;
        };
        if let (Frames::Timed, Some(last)) = (how, &last) {
            let left_step = last.left_step || picture != last.picture + 1;
            for _ in last.tick + 1..tick.number() {
                output.extend(b"FRAME\n");
                output.extend(if left_step { &grey } else { &last.samples });
            }
        }
        let samples = vault.shown(&answer).expect("a finished picture").to_vec();
        output.extend(b"FRAME\n");
        output.extend(&samples);
        last = Some(Standing {
            picture,
            tick: tick.number(),
            samples,
            left_step: false,
        });
    }
    output
}

/// The samples of every accepted picture, each over the one before; a grey store stands first.
pub fn decode(format: Format, raw: &[u8]) -> Vec<u8> {
    let mut store = vec![128; format.store_length()];
    let mut output = Vec::new();
    for picture in pictures(raw, format) {
        match picture.answer {
            Ok(description) => {
                store = reconstruct(&description, &store);
                output.extend(&store);
            }
            Err(refusal) => eprintln!("byte {}: {refusal}", picture.place / 8),
        }
    }
    output
}

/// How far one picture's samples lie from another's.
pub struct Difference {
    pub largest: u8,
    pub differing: usize,
}

impl Difference {
    pub fn between(ours: &[u8], theirs: &[u8]) -> Difference {
        let distances = ours.iter().zip(theirs).map(|(&a, &b)| a.abs_diff(b));
        Difference {
            largest: distances.clone().max().unwrap_or(0),
            differing: distances.filter(|&distance| distance != 0).count(),
        }
    }
}

/// Another decoder's samples against ours: each picture over the other decoder's own last picture, so
/// that roundings don't add up, and over our own, where they do.
pub fn compare(format: Format, raw: &[u8], theirs: &[u8]) -> Result<String, String> {
    let length = format.store_length();
    let read = pictures(raw, format);
    if theirs.len() != length * read.len() {
        return Err(format!(
            "{} pictures in the stream, {} among the samples",
            read.len(),
            theirs.len() as f64 / length as f64
        ));
    }
    let mut over_theirs = Difference {
        largest: 0,
        differing: 0,
    };
    let mut drift = 0;
    let mut types = [0usize; 11];
    let grey = vec![128; length];
    let mut own = grey.clone();
    let mut last = &grey[..];
    for (picture, samples) in read.iter().zip(theirs.chunks(length)) {
        let description = picture
            .answer
            .as_ref()
            .map_err(|refusal| format!("byte {}: {refusal}", picture.place / 8))?;
        for macroblock in &description.macroblocks {
            types[usize::from(macroblock.kind)] += 1;
        }
        let one = Difference::between(&reconstruct(description, last), samples);
        over_theirs.largest = over_theirs.largest.max(one.largest);
        over_theirs.differing += one.differing;
        own = reconstruct(description, &own);
        drift = drift.max(Difference::between(&own, samples).largest);
        last = samples;
    }
    Ok(format!(
        "{} pictures accepted; over the other's last picture: largest difference {}, {:.4} % of samples differ; over our own: largest {}; macroblocks of types 0 to 10: {:?}\n",
        read.len(),
        over_theirs.largest,
        100.0 * over_theirs.differing as f64 / theirs.len() as f64,
        drift,
        types
    ))
}
