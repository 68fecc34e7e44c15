//! Damaged lists of blocks, and what is salvaged of them.

use reference::bits::Bits;
use reference::block::{blocks_of, BLOCK_LENGTH, PICTURES};
use reference::clips::{self, Honesty};
use reference::coding::Picture;
use reference::format::Format;
use reference::h263::format::Format as Format263;
use reference::kind::Kind;
use reference::random::Random;
use reference::salvage::{salvage, Entry};

use super::made::File;

/// A call of the program: its words, and the list.
struct Case {
    kind: Kind,
    old: u16,
    new: u16,
    list: Vec<u8>,
}

/// The new clip's blocks, and the log.
pub struct Written {
    pub blocks: Vec<u8>,
    pub log: String,
}

/// "`refused 1`, `refused 22` or `refused 43` is the whole log, and nothing is on standard output."
pub fn written(kind: Kind, old: u16, new: u16, list: &[u8]) -> Written {
    let idle = Entry::Kept {
        block: 0,
        old: 0,
        new: 0,
    };
    let mut blocks = vec![0; list.len()];
    let mut log = vec![idle; 2 * (list.len() / BLOCK_LENGTH)];
    match salvage(kind, (old, new), list, &mut blocks, &mut log) {
        Ok(salvaged) => {
            blocks.truncate(BLOCK_LENGTH * salvaged.blocks);
            let entries = &log[..salvaged.entries];
            Written {
                blocks,
                log: entries.iter().map(|entry| format!("{entry}\n")).collect(),
            }
        }
        Err(refusal) => Written {
            blocks: Vec::new(),
            log: format!("{refusal}\n"),
        },
    }
}

/// H.261's clips.
pub fn files(seed: u64, count: usize) -> Vec<File> {
    let mut random = Random::new(seed);
    let mut cases = fixed(&mut random, Format::Qcif.into());
    cases.push(long_list(Format::Qcif.into()));
    for number in 0..count {
        let kind = if number % 8 == 7 {
            Format::Cif
        } else {
            Format::Qcif
        };
        let honesties = [Honesty::Honest, Honesty::Forged];
        cases.push(any(&mut random, kind.into(), &honesties));
    }
    named("salvage", cases)
}

/// Clips of all five kinds, with blocks of the other standard between.
pub fn files_of_both(seed: u64, count: usize) -> Vec<File> {
    let mut random = Random::new(seed);
    let mut cases = Vec::new();
    for format in Format263::ALL {
        cases.extend(fixed(&mut random, format.into()));
    }
    cases.push(long_list(Format263::SubQcif.into()));
    for number in 0..count {
        // CIF is rare.
        let kind = Kind::ALL[[2, 3, 0, 2, 3, 2, 4, 3, 0, 2, 3, 1][number % 12]];
        let honesties = [Honesty::Honest, Honesty::Forged, Honesty::Mixed];
        cases.push(any(&mut random, kind, &honesties));
    }
    named("h263-salvage", cases)
}

/// For each N: NAME-N.input, the list; .words, how the program is called; .expected, the new clip; .log.
fn named(name: &str, cases: Vec<Case>) -> Vec<File> {
    let mut files = Vec::new();
    for (number, case) in cases.into_iter().enumerate() {
        let Case {
            kind,
            old,
            new,
            list,
        } = case;
        let written = written(kind, old, new, &list);
        let words = format!("{} {old} {new}\n", kind.name());
        files.extend([
            (format!("{name}-{number}.input"), list),
            (format!("{name}-{number}.words"), words.into_bytes()),
            (format!("{name}-{number}.expected"), written.blocks),
            (format!("{name}-{number}.log"), written.log.into_bytes()),
        ]);
    }
    files
}

fn any(random: &mut Random, kind: Kind, honesties: &[Honesty]) -> Case {
    let clip = random.between(1, 65_535) as u16;
    let honesty = random.pick(honesties);
    let mut list = clips::damaged_list(random, kind, clip, honesty).concat();
    if random.chance(5) {
        // Another clip, or another recording under the same number, behind or before it.
        let other = random.pick(&[clip, clip ^ 1, 65_535]).max(1);
        let more = clips::damaged_list(random, kind, other, honesty).concat();
        list = if random.chance(2) {
            [list, more].concat()
        } else {
            [more, list].concat()
        };
    }
    if random.chance(12) {
        let length = random.between(1, BLOCK_LENGTH as i64 - 1) as usize;
        list.extend(random.bytes(length));
    }
    let mut case = Case {
        kind,
        old: clip,
        new: random.pick(&[clip, 1, 9, 65_535]),
        list,
    };
    match random.below(30) {
        0 => case.old = 0,
        1 => case.new = 0,
        2 => case.old = clip ^ 2,
        _ => {}
    }
    case
}

/// Blocks of clip 7.
struct Clip7 {
    kind: Kind,
    refresh: Picture,
}

impl Clip7 {
    /// The readings' clip: pictures with TRs 30, 1, 1, 4, 9, 11 (or eight times as much), the even ones
    /// refreshes in two parts or more. Other numbers go on so.
    fn picture(&self, number: u32) -> Vec<Vec<u8>> {
        self.named(number, number.is_multiple_of(2))
    }

    fn named(&self, number: u32, is_refresh: bool) -> Vec<Vec<u8>> {
        let references = [30, 1, 1, 4, 9, 11];
        let times = (self.kind.tick_modulus() / 32) as u8;
        let mut description = if is_refresh {
            self.refresh.clone()
        } else {
            Picture::empty(self.kind)
        };
        description.set_temporal_reference(times * references[number as usize % references.len()]);
        let bits = description.write(self.kind).expect("within the limit");
        blocks_of(self.kind.standard(), 7, number, is_refresh, &bits)
            .iter()
            .map(|block| block.to_bytes().to_vec())
            .collect()
    }

    fn pictures(&self, numbers: impl IntoIterator<Item = u32>) -> Vec<u8> {
        let blocks = numbers
            .into_iter()
            .flat_map(|number| self.picture(number).concat());
        blocks.collect()
    }
}

/// The readings' examples, whole clips, every refusal, and what a receiver that looks ahead must know.
fn fixed(random: &mut Random, kind: Kind) -> Vec<Case> {
    let refresh = clips::refresh_description(random, kind, true);
    let clip = Clip7 { kind, refresh };
    let whole = clip.pictures(0..6);
    let case = |old: u16, new: u16, list: Vec<u8>| Case {
        kind,
        old,
        new,
        list,
    };
    let first_of = |number: u32| clip.picture(number)[0].clone();
    let without_last = |number: u32| {
        let mut blocks = clip.picture(number);
        blocks.pop();
        blocks.concat()
    };
    // Picture 1 is missing, 2.0 comes twice, 4 isn't whole.
    let hole = [
        clip.picture(0).concat(),
        first_of(2),
        clip.picture(2).concat(),
        clip.picture(3).concat(),
        without_last(4),
        clip.picture(5).concat(),
    ]
    .concat();
    // 3 comes before 2: lost, and no number is skipped.
    let swapped = [clip.pictures([0, 1]), clip.pictures([3, 2])].concat();
    let mut damaged = first_of(2);
    damaged[200] ^= 16;
    // Parts with much between them: old, damaged, other clips' blocks, and only then the rest, or nothing.
    let mut bits = Bits::default();
    bits.push(true);
    let other_clip = blocks_of(kind.standard(), 8, 0, true, &bits);
    let between: Vec<u8> = (0..40)
        .flat_map(|number| match number % 3 {
            0 => first_of(0),
            1 => damaged.clone(),
            _ => other_clip[0].to_bytes().to_vec(),
        })
        .collect();
    let interrupted = |number: u32| -> Vec<u8> {
        clip.picture(number)
            .iter()
            .flat_map(|block| [&block[..], &between].concat())
            .collect()
    };
    let edges = clips::edge_blocks(kind, 7).concat();
    vec![
        case(7, 9, hole.clone()),
        case(7, 7, swapped),
        case(7, 7, whole.clone()),
        case(7, 65_535, whole.clone()),
        case(7, 9, Vec::new()),
        case(0, 9, whole.clone()),
        case(7, 0, whole.clone()),
        case(0, 0, Vec::new()),
        case(7, 9, [&whole[..], &[0; 100]].concat()),
        case(0, 0, whole[1..].to_vec()),
        case(7, 9, whole[..1].to_vec()),
        case(8, 9, hole),
        case(7, 9, clip.pictures([1, 3, 5])),
        case(7, 9, clip.pictures([1, 3, 5, 4])),
        case(7, 9, vec![0; 3 * BLOCK_LENGTH]),
        case(7, 9, edges.clone()),
        case(7, 9, [edges, clip.pictures([1000, 1001])].concat()),
        case(7, 9, interrupted(0)),
        case(7, 9, [interrupted(0), without_last(2), between].concat()),
        case(
            7,
            9,
            [clip.pictures([0]), without_last(2), clip.pictures([4])].concat(),
        ),
        // A refresh drops another one that has begun, and what was skipped is a long run.
        case(
            7,
            9,
            [
                clip.pictures([65_534, 65_535, 65_536]),
                without_last(131_072),
                clip.pictures([PICTURES - 2, PICTURES - 1]),
            ]
            .concat(),
        ),
    ]
}

/// More pictures than fit into any memory that a program may take, with holes.
fn long_list(kind: Kind) -> Case {
    let mut random = Random::new(1);
    let refresh = clips::refresh_description(&mut random, kind, false);
    let clip = Clip7 { kind, refresh };
    let list = (0..4_100)
        .filter(|number| !(1_000..1_200).contains(number) && *number != 3_000)
        .flat_map(|number| clip.named(number, number % 500 == 0).concat())
        .collect();
    Case {
        kind,
        old: 7,
        new: 8,
        list,
    }
}
