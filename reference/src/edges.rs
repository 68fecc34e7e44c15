//! Pictures made by hand at the edges of each refusal, with the answers that document 01 gives and the
//! number of reads (document 02, T-13). Both are written down here, not computed by the reader.

use crate::bits::Bits;
use crate::format::Format;
use crate::refusal::Refusal;

pub struct Edge {
    pub name: String,
    pub opened: Format,
    pub bytes: Vec<u8>,
    pub count: usize,
    /// None is accepted.
    pub refusal: Option<Refusal>,
    pub reads: usize,
}

/// The tables' numbers, as T-06 has them.
const MBA: u8 = 1;
const MTYPE: u8 = 2;
const MVD: u8 = 3;
const CBP: u8 = 4;
const TCOEFF: u8 = 5;

const PICTURE_START_CODE: &str = "0000 0000 0000 0001 0000";
const GROUP_START_CODE: &str = "0000 0000 0000 0001";
const STUFFING: &str = "0000 0001 111";
const END_OF_BLOCK: &str = "10";
const ESCAPE: &str = "0000 01";

/// MTYPE words.
const INTRA: &str = "0001";
const INTRA_MQUANT: &str = "0000 001";
const INTER: &str = "1";
const INTER_MQUANT: &str = "0000 1";
const MC: &str = "0000 0000 1";
const MC_CBP: &str = "0000 0001";
const MC_MQUANT: &str = "0000 0000 01";
const FIL: &str = "001";
const FIL_CBP: &str = "01";
const FIL_MQUANT: &str = "0000 01";

/// MVD words.
const BY_0: &str = "1";
const BY_1: &str = "010";
const BY_MINUS_1: &str = "011";
const BY_15: &str = "0000 0011 010";
const BY_MINUS_15: &str = "0000 0011 011";
const BY_MINUS_16: &str = "0000 0011 001";
const NO_MVD: &str = "0000 0011 000";

/// An INTRA block of DC code 1 and nothing else.
const SMALL_BLOCK: [&str; 2] = ["0000 0001", END_OF_BLOCK];

/// A picture being written down, read by read.
#[derive(Clone)]
struct Draft {
    opened: Format,
    bits: Bits,
    reads: usize,
}

impl Draft {
    fn blank(opened: Format) -> Draft {
        Draft {
            opened,
            bits: Bits::default(),
            reads: 0,
        }
    }

    /// The picture header with TR 1 and no spares: 32 bits.
    fn header(opened: Format) -> Draft {
        let ptype = match opened {
            Format::Qcif => "000 0 1 1",
            Format::Cif => "000 1 1 1",
        };
        Draft::blank(opened)
            .word(PICTURE_START_CODE)
            .word("00001")
            .word(ptype)
            .word("0")
    }

    /// One read.
    #[inline(never)]
    fn word(mut self, word: &str) -> Draft {
        self.bits.word(word);
        self.reads += 1;
        self
    }

    #[inline(never)]
    fn words(self, words: &[&str]) -> Draft {
        words.iter().fold(self, |draft, word| draft.word(word))
    }

    fn field(self, value: u32, width: usize) -> Draft {
        self.word(&format!("{value:0width$b}"))
    }

    /// Bits that nobody reads whole.
    #[inline(never)]
    fn tail(mut self, bits: &str) -> Draft {
        self.bits.word(bits);
        self
    }

    /// A group header of 26 bits.
    fn group(self, number: u32, quantiser: u32) -> Draft {
        self.word(GROUP_START_CODE)
            .field(number, 4)
            .field(quantiser, 5)
            .word("0")
    }

    /// Empty groups, up to the header of the last, which is open.
    fn groups_to_last(self) -> Draft {
        let groups = self.opened.groups();
        groups
            .iter()
            .fold(self, |draft, &number| draft.group(u32::from(number), 1))
    }

    /// The groups that follow the first one, empty.
    fn other_groups(self) -> Draft {
        let groups = &self.opened.groups()[1..];
        groups
            .iter()
            .fold(self, |draft, &number| draft.group(u32::from(number), 1))
    }

    fn escape(self, run: u32, level: u32) -> Draft {
        self.word(&escape(run, level))
    }

    fn place(&self) -> usize {
        self.bits.count
    }
}

/// One codeword of 20 bits.
fn escape(run: u32, level: u32) -> String {
    format!("{ESCAPE}{run:06b}{level:08b}")
}

/// A growing list of edges.
#[derive(Default)]
struct Edges {
    list: Vec<Edge>,
}

impl Edges {
    #[inline(never)]
    fn push(&mut self, name: &str, draft: &Draft, refusal: Option<Refusal>, reads: usize) {
        self.list.push(Edge {
            name: name.to_string(),
            opened: draft.opened,
            count: draft.bits.count,
            bytes: draft.bits.bytes.clone(),
            refusal,
            reads,
        });
    }

    #[inline(never)]
    fn accepted(&mut self, name: &str, draft: &Draft) {
        self.push(name, draft, None, draft.reads);
    }

    /// Refused at the read that begins at the draft's end with these bits.
    #[inline(never)]
    fn refused(&mut self, name: &str, draft: &Draft, bits: &str, number: u8) {
        let refusal = Refusal::at(number, draft.place());
        let whole = draft.clone().tail(bits);
        self.push(name, &whole, Some(refusal), draft.reads + 1);
    }

    /// 8: no codeword of the table stands at the draft's end.
    #[inline(never)]
    fn no_such(&mut self, name: &str, draft: &Draft, bits: &str, table: u8) {
        let refusal = Refusal::no_codeword(draft.place(), table);
        let whole = draft.clone().tail(bits);
        self.push(name, &whole, Some(refusal), draft.reads + 1);
    }

    /// A vector out of the picture: both words are read, and the place is the first one's.
    #[inline(never)]
    fn out_of_picture(&mut self, name: &str, draft: &Draft, horizontal: &str, vertical: &str) {
        let refusal = Refusal::at(12, draft.place());
        let whole = draft.clone().words(&[horizontal, vertical]);
        self.push(name, &whole, Some(refusal), draft.reads + 2);
    }

    /// The picture ends before or in the middle of `word`, which would stand at the draft's end: 3 there
    /// each time.
    #[inline(never)]
    fn cut_inside(&mut self, name: &str, draft: &Draft, word: &str) {
        self.refused(name, draft, "", 3);
        self.cut_after_a_bit(name, draft, word);
    }

    /// The same with a bit at least: no bits left may end the picture in the last group.
    #[inline(never)]
    fn cut_after_a_bit(&mut self, name: &str, draft: &Draft, word: &str) {
        let word = word.replace(' ', "");
        for length in 1..word.len() {
            self.refused(name, draft, &word[..length], 3);
        }
    }

    /// `word` is no codeword of the table at the draft's end, and neither are longer rows of bits that
    /// begin so; all its proper beginnings begin one.
    #[inline(never)]
    fn no_codeword(&mut self, name: &str, draft: &Draft, word: &str, table: u8) {
        self.cut_after_a_bit(name, draft, word);
        for more in [
            "",
            "0",
            "1",
            "0000 0000 0000 0001 0011 00001 0",
            "1111 1111",
        ] {
            self.no_such(name, draft, &format!("{word}{more}"), table);
        }
    }
}

pub fn edges() -> Vec<Edge> {
    let mut edges = Edges::default();
    counts(&mut edges);
    for format in Format::ALL {
        headers(&mut edges, format);
        ends(&mut edges, format);
        macroblocks(&mut edges, format);
        coefficients(&mut edges, format);
        vectors(&mut edges, format);
    }
    edges.list
}

/// Refusal 2, and the pictures of no bits.
fn counts(edges: &mut Edges) {
    let mut push = |name: &str, opened, length: usize, count, refusal, reads| {
        edges.list.push(Edge {
            name: name.to_string(),
            opened,
            bytes: vec![0; length],
            count,
            refusal: Some(refusal),
            reads,
        });
    };
    for opened in Format::ALL {
        let limit = opened.bit_limit();
        let (bytes, above) = (limit / 8, limit + 1);
        let two = Refusal::plain(2);
        push("no bits in no bytes", opened, 0, 0, Refusal::at(3, 0), 1);
        push("no bits in a byte", opened, 1, 0, Refusal::at(3, 0), 1);
        push("a bit in no bytes", opened, 0, 1, two, 0);
        push("nine bits in a byte", opened, 1, 9, two, 0);
        push("19 bits", opened, 3, 19, Refusal::at(3, 0), 1);
        push("20 zeros", opened, 3, 20, Refusal::at(4, 0), 1);
        push("the limit", opened, bytes, limit, Refusal::at(4, 0), 1);
        push("past the slice", opened, bytes - 1, limit, two, 0);
        push("one above the limit", opened, bytes + 1, above, two, 0);
        push("one above both", opened, bytes, above, two, 0);
        push("the largest count", opened, 4, 0xFFFF_FFFF, two, 0);
    }
}

/// Refusals 4 to 7, and 3 at fixed fields.
fn headers(edges: &mut Edges, format: Format) {
    let blank = Draft::blank(format);
    for bit in 0..20 {
        let mut bad = Draft::header(format).groups_to_last();
        bad.bits.flip(bit);
        edges.push("a wrong bit in PSC", &bad, Some(Refusal::at(4, 0)), 1);
    }
    edges.cut_inside("cut PSC", &blank, PICTURE_START_CODE);
    let after_psc = blank.clone().word(PICTURE_START_CODE);
    edges.cut_inside("cut TR", &after_psc, "11111");
    let at_ptype = after_psc.word("11111");
    // A cut PTYPE is 3, though its bits name the other format.
    let other_format = match format {
        Format::Qcif => "000 1 1 1",
        Format::Cif => "000 0 1 1",
    };
    let still_image = match format {
        Format::Qcif => "000 0 0 1",
        Format::Cif => "000 1 0 1",
    };
    edges.cut_inside("cut PTYPE", &at_ptype, other_format);
    edges.refused("other format", &at_ptype, other_format, 5);
    edges.refused("still image", &at_ptype, still_image, 5);
    let other_still = match format {
        Format::Qcif => "111 1 0 0 1111",
        Format::Cif => "111 0 0 0 1111",
    };
    edges.refused(
        "still image of the other format, then nonsense",
        &at_ptype,
        other_still,
        5,
    );
    let last_bit_0 = match format {
        Format::Qcif => "111 0 1 0",
        Format::Cif => "111 1 1 0",
    };
    edges.accepted(
        "PTYPE bit 6 of 0",
        &at_ptype.clone().words(&[last_bit_0, "0"]).groups_to_last(),
    );
    let at_pei = at_ptype.word(last_bit_0);
    spares(edges, "PEI", &at_pei, |draft| draft.groups_to_last());

    let header = Draft::header(format);
    edges.cut_inside("cut first GBSC", &header, GROUP_START_CODE);
    // Fifteen bits left are 3 even where no GBSC can begin so.
    edges.cut_inside("cut wrong GBSC", &header, "1111 1111 1111 1111");
    edges.refused("no GBSC", &header, "0000 0000 0000 0000", 4);
    for bit in 32..48 {
        let mut bad = Draft::header(format).groups_to_last();
        bad.bits.flip(bit);
        let refusal = Some(Refusal::at(4, 32));
        edges.push("a wrong bit in the first GBSC", &bad, refusal, 5);
    }
    let stuffed = header.clone().word(STUFFING).groups_to_last();
    let refusal = Some(Refusal::at(4, 32));
    edges.push("stuffing before the first GBSC", &stuffed, refusal, 5);

    let mut draft = header;
    let groups = format.groups();
    for (index, &number) in groups.iter().enumerate() {
        let number = u32::from(number);
        let at_gn = draft.clone().word(GROUP_START_CODE);
        edges.cut_inside("cut GN", &at_gn, "1111");
        for wrong in (0..16).filter(|&wrong| wrong != number) {
            edges.refused("wrong GN", &at_gn, &format!("{wrong:04b}"), 6);
        }
        let at_gquant = at_gn.field(number, 4);
        edges.cut_inside("cut GQUANT", &at_gquant, "00000");
        edges.refused("GQUANT 0", &at_gquant, "00000", 7);
        let at_gei = at_gquant.word("11111");
        let rest = &groups[index + 1..];
        spares(edges, "GEI", &at_gei, |draft| {
            rest.iter()
                .fold(draft, |draft, &next| draft.group(u32::from(next), 31))
        });
        draft = draft.group(number, 1);
    }
}

/// PEI or GEI at the draft's end: cut, with spares, with spares cut.
fn spares(edges: &mut Edges, name: &str, draft: &Draft, finish: impl Fn(Draft) -> Draft) {
    edges.cut_inside(&format!("cut {name}"), draft, "0");
    edges.accepted(&format!("{name} 0"), &finish(draft.clone().word("0")));
    let at_spare = draft.clone().word("1");
    edges.cut_inside(&format!("cut spare after {name}"), &at_spare, "0000 0000");
    for spare in ["0000 0000", "0000 0001", "1111 1111"] {
        let after = at_spare.clone().word(spare);
        edges.cut_inside(&format!("cut second {name}"), &after, "0");
        edges.accepted(
            &format!("a spare after {name}"),
            &finish(after.clone().word("0")),
        );
        let second = after.words(&["1", "1010 1010"]);
        edges.cut_inside(&format!("cut third {name}"), &second, "0");
        edges.accepted(
            &format!("two spares after {name}"),
            &finish(second.word("0")),
        );
    }
}

/// What may stand at an MBA place: refusals 3, 8, 9 and 13.
fn ends(edges: &mut Edges, format: Format) {
    let last = Draft::header(format).groups_to_last();
    let first = Draft::header(format).group(1, 8);
    edges.accepted("nothing sent", &last);
    edges.accepted("stuffing at the end", &last.clone().word(STUFFING));
    edges.accepted(
        "stuffing twice at the end",
        &last.clone().words(&[STUFFING, STUFFING]),
    );
    edges.accepted(
        "stuffing before a start code",
        &first.clone().word(STUFFING).other_groups(),
    );
    edges.refused(
        "the end after stuffing in the first group",
        &first.clone().word(STUFFING),
        "",
        3,
    );
    edges.refused("the end in the first group", &first, "", 3);

    for (name, draft) in [("last group", &last), ("first group", &first)] {
        for zeros in 1..=40 {
            let left_over = "0".repeat(zeros);
            let name = format!("zeros left over, {name}");
            // Up to fifteen zeros begin a start code, which belongs to MBA's table.
            if zeros <= 15 {
                edges.refused(&name, draft, &left_over, 3);
            } else {
                edges.no_such(&name, draft, &left_over, MBA);
            }
        }
        edges.no_such(
            &format!("zeros, then a one, {name}"),
            draft,
            "0000 0000 0000 0000 1",
            MBA,
        );
        // The first of the zeros after stuffing has its own place.
        edges.refused(
            &format!("stuffing, then a zero, {name}"),
            &draft.clone().word(STUFFING),
            "0",
            3,
        );
        edges.no_codeword(&format!("no MBA, {name}"), draft, "0000 0001 110", MBA);
        edges.no_codeword(&format!("no MBA, {name}"), draft, "0000 0001 10", MBA);
        edges.no_codeword(&format!("no MBA, {name}"), draft, "0000 0001 0", MBA);
        edges.no_codeword(&format!("no MBA, {name}"), draft, "0000 0010", MBA);
        edges.no_codeword(&format!("no MBA, {name}"), draft, "0000 0000 1", MBA);
        edges.no_codeword(&format!("no MBA, {name}"), draft, "0000 0000 0000 001", MBA);
    }
    // The start code is a codeword that was read, here too.
    edges.refused(
        "a start code in the last group",
        &last,
        GROUP_START_CODE,
        13,
    );
    edges.refused(
        "a whole group after the last",
        &last,
        "0000 0000 0000 0001 0001 00001 0",
        13,
    );
    edges.refused("the next picture", &last, PICTURE_START_CODE, 13);
    edges.refused(
        "stuffing and a start code in the last group",
        &last.clone().word(STUFFING),
        GROUP_START_CODE,
        13,
    );
    edges.cut_after_a_bit(
        "a cut start code in the last group",
        &last,
        GROUP_START_CODE,
    );
    edges.cut_inside(
        "a cut start code in the first group",
        &first,
        GROUP_START_CODE,
    );
    edges.cut_after_a_bit("cut stuffing", &last, STUFFING);

    // Addresses, with FIL and a zero vector as the shortest macroblock.
    let sent = |draft: Draft, mba: &str| draft.words(&[mba, FIL, BY_0, BY_0]);
    let at_33 = sent(first.clone(), "0000 0011 000");
    edges.accepted("macroblock 33", &at_33.clone().other_groups());
    edges.refused("1 past 33", &at_33, "1 001 1 1", 9);
    edges.refused("1 past 33, and nothing after", &at_33, "1", 9);
    edges.refused(
        "stuffing and 33 past 33",
        &at_33.clone().word(STUFFING),
        "0000 0011 000",
        9,
    );
    let at_32 = sent(first.clone(), "0000 0011 001");
    edges.accepted("32, then 33", &sent(at_32.clone(), "1").other_groups());
    edges.refused("2 past 32", &at_32, "011 001 1 1", 9);
    let mut all = first;
    for _ in 0..33 {
        all = sent(all, "1");
    }
    edges.accepted("all 33", &all.clone().other_groups());
    edges.refused("a 34th", &all, "1", 9);
    edges.cut_inside("cut after all 33", &all, "0000 0011 000");
    let last_at_33 = sent(last, "0000 0011 000");
    edges.accepted("macroblock 33 of the last group", &last_at_33);
    edges.refused("past 33 in the last group", &last_at_33, "010", 9);
    edges.refused(
        "a start code after 33 in the last group",
        &last_at_33,
        GROUP_START_CODE,
        13,
    );
}

/// MTYPE, MQUANT and CBP.
fn macroblocks(edges: &mut Edges, format: Format) {
    let start = Draft::header(format).groups_to_last().word("1");
    edges.no_codeword("no MTYPE", &start, "0000 0000 00", MTYPE);
    for kind in [INTRA_MQUANT, INTER_MQUANT, MC_MQUANT, FIL_MQUANT] {
        let at_mquant = start.clone().word(kind);
        edges.cut_inside("cut MQUANT", &at_mquant, "00000");
        edges.refused("MQUANT 0", &at_mquant, "00000", 7);
        edges.refused(
            "MQUANT 0, then what would fit",
            &at_mquant,
            "00000 1 1 111 10 10",
            7,
        );
    }
    let before: [(&str, &[&str]); 6] = [
        (INTER, &[]),
        (INTER_MQUANT, &["10000"]),
        (MC_CBP, &[BY_0, BY_0]),
        (MC_MQUANT, &["00001", BY_0, BY_0]),
        (FIL_CBP, &[BY_0, BY_0]),
        (FIL_MQUANT, &["11111", BY_0, BY_0]),
    ];
    for (kind, before) in before {
        let at_cbp = start.clone().word(kind).words(before);
        edges.no_codeword("no CBP", &at_cbp, "0000 0000", CBP);
        edges.cut_inside("cut CBP", &at_cbp, "0000 0001 0");
        // CBP 1: CR alone, which is level 1 and EOB.
        edges.accepted("CBP 1", &at_cbp.words(&["0101 1", "10", END_OF_BLOCK]));
    }
    for kind in [MC, FIL] {
        let sent = start.clone().words(&[kind, BY_0, BY_0]);
        edges.accepted("a vector and nothing else", &sent);
        edges.accepted("its neighbour too", &sent.words(&["1", kind, BY_0, BY_0]));
    }
}

/// INTRA and other blocks: refusals 3, 8, 10 and 11.
fn coefficients(edges: &mut Edges, format: Format) {
    let start = Draft::header(format).groups_to_last().word("1");
    let intra = start.clone().word(INTRA);
    for before in 0..6 {
        let at_dc = (0..before).fold(intra.clone(), |draft, _| draft.words(&SMALL_BLOCK));
        edges.cut_inside("cut DC code", &at_dc, "0000 0000");
        edges.refused("DC code 0", &at_dc, "0000 0000", 10);
        edges.refused("DC code 128", &at_dc, "1000 0000", 10);
        let after_dc = at_dc.clone().word("1111 1111");
        edges.cut_inside("cut EOB after DC", &after_dc, END_OF_BLOCK);
        let mut rest = after_dc.word(END_OF_BLOCK);
        for _ in before..5 {
            rest = rest.words(&["1111 1110", END_OF_BLOCK]);
        }
        edges.accepted("six INTRA blocks", &rest);
    }
    // CBP 32: the first Y block alone.
    let inter = start.words(&[INTER, "1010"]);
    let after_dc = intra.word("0000 0001");
    let later_inter = inter.clone().word("11");
    for (name, draft, next) in [
        ("first coefficient", &inter, 0u32),
        ("after level -1", &later_inter, 1),
        ("after INTRA DC", &after_dc, 1),
    ] {
        block_edges(edges, name, draft, next);
    }
    // "1s" opens a block: what would be EOB is level 1.
    edges.accepted(
        "1, 0 is level 1 first",
        &inter.clone().words(&["10", END_OF_BLOCK]),
    );
    edges.refused("level 1 and no EOB", &inter.clone().word("10"), "", 3);
    edges.refused("half a level 1", &inter, "1", 3);
    edges.accepted(
        "1, 1 is level -1 first, 110 level 1 later",
        &inter.words(&["11", "110", END_OF_BLOCK]),
    );
}

/// Edges of the codewords of Table 5 where the next coefficient is number `next`.
fn block_edges(edges: &mut Edges, name: &str, draft: &Draft, next: u32) {
    let name = |what: &str| format!("{what}, {name}");
    edges.no_codeword(&name("no TCOEFF"), draft, "0000 0000 0", TCOEFF);
    edges.cut_inside(&name("cut escape"), draft, &escape(0, 0));
    edges.cut_inside(&name("cut long word"), draft, "0000 0000 1000 0 1");
    edges.refused(&name("escaped level 0"), draft, &escape(0, 0), 10);
    edges.refused(&name("escaped level -128"), draft, &escape(0, 128), 10);
    // 10 comes before 11.
    let room = 63 - next;
    edges.refused(&name("10 before 11"), draft, &escape(63, 0), 10);
    edges.refused(&name("10 before 11"), draft, &escape(63, 128), 10);
    let to_last = draft.clone().escape(room, 129);
    if room < 63 {
        edges.refused(
            &name("escape past the 64th"),
            draft,
            &escape(room + 1, 1),
            11,
        );
        edges.refused(
            &name("escape past the 64th, far"),
            draft,
            &escape(63, 127),
            11,
        );
    }
    edges.cut_inside(&name("cut EOB after the 64th"), &to_last, END_OF_BLOCK);
    edges.refused(&name("a 65th"), &to_last, "110", 11);
    edges.refused(
        &name("a 65th of run 26"),
        &to_last,
        "0000 0000 1101 1 1",
        11,
    );
    edges.refused(&name("an escaped 65th"), &to_last, &escape(0, 1), 11);
    edges.refused(
        &name("an escaped 65th of level 0"),
        &to_last,
        &escape(0, 0),
        10,
    );
    edges.refused(&name("a cut 65th"), &to_last, "0000 0000 1101 1", 3);
    edges.no_such(
        &name("no codeword after the 64th"),
        &to_last,
        "0000 0000 0",
        TCOEFF,
    );
    // All places filled one by one, then one more.
    let mut full = draft.clone();
    for number in next..64 {
        full = if number == 0 {
            full.word("10")
        } else {
            full.word("111")
        };
    }
    edges.refused(&name("one past a full block"), &full, "110", 11);
}

/// MVD: refusals 3, 8 and 12, and the preceding vector.
fn vectors(edges: &mut Edges, format: Format) {
    let header = Draft::header(format).group(1, 8);
    for kind in [MC, MC_CBP, FIL, FIL_CBP] {
        let at_mvd = header.clone().words(&["1", kind]);
        let after = |horizontal: &str| at_mvd.clone().word(horizontal);
        edges.cut_inside("cut horizontal MVD", &at_mvd, NO_MVD);
        edges.no_codeword("no horizontal MVD", &at_mvd, NO_MVD, MVD);
        edges.no_codeword("no horizontal MVD", &at_mvd, "0000 0010", MVD);
        edges.no_codeword("no vertical MVD", &after(BY_0), NO_MVD, MVD);
        edges.no_codeword("no vertical MVD", &after(BY_0), "0000 000", MVD);
        // The vertical word isn't read where the horizontal component is out of range.
        edges.refused("-16 & 16 from 0", &at_mvd, BY_MINUS_16, 12);
        for (name, more) in [("then no codeword", NO_MVD), ("then another", BY_MINUS_16)] {
            edges.refused(name, &at_mvd, &format!("{BY_MINUS_16}{more}"), 12);
        }
        edges.refused("vertical -16 & 16", &after(BY_0), BY_MINUS_16, 12);
        edges.refused("vertical -16 & 16 after one", &after(BY_1), BY_MINUS_16, 12);
        // Macroblock 1 stands in the corner: nothing to the left of it or above.
        for (name, horizontal, vertical) in [
            ("out on the left", BY_MINUS_1, BY_0),
            ("out on the left by 15", BY_MINUS_15, BY_0),
            ("out above", BY_0, BY_MINUS_1),
            ("out above, far right", BY_15, BY_MINUS_15),
        ] {
            edges.out_of_picture(name, &at_mvd, horizontal, vertical);
        }
        // Out of the picture is judged once both are read and in range.
        let after_left = after(BY_MINUS_1);
        edges.cut_inside("out on the left, cut", &after_left, "0000 0100 000");
        edges.no_codeword("out on the left, no MVD", &after_left, NO_MVD, MVD);
        edges.refused(
            "out on the left, vertical out of range",
            &after_left,
            BY_MINUS_16,
            12,
        );
    }
    let at_mc = |draft: &Draft, mba: &str| draft.clone().words(&[mba, MC]);
    let sent = |draft: &Draft, mba: &str, horizontal: &str, vertical: &str| {
        at_mc(draft, mba).words(&[horizontal, vertical])
    };
    let accepted = |edges: &mut Edges, name: &str, draft: Draft| {
        edges.accepted(name, &draft.other_groups());
    };
    let to_15 = sent(&header, "1", BY_15, BY_15);
    accepted(edges, "15 and 15", to_15.clone());
    let after_15 = at_mc(&to_15, "1");
    // What would be the vertical word follows.
    edges.refused("15 and one more", &after_15, &format!("{BY_1}{BY_0}"), 12);
    edges.refused(
        "15 and one more down",
        &after_15.clone().word(BY_0),
        BY_1,
        12,
    );
    // 15 - 30 is the other of the pair 2 & -30.
    accepted(
        edges,
        "15 to -15 by the second of a pair",
        sent(&to_15, "1", "0010", BY_0),
    );
    // From 15, -16 & 16 lands on -1, which is in the picture to the left but not above.
    accepted(
        edges,
        "-16 & 16 from 15",
        sent(&to_15, "1", BY_MINUS_16, BY_0),
    );
    edges.out_of_picture(
        "-16 & 16 from 15, out above",
        &after_15,
        BY_MINUS_16,
        BY_MINUS_16,
    );
    // Over an unsent macroblock nothing precedes: 15 again, and one beyond 15 is 1.
    accepted(
        edges,
        "15 over an unsent macroblock",
        sent(&to_15, "011", BY_15, BY_15),
    );
    accepted(
        edges,
        "1 over an unsent macroblock",
        sent(&to_15, "011", BY_1, BY_1),
    );
    let too_far = format!("{BY_MINUS_16}{BY_0}");
    edges.refused(
        "-16 & 16 over an unsent macroblock",
        &at_mc(&to_15, "011"),
        &too_far,
        12,
    );
    // After a macroblock that isn't MC.
    let inter = to_15
        .clone()
        .words(&["1", INTER, "0101 1", "10", END_OF_BLOCK]);
    accepted(edges, "1 after Inter", sent(&inter, "1", BY_1, BY_1));
    edges.refused("-16 & 16 after Inter", &at_mc(&inter, "1"), &too_far, 12);
    // FIL is MC too.
    let fil = header.clone().words(&["1", FIL, BY_15, BY_15]);
    edges.refused(
        "15 and one more after FIL",
        &at_mc(&fil, "1"),
        &format!("{BY_1}{BY_0}"),
        12,
    );
    // Macroblock 12 after 11: a new row.
    let mut row = sent(&header, "0000 1010", BY_0, BY_15);
    if format == Format::Cif {
        row = sent(&header, "0000 1010", BY_15, BY_15);
    }
    accepted(edges, "a new row forgets", sent(&row, "1", BY_1, BY_1));
    edges.refused(
        "a new row forgets, -16 & 16",
        &at_mc(&row, "1").word(BY_0),
        BY_MINUS_16,
        12,
    );
    // Stuffing between isn't a step.
    edges.refused(
        "stuffing keeps the preceding vector",
        &at_mc(&to_15.word(STUFFING), "1"),
        &format!("{BY_1}{BY_0}"),
        12,
    );
    borders(edges, format);
}

/// Vectors at the picture's right and lower border.
fn borders(edges: &mut Edges, format: Format) {
    // The last macroblock of the last group stands in the lower right corner.
    let corner = Draft::header(format)
        .groups_to_last()
        .words(&["0000 0011 000", MC]);
    let with = |words: &[&str]| corner.clone().words(words);
    edges.accepted("the corner itself", &with(&[BY_0, BY_0]));
    edges.accepted("inwards", &with(&[BY_MINUS_15, BY_MINUS_15]));
    edges.out_of_picture("out on the right", &corner, BY_1, BY_0);
    edges.out_of_picture("out below", &corner, BY_0, BY_1);
    edges.out_of_picture("out below, from the left", &corner, BY_MINUS_15, BY_15);
    // Macroblock 11 of the first group: the right border of QCIF, the middle of CIF.
    let eleventh = Draft::header(format).group(1, 1).words(&["0000 1010", MC]);
    match format {
        Format::Qcif => edges.out_of_picture("right of macroblock 11", &eleventh, BY_1, BY_0),
        Format::Cif => {
            let right = eleventh.words(&[BY_1, BY_0]);
            edges.accepted("right of macroblock 11", &right.other_groups());
        }
    }
    // Macroblock 23 of the first group: there is a group below it.
    let below = Draft::header(format)
        .group(1, 1)
        .words(&["0000 0100 010", MC, BY_0, BY_15]);
    edges.accepted("into the group below", &below.other_groups());
}

#[cfg(test)]
mod tests {
    use super::*;
    use crate::reader::read_listed;

    #[test]
    fn the_reader_gives_each_edge_its_answer() {
        let list = edges();
        for edge in &list {
            let reading = read_listed(&edge.bytes, edge.count, edge.opened);
            assert_eq!(
                (reading.answer.err(), reading.reads.len()),
                (edge.refusal, edge.reads),
                "{} ({:?}, {} bits)",
                edge.name,
                edge.opened,
                edge.count
            );
        }
        for number in 2..=13 {
            let found = list
                .iter()
                .any(|edge| edge.refusal.is_some_and(|refusal| refusal.number == number));
            assert!(found, "no edge of refusal {number}");
        }
        for table in [MBA, MTYPE, MVD, CBP, TCOEFF] {
            let found = list
                .iter()
                .any(|edge| edge.refusal.is_some_and(|refusal| refusal.table == table));
            assert!(found, "no edge of table {table}");
        }
        assert!(list.len() > 1000);
    }
}
