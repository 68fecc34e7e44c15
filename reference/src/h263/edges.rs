//! H.263 pictures made by hand at the edges of each refusal, with the answers that T-04's rules give and the
//! number of reads. The answers are written down here, not computed by the reader.

use crate::bits::Bits;

use super::format::Format;
use super::refusal::Refusal;
use super::tables;

pub struct Edge {
    pub name: String,
    pub opened: Format,
    pub bytes: Vec<u8>,
    pub count: usize,
    /// None is accepted.
    pub refusal: Option<Refusal>,
    pub reads: usize,
}

const PICTURE_START_CODE: &str = "0000 0000 0000 0000 1 00000";
const GROUP_START_CODE: &str = "0000 0000 0000 0000 1";
const END_CODE: &str = "0000 0000 0000 0000 1 11111";

/// MCBPC words: CBPC 00, then with CR.
const STUFFING: &str = "0000 0000 1";
const INTRA: &str = "1";
const INTRA_Q: &str = "0001";
const INTER: &str = "1";
const INTER_CR: &str = "0011";
const INTER_Q: &str = "011";
const INTRA_IN_INTER: &str = "0001 1";
const INTRA_Q_IN_INTER: &str = "0001 00";

/// CBPY words: no block, in an INTRA or an INTER macroblock.
const NO_Y_INTRA: &str = "0011";
const NO_Y_INTER: &str = "11";
/// The first block alone.
const FIRST_Y_INTRA: &str = "0001 0";
const FIRST_Y_INTER: &str = "1011";

/// MVD words, in half samples.
const BY_0: &str = "1";
const BY_1: &str = "010";
const BY_MINUS_1: &str = "011";
const BY_31: &str = "0000 0000 0011 0";
const BY_MINUS_32: &str = "0000 0000 0010 1";

/// LAST 1, run 0, level 1; LAST 0, run 0, level -1.
const LAST_ONE: &str = "0111 0";
const ANOTHER: &str = "101";

const CODE_1: &str = "0000 0001";

/// A picture being written down, read by read. What is called at every edge is kept out of line: inlined,
/// it would cost the compiler more time than the tests take.
#[derive(Clone)]
struct Draft {
    opened: Format,
    is_inter: bool,
    bits: Bits,
    reads: usize,
}

impl Draft {
    fn blank(opened: Format) -> Draft {
        Draft {
            opened,
            is_inter: true,
            bits: Bits::default(),
            reads: 0,
        }
    }

    fn to_ptype(opened: Format) -> Draft {
        Draft::blank(opened).reads(&[PICTURE_START_CODE, CODE_1])
    }

    /// PSC, TR 1, PTYPE and PQUANT 1: 48 bits.
    fn to_cpm(opened: Format, is_inter: bool) -> Draft {
        let coding_type = if is_inter { "1" } else { "0" };
        let ptype = format!("10 000 {} {coding_type} 0000", opened.source_format());
        let mut draft = Draft::to_ptype(opened).reads(&[&ptype, "00001"]);
        draft.is_inter = is_inter;
        draft
    }

    /// The whole header, with so many spares: 50 bits and 9 for each.
    fn header(opened: Format, is_inter: bool, spares: usize) -> Draft {
        let draft = Draft::to_cpm(opened, is_inter).read("0");
        let spare = |draft: Draft, _| draft.reads(&["1", "1010 1010"]);
        (0..spares).fold(draft, spare).read("0")
    }

    fn inter(opened: Format) -> Draft {
        Draft::header(opened, true, 0)
    }

    fn intra(opened: Format) -> Draft {
        Draft::header(opened, false, 0)
    }

    #[inline(never)]
    fn read(mut self, word: &str) -> Draft {
        self.bits.word(word);
        self.reads += 1;
        self
    }

    #[inline(never)]
    fn reads(self, words: &[&str]) -> Draft {
        words.iter().fold(self, |draft, word| draft.read(word))
    }

    fn field(self, value: usize, width: usize) -> Draft {
        self.read(&format!("{value:0width$b}"))
    }

    /// Bits that nobody reads.
    #[inline(never)]
    fn tail(mut self, bits: &str) -> Draft {
        self.bits.word(bits);
        self
    }

    /// So many of the smallest macroblocks: unsent, or six DC codes.
    #[inline(never)]
    fn macroblocks(self, count: usize) -> Draft {
        (0..count).fold(self, |draft, _| {
            if draft.is_inter {
                draft.read("1")
            } else {
                draft.reads(&[INTRA, NO_Y_INTRA]).dc_codes(6)
            }
        })
    }

    #[inline(never)]
    fn dc_codes(self, count: usize) -> Draft {
        (0..count).fold(self, |draft, _| draft.read(CODE_1))
    }

    fn rows(self, count: usize) -> Draft {
        let columns = self.opened.columns();
        self.macroblocks(count * columns)
    }

    /// The rest of a picture of which so many macroblocks stand.
    fn finish(self, standing: usize) -> Draft {
        let count = self.opened.macroblock_count();
        self.macroblocks(count - standing)
    }

    #[inline(never)]
    fn stuffing(self) -> Draft {
        if self.is_inter {
            self.reads(&["0", STUFFING])
        } else {
            self.read(STUFFING)
        }
    }

    /// A header of 29 bits.
    #[inline(never)]
    fn group_header(self, group: usize, quantiser: usize) -> Draft {
        self.read(GROUP_START_CODE)
            .field(group, 5)
            .read("00")
            .field(quantiser, 5)
    }

    /// ESCAPE, LAST, RUN, LEVEL.
    fn escape(self, last: usize, run: usize, level: usize) -> Draft {
        self.read(&escape(last, run, level))
    }

    fn place(&self) -> usize {
        self.bits.count
    }

    fn zeros(self, count: usize) -> Draft {
        self.tail(&"0".repeat(count))
    }
}

fn escape(last: usize, run: usize, level: usize) -> String {
    format!("{}{last:b}{run:06b}{level:08b}", tables::ESCAPE)
}

/// A growing list of edges.
#[derive(Default)]
struct Edges {
    list: Vec<Edge>,
}

impl Edges {
    #[inline(never)]
    fn push(&mut self, name: &str, draft: &Draft, refusal: Option<Refusal>, reads: usize) {
        self.list.push(Edge {
            name: name.to_string(),
            opened: draft.opened,
            count: draft.bits.count,
            bytes: draft.bits.bytes.clone(),
            refusal,
            reads,
        });
    }

    #[inline(never)]
    fn accepted(&mut self, name: &str, draft: &Draft) {
        self.push(name, draft, None, draft.reads);
    }

    /// Refused at the read that begins at the draft's end with these bits.
    #[inline(never)]
    fn refused(&mut self, name: &str, draft: &Draft, bits: &str, number: u8) {
        let refusal = Refusal::at(number, draft.place());
        let whole = draft.clone().tail(bits);
        self.push(name, &whole, Some(refusal), draft.reads + 1);
    }

    #[inline(never)]
    fn no_word(&mut self, name: &str, draft: &Draft, bits: &str, table: u8) {
        let refusal = Refusal::no_codeword(draft.place(), table);
        let whole = draft.clone().tail(bits);
        self.push(name, &whole, Some(refusal), draft.reads + 1);
    }

    /// The picture ends before or in the middle of `word`, which would stand at the draft's end: 3 there
    /// each time.
    #[inline(never)]
    fn cut_inside(&mut self, name: &str, draft: &Draft, word: &str) {
        let word = word.replace(' ', "");
        for length in 0..word.len() {
            self.refused(&format!("cut {name}"), draft, &word[..length], 3);
        }
    }

    /// `word` is no codeword at the draft's end, and neither are longer rows of bits that begin so; all
    /// its proper beginnings begin one.
    fn no_codeword(&mut self, name: &str, draft: &Draft, word: &str, table: u8) {
        self.cut_inside(name, draft, word);
        for more in ["", "0", "1", "0000 0000 0000 0000 1", "1111 1111"] {
            self.no_word(
                &format!("no {name}"),
                draft,
                &format!("{word}{more}"),
                table,
            );
        }
    }

    /// A vector out of the picture: both words are read, and the place is the first one's.
    fn out_of_picture(&mut self, name: &str, draft: &Draft, horizontal: &str, vertical: &str) {
        let refusal = Some(Refusal::at(12, draft.place()));
        for more in ["", "0", "1"] {
            let whole = draft.clone().reads(&[horizontal, vertical]).tail(more);
            self.push(name, &whole, refusal, draft.reads + 2);
        }
    }

    /// Bits left after a whole picture: 13 there, and no read more.
    fn left_over(&mut self, name: &str, draft: &Draft, bits: &str) {
        let refusal = Refusal::at(13, draft.place());
        let whole = draft.clone().tail(bits);
        self.push(name, &whole, Some(refusal), draft.reads);
    }
}

pub fn edges() -> Vec<Edge> {
    let mut edges = Edges::default();
    counts(&mut edges);
    for format in Format::ALL {
        picture_headers(&mut edges, format);
        group_headers(&mut edges, format);
        ends(&mut edges, format);
        vectors(&mut edges, format);
    }
    // No rule for these looks at the format.
    macroblocks(&mut edges, Format::Qcif);
    blocks(&mut edges, Format::Qcif);
    start_codes(&mut edges, Format::SubQcif);
    every_word(&mut edges, Format::SubQcif);
    edges.list
}

/// Refusal 2, and the pictures of no bits.
fn counts(edges: &mut Edges) {
    let mut push = |name: &str, opened, length: usize, count, refusal, reads| {
        edges.list.push(Edge {
            name: name.to_string(),
            opened,
            bytes: vec![0; length],
            count,
            refusal: Some(refusal),
            reads,
        });
    };
    for opened in Format::ALL {
        let limit = opened.bit_limit();
        push("no bits in no bytes", opened, 0, 0, Refusal::at(3, 0), 1);
        push("no bits in a byte", opened, 1, 0, Refusal::at(3, 0), 1);
        push("a bit in no bytes", opened, 0, 1, Refusal::plain(2), 0);
        push("nine bits in a byte", opened, 1, 9, Refusal::plain(2), 0);
        push("21 bits", opened, 3, 21, Refusal::at(3, 0), 1);
        push("22 zeros", opened, 3, 22, Refusal::at(4, 0), 1);
        let (bytes, above) = (limit / 8, limit + 1);
        push("the limit", opened, bytes, limit, Refusal::at(4, 0), 1);
        let two = Refusal::plain(2);
        push("past the slice", opened, bytes - 1, limit, two, 0);
        push("above the limit", opened, bytes + 1, above, two, 0);
        push("above both", opened, bytes, above, two, 0);
        push("the largest count", opened, 4, 0xFFFF_FFFF, two, 0);
    }
}

/// Refusals 3, 4, 5, 7 and 14 in the picture's header.
fn picture_headers(edges: &mut Edges, format: Format) {
    let blank = Draft::blank(format);
    edges.cut_inside("PSC", &blank, PICTURE_START_CODE);
    // 21 bits are 3 even where no PSC can begin so.
    edges.cut_inside("wrong PSC", &blank, "1111 1111 1111 1111 1 11111");
    for bit in 0..22 {
        let mut wrong = Bits::default();
        wrong.word(PICTURE_START_CODE);
        wrong.flip(bit);
        let word: String = (0..22)
            .map(|place| {
                if crate::bits::bit_of(&wrong.bytes, place) {
                    '1'
                } else {
                    '0'
                }
            })
            .collect();
        edges.refused("a wrong bit in PSC", &blank, &word, 4);
    }
    edges.refused("H.261's PSC", &blank, "0000 0000 0000 0001 0000 00001 0", 4);
    edges.refused("an end code", &blank, END_CODE, 4);
    let at_tr = blank.read(PICTURE_START_CODE);
    edges.cut_inside("TR", &at_tr, "1111 1111");

    let own = format.source_format();
    let at_ptype = Draft::to_ptype(format);
    // A cut PTYPE is 3, though its bits are against the rules.
    edges.cut_inside("PTYPE", &at_ptype, &format!("10 000 {own} 0 0000"));
    edges.cut_inside("wrong PTYPE", &at_ptype, "01 111 111 1 1111");
    for first in ["00", "01", "11"] {
        for rest in [format!("000 {own} 1 0000"), "111 111 1 1111".to_string()] {
            let ptype = format!("{first} {rest}");
            edges.refused("PTYPE bits 1 and 2", &at_ptype, &ptype, 5);
        }
    }
    for number in 0..8 {
        let source_format = format!("{number:03b}");
        if source_format == own {
            continue;
        }
        // 5 stands before 14.
        for rest in ["0 0000", "1 0000", "1 1111", "0 0001 00000 1"] {
            let ptype = format!("10 000 {source_format} {rest}");
            edges.refused("another format", &at_ptype, &ptype, 5);
        }
    }
    for modes in 1..16u32 {
        let first_set = modes.leading_zeros() as usize - 28;
        for coding_type in [0, 1] {
            for more in ["", "00000", "00001 1"] {
                let ptype = format!("10 101 {own} {coding_type} {modes:04b}");
                let whole = at_ptype.clone().read(&ptype);
                let refusal = Some(Refusal::at(14, 39 + first_set));
                edges.push(
                    "an optional mode",
                    &whole.clone().tail(more),
                    refusal,
                    whole.reads,
                );
            }
        }
    }
    for indicators in 0..8 {
        let draft = at_ptype
            .clone()
            .read(&format!("10 {indicators:03b} {own} 1 0000"))
            .reads(&["11111", "0", "0"]);
        edges.accepted("PTYPE bits 3 to 5", &draft.finish(0));
    }
    for time in ["0000 0000", "1111 1111", "1000 0000"] {
        let draft = at_tr
            .clone()
            .read(time)
            .read(&format!("10 000 {own} 1 0000"))
            .reads(&["10000", "0", "0"]);
        edges.accepted("TR", &draft.finish(0));
    }

    for coding_type in [0, 1] {
        let at_pquant = at_ptype
            .clone()
            .read(&format!("10 000 {own} {coding_type} 0000"));
        edges.cut_inside("PQUANT", &at_pquant, "00000");
        edges.refused("PQUANT 0", &at_pquant, "00000", 7);
        // 7 stands before 14.
        edges.refused("PQUANT 0 and CPM", &at_pquant, "00000 1 1", 7);
    }
    for is_inter in [false, true] {
        let at_cpm = Draft::to_cpm(format, is_inter);
        edges.cut_inside("CPM", &at_cpm, "0");
        for more in ["", "0", "1", "00 0"] {
            edges.refused("CPM", &at_cpm, &format!("1{more}"), 14);
        }
        let at_pei = at_cpm.read("0");
        edges.cut_inside("PEI", &at_pei, "0");
        let at_spare = at_pei.read("1");
        edges.cut_inside("PSPARE", &at_spare, "0000 0000");
        for spare in ["0000 0000", "1100 0000", "0000 0001", "1111 1111"] {
            let after = at_spare.clone().read(spare);
            edges.cut_inside("second PEI", &after, "0");
            edges.accepted("a spare", &after.clone().read("0").finish(0));
            let second = after.reads(&["1", "1010 1010"]);
            edges.cut_inside("third PEI", &second, "0");
            edges.accepted("two spares", &second.read("0").finish(0));
        }
        edges.accepted("no spares", &Draft::header(format, is_inter, 0).finish(0));
    }
}

/// The fields of a header before every group, and headers where none may stand.
fn group_headers(edges: &mut Edges, format: Format) {
    let columns = format.columns();
    for is_inter in [true, false] {
        let header = Draft::header(format, is_inter, 0);
        let table = if is_inter { 7 } else { 6 };
        // Where no header may stand, its first zeros are a COD of 0 and no MCBPC.
        let no_header = |edges: &mut Edges, name: &str, draft: &Draft| {
            let at_word = if is_inter {
                draft.clone().read("0")
            } else {
                draft.clone()
            };
            let code = if is_inter {
                &GROUP_START_CODE[1..]
            } else {
                GROUP_START_CODE
            };
            for group in [0, 1, 2, 31] {
                let bits = format!("{code}{group:05b} 00 00001");
                edges.no_word(name, &at_word, &bits, table);
            }
        };
        no_header(edges, "a header before the first group", &header);
        no_header(edges, "a header after stuffing", &header.clone().stuffing());
        for column in [1, columns / 2, columns - 1] {
            let inside = header.clone().macroblocks(column);
            no_header(edges, "a header inside the first group", &inside);
            let inside = header.clone().rows(1).macroblocks(column);
            no_header(edges, "a header inside the second group", &inside);
        }
        for group in [1, format.groups() - 1] {
            let before = header.clone().rows(group);
            let standing = group * columns;
            edges.cut_inside("GBSC", &before, GROUP_START_CODE);
            let at_gn = before.clone().read(GROUP_START_CODE);
            edges.cut_inside("GN", &at_gn, "11111");
            for wrong in (0..32).filter(|&wrong| wrong != group) {
                let bits = format!("{wrong:05b}");
                edges.refused("wrong GN", &at_gn, &bits, 6);
                edges.refused(
                    "wrong GN, then GQUANT 0",
                    &at_gn,
                    &format!("{bits} 00 00000"),
                    6,
                );
            }
            let at_gfid = at_gn.field(group, 5);
            edges.cut_inside("GFID", &at_gfid, "11");
            for gfid in ["00", "01", "10", "11"] {
                let at_gquant = at_gfid.clone().read(gfid);
                edges.cut_inside("GQUANT", &at_gquant, "00000");
                edges.refused("GQUANT 0", &at_gquant, "00000", 7);
                edges.refused("GQUANT 0, then ones", &at_gquant, "00000 11111", 7);
                let whole = at_gquant.read("11111");
                edges.accepted("a header", &whole.clone().finish(standing));
                no_header(edges, "a second header", &whole);
                no_header(edges, "a second header after stuffing", &whole.stuffing());
            }
            let stuffed = before.clone().stuffing().stuffing();
            let with_header = stuffed.group_header(group, 9);
            edges.accepted(
                "stuffing before a header",
                &with_header.clone().finish(standing),
            );
            let stuffed = with_header.stuffing().finish(standing);
            edges.accepted("stuffing before and after a header", &stuffed);
        }
        let mut all = header;
        for group in 1..format.groups() {
            all = all.rows(1).group_header(group, group);
        }
        edges.accepted("all headers", &all.rows(1));
    }
}

/// Zeros at a group's beginning, at every bit of a byte: start codes with and without GSTUF, their
/// beginnings, and rows of zeros that are neither.
fn start_codes(edges: &mut Edges, format: Format) {
    let columns = format.columns();
    for is_inter in [true, false] {
        let table = if is_inter { 7 } else { 6 };
        for spares in 0..8 {
            let draft = Draft::header(format, is_inter, spares).rows(1);
            let to_byte = (8 - draft.place() % 8) % 8;
            // What no start code is, is read as COD and MCBPC.
            let at_word = if is_inter {
                draft.clone().read("0")
            } else {
                draft.clone()
            };
            let taken = usize::from(is_inter);
            for zeros in 0..=32 {
                let row = "0".repeat(zeros);
                let rest = format!("{}1", "0".repeat(zeros.max(taken) - taken));
                if zeros <= 16 + to_byte {
                    edges.refused("zeros that begin a start code", &draft, &row, 3);
                } else {
                    edges.no_word("too many zeros", &at_word, &rest[..rest.len() - 1], table);
                }
                if zeros == 16 || zeros == 16 + to_byte {
                    let mut with_code = draft.clone();
                    if zeros > 16 {
                        with_code = with_code.read(&"0".repeat(to_byte));
                    }
                    let with_header = with_code.group_header(1, 31);
                    edges.accepted("a start code", &with_header.finish(columns));
                } else if zeros >= 9 + taken {
                    let bits = format!("{rest} 00001 00 11111 1111 1111");
                    edges.no_word("no start code", &at_word, &bits, table);
                }
            }
            // Stuffing moves the place, and GSTUF with it.
            let mut stuffed = draft;
            for _ in 0..4 {
                stuffed = stuffed.stuffing();
                let to_byte = (8 - stuffed.place() % 8) % 8;
                let mut with_gstuf = stuffed.clone();
                if to_byte > 0 {
                    with_gstuf = with_gstuf.read(&"0".repeat(to_byte));
                }
                let with_header = with_gstuf.group_header(1, 2);
                edges.accepted("stuffing and GSTUF", &with_header.finish(columns));
                let plain = stuffed.clone().group_header(1, 3).finish(columns);
                edges.accepted("stuffing and no GSTUF", &plain);
            }
            // The first group has no start code: every zero is COD's or MCBPC's.
            let first = Draft::header(format, is_inter, spares);
            let at_word = if is_inter {
                first.clone().read("0")
            } else {
                first
            };
            for zeros in 0..=24 {
                let row = "0".repeat(zeros);
                if zeros < 9 {
                    edges.refused("zeros that begin stuffing", &at_word, &row, 3);
                } else {
                    edges.no_word("zeros in the first group", &at_word, &row, table);
                }
            }
        }
    }
}

/// Whatever follows the last macroblock.
fn ends(edges: &mut Edges, format: Format) {
    for is_inter in [true, false] {
        let whole = Draft::header(format, is_inter, 0).finish(0);
        edges.accepted("the smallest macroblocks", &whole);
        for zeros in 1..=40 {
            edges.left_over("zeros left over", &whole, &"0".repeat(zeros));
        }
        for bits in [
            "1",
            "0 0000 0000 1",
            STUFFING,
            END_CODE,
            PICTURE_START_CODE,
            GROUP_START_CODE,
            "1111 1111 1111",
        ] {
            edges.left_over("bits left over", &whole, bits);
        }
        let last = Draft::header(format, is_inter, 0).macroblocks(format.macroblock_count() - 1);
        let stuffed = last.clone().stuffing().macroblocks(1);
        edges.accepted("stuffing before the last macroblock", &stuffed);
        edges.left_over("a macroblock too many", &stuffed, "1");
        if is_inter {
            edges.refused("a macroblock too few", &last, "", 3);
        } else {
            edges.cut_inside("last macroblock's MCBPC", &last, "0000 11");
        }
        edges.accepted("no bit past N counts", &whole.clone());
        let more = whole.clone().zeros(13);
        let last_edge = Edge {
            name: "a longer slice".to_string(),
            opened: format,
            bytes: more.bits.bytes,
            count: whole.place(),
            refusal: None,
            reads: whole.reads,
        };
        edges.list.push(last_edge);
    }
}

/// COD, MCBPC, CBPY and DQUANT: refusals 3 and 8.
fn macroblocks(edges: &mut Edges, format: Format) {
    let inter = Draft::inter(format);
    edges.cut_inside("COD", &inter, "0");
    let at_mcbpc = inter.clone().read("0");
    edges.no_codeword("MCBPC in INTER pictures", &at_mcbpc, "0000 0000 0", 7);
    edges.cut_inside("stuffing", &at_mcbpc, STUFFING);
    for word in ["010", "0000 101", "0000 100", "0000 0101"] {
        // A whole word of Table 5, and refused; bits that end inside it are 3.
        edges.no_codeword("INTER4V", &at_mcbpc, word, 7);
    }
    let intra = Draft::intra(format);
    edges.no_codeword("MCBPC in INTRA pictures", &intra, "0000 0000 0", 6);
    edges.no_codeword("MCBPC in INTRA pictures", &intra, "0000 001", 6);
    edges.no_codeword("MCBPC in INTRA pictures", &intra, "0000 0001", 6);
    edges.cut_inside("stuffing", &intra, STUFFING);
    for draft in [&inter, &intra] {
        let mut stuffed = draft.clone();
        for _ in 0..3 {
            stuffed = stuffed.stuffing().macroblocks(1).stuffing().stuffing();
        }
        edges.accepted("stuffing between", &stuffed.finish(3));
    }

    // The word, what follows it, and whether it is INTRA and has DQUANT.
    for (draft, words, is_intra, has_dquant) in [
        (&inter, &["0", INTER][..], false, false),
        (&inter, &["0", INTER_Q], false, true),
        (&inter, &["0", INTRA_IN_INTER], true, false),
        (&inter, &["0", INTRA_Q_IN_INTER], true, true),
        (&intra, &[INTRA], true, false),
        (&intra, &[INTRA_Q], true, true),
    ] {
        let at_cbpy = draft.clone().reads(words);
        edges.no_codeword("CBPY", &at_cbpy, "0000 0", 8);
        let mut after = at_cbpy.read(if is_intra { NO_Y_INTRA } else { NO_Y_INTER });
        if has_dquant {
            edges.cut_inside("DQUANT", &after, "11");
            for code in ["00", "01", "10", "11"] {
                let whole = macroblock_after(after.clone().read(code), is_intra);
                edges.accepted("DQUANT", &whole.finish(1));
            }
            after = after.read("00");
        }
        edges.cut_inside(
            "what follows CBPY and DQUANT",
            &after,
            if is_intra { "0000 0001" } else { BY_31 },
        );
        edges.accepted("a macroblock", &macroblock_after(after, is_intra).finish(1));
    }
}

/// The rest of a macroblock without coefficients: a vector of 0, or six DC codes.
fn macroblock_after(draft: Draft, is_intra: bool) -> Draft {
    if is_intra {
        draft.dc_codes(6)
    } else {
        draft.reads(&[BY_0, BY_0])
    }
}

/// MVD: refusals 3, 8 and 12, and where the predictor comes from.
fn vectors(edges: &mut Edges, format: Format) {
    let columns = format.columns();
    let moved = |draft: Draft, horizontal: &str, vertical: &str| {
        draft.reads(&["0", INTER, NO_Y_INTER, horizontal, vertical])
    };
    let at_mvd = |draft: &Draft| draft.clone().reads(&["0", INTER, NO_Y_INTER]);
    let inter = Draft::inter(format);

    // The four corners and the middle: how far a vector may go left, right, up, down.
    let last_row = (format.groups() - 1) * columns;
    for (standing, left, right, up, down) in [
        (0, false, true, false, true),
        (columns - 1, true, false, false, true),
        (columns + 1, true, true, true, true),
        (last_row, false, true, true, false),
        (last_row + columns - 1, true, false, true, false),
    ] {
        let draft = at_mvd(&inter.clone().macroblocks(standing));
        for (horizontal, is_inside) in [
            (BY_0, true),
            (BY_1, right),
            (BY_31, right),
            (BY_MINUS_1, left),
            (BY_MINUS_32, left),
        ] {
            for (vertical, is_inside_too) in [
                (BY_0, true),
                (BY_1, down),
                (BY_31, down),
                (BY_MINUS_1, up),
                (BY_MINUS_32, up),
            ] {
                if is_inside && is_inside_too {
                    let whole = draft.clone().reads(&[horizontal, vertical]);
                    edges.accepted("inside", &whole.finish(standing + 1));
                } else {
                    edges.out_of_picture("outside", &draft, horizontal, vertical);
                }
            }
        }
    }

    let corner = at_mvd(&inter);
    for word in ["0000 0000 000", "0000 0000 0010 0"] {
        edges.no_codeword("horizontal MVD", &corner, word, 9);
        edges.no_codeword("vertical MVD", &corner.clone().read(BY_0), word, 9);
        // Out of the picture is judged once both are read.
        let out = corner.clone().read(BY_MINUS_1);
        edges.no_codeword("vertical MVD after one that leads outside", &out, word, 9);
    }
    edges.cut_inside("horizontal MVD", &corner, BY_31);
    edges.cut_inside("vertical MVD", &corner.clone().read(BY_MINUS_1), BY_31);

    // 31 and one more is -32, which is inside in the second column and not in the first.
    let to_31 = moved(inter.clone(), BY_31, BY_31);
    edges.accepted("31 and 31", &to_31.clone().finish(1));
    edges.accepted(
        "31 and one more",
        &moved(to_31.clone(), BY_1, BY_0).finish(2),
    );
    edges.out_of_picture("31 and one more, above", &at_mvd(&to_31), BY_0, BY_1);
    // Over an unsent macroblock and after INTRA the predictor is 0.
    let unsent = to_31.clone().macroblocks(1);
    edges.out_of_picture("-1 after an unsent one", &at_mvd(&unsent), BY_0, BY_MINUS_1);
    let intra = to_31
        .clone()
        .reads(&["0", INTRA_IN_INTER, NO_Y_INTRA])
        .dc_codes(6);
    edges.out_of_picture("-1 after INTRA", &at_mvd(&intra), BY_0, BY_MINUS_1);
    edges.accepted(
        "-1 from 31",
        &moved(to_31.clone(), BY_0, BY_MINUS_1).finish(2),
    );
    // Stuffing between takes nothing from the predictor.
    let stuffed = moved(to_31.stuffing(), BY_0, BY_MINUS_1);
    edges.accepted("-1 from 31 after stuffing", &stuffed.finish(2));

    // The first row moves down by 31 from the second column on; in the first column of the second row the
    // candidates are 0, above and above to the right.
    let mut row = inter.clone().macroblocks(1);
    row = moved(row, BY_0, BY_31);
    for _ in 2..columns {
        row = moved(row, BY_0, BY_0);
    }
    // 0, 0, 31: the predictor is 0, and -1 to the left is outside.
    edges.out_of_picture("median of 0, 0, 31", &at_mvd(&row), BY_MINUS_1, BY_0);
    // The second column: 0, 31, 31 makes 31. Down to the last row but one there is room for 31 - 32 = -1
    // and for 31 + 1, which is -32.
    let second = row.clone().macroblocks(1);
    let by_one = moved(second.clone(), BY_0, BY_1);
    edges.accepted(
        "median of 0, 31, 31, and one more",
        &by_one.finish(columns + 2),
    );
    // With a header the row above doesn't count.
    let headed = row.group_header(1, 1).macroblocks(1);
    edges.accepted(
        "0 below a header, and -32",
        &moved(headed.clone(), BY_0, BY_MINUS_32).finish(columns + 2),
    );

    // The first row moves right by 31. In the first column of the second row 0, 31, 31 makes 31, and one
    // less is inside; below a header the predictor is 0, and one less is outside.
    let row = moved(moved(inter.clone(), BY_31, BY_0), BY_0, BY_0).macroblocks(columns - 2);
    let below = moved(row.clone(), BY_MINUS_1, BY_0);
    edges.accepted(
        "median of 0, 31, 31, and one less",
        &below.finish(columns + 1),
    );
    let headed = row.group_header(1, 1);
    edges.out_of_picture(
        "one less below a header",
        &at_mvd(&headed),
        BY_MINUS_1,
        BY_0,
    );

    // In the last column of the second row 31, -1 and 0, since nothing stands above to the right.
    let row = moved(inter.clone().macroblocks(columns - 1), BY_MINUS_1, BY_0);
    let second = moved(row.macroblocks(columns - 2), BY_31, BY_0);
    let last = moved(second.clone(), BY_MINUS_1, BY_0);
    edges.accepted(
        "median of 31, -1, 0, and one less",
        &last.finish(2 * columns),
    );
    edges.out_of_picture(
        "median of 31, -1, 0, and one more",
        &at_mvd(&second),
        BY_1,
        BY_0,
    );

    // Upwards from the first row is outside: what the predictor is, decides. Left 31, nothing above.
    let first = moved(inter.clone(), BY_0, BY_31);
    let last_column = (2..columns).fold(first, |draft, _| moved(draft, BY_0, BY_0));
    // In the last column MV3 is 0, and the median of 31, 31, 0 is 31.
    edges.accepted(
        "the last column",
        &moved(last_column.clone(), BY_0, BY_MINUS_1).finish(columns),
    );
    edges.out_of_picture("the last column, above", &at_mvd(&last_column), BY_0, BY_1);
}

/// Blocks: refusals 3, 8, 10 and 11.
fn blocks(edges: &mut Edges, format: Format) {
    for (draft, words) in [
        (Draft::inter(format), &["0", INTRA_IN_INTER, NO_Y_INTRA][..]),
        (Draft::intra(format), &[INTRA, NO_Y_INTRA]),
    ] {
        let first = draft.reads(words);
        for before in 0..6 {
            let at_dc = first.clone().dc_codes(before);
            edges.cut_inside("DC code", &at_dc, "0000 0000");
            for code in ["0000 0000", "1000 0000"] {
                edges.refused("DC code", &at_dc, code, 10);
                edges.refused(
                    "DC code, then ones",
                    &at_dc,
                    &format!("{code} 1111 1111"),
                    10,
                );
            }
            for code in [
                "0000 0001",
                "0111 1111",
                "1000 0001",
                "1111 1110",
                "1111 1111",
            ] {
                let whole = at_dc.clone().read(code).dc_codes(5 - before);
                edges.accepted("DC code", &whole.finish(1));
            }
        }
    }
    // The first Y block alone, in an INTRA and an INTER macroblock; then CR alone.
    let intra = Draft::intra(format).reads(&[INTRA, FIRST_Y_INTRA, "1111 1111"]);
    let inter = Draft::inter(format).reads(&["0", INTER, FIRST_Y_INTER, BY_0, BY_0]);
    let red = Draft::inter(format).reads(&["0", INTER_CR, NO_Y_INTER, BY_0, BY_0]);
    block_edges(edges, "INTRA", &intra, 63, |draft| {
        draft.dc_codes(5).finish(1)
    });
    block_edges(edges, "INTER", &inter, 64, |draft| draft.finish(1));
    block_edges(edges, "CR", &red, 64, |draft| draft.finish(1));
}

/// A block of which so many places are left.
fn block_edges(
    edges: &mut Edges,
    name: &str,
    draft: &Draft,
    places: usize,
    finish: impl Fn(Draft) -> Draft,
) {
    edges.no_codeword(&format!("TCOEF, {name}"), draft, "0000 0000 0", 10);
    edges.cut_inside(&format!("escape, {name}"), draft, &escape(0, 0, 0));
    edges.cut_inside(&format!("long word, {name}"), draft, "0000 0101 1111 1");
    for last in [0, 1] {
        for level in [0, 128] {
            edges.refused("forbidden level", draft, &escape(last, 0, level), 10);
            // 10 stands before 11.
            edges.refused("forbidden level", draft, &escape(last, 63, level), 10);
        }
        if places < 64 {
            edges.refused("run past the 64th", draft, &escape(last, 63, 1), 11);
        }
        for run in [0, 1, 30, 61, places - 1] {
            for level in [1, 2, 12, 13, 127, 129, 255] {
                let one = draft.clone().escape(last, run, level);
                if last == 1 {
                    edges.accepted("an escape", &finish(one));
                } else if run + 1 < places {
                    edges.accepted("an escape and another", &finish(one.read(LAST_ONE)));
                }
            }
        }
    }
    // LAST 0 for the 64th: no fault itself, but nothing can follow.
    let full = draft.clone().escape(0, places - 1, 1);
    let mut filled = draft.clone();
    for _ in 0..places {
        filled = filled.read(ANOTHER);
    }
    for draft in [&full, &filled] {
        edges.no_codeword("TCOEF after the 64th", draft, "0000 0000 0", 10);
        edges.cut_inside("escape after the 64th", draft, &escape(1, 0, 1));
        edges.refused("a 65th", draft, LAST_ONE, 11);
        edges.refused("a 65th", draft, ANOTHER, 11);
        edges.refused("a 65th of run 40", draft, "0000 0101 1111 0", 11);
        edges.refused("an escaped 65th", draft, &escape(1, 0, 1), 11);
        edges.refused("an escaped 65th of level 0", draft, &escape(1, 0, 0), 10);
        edges.refused(
            "an escaped 65th of level -128",
            draft,
            &escape(0, 63, 128),
            10,
        );
    }
    let mut nearly = draft.clone();
    for _ in 0..places - 1 {
        nearly = nearly.read(ANOTHER);
    }
    edges.accepted("64 coefficients", &finish(nearly.clone().read(LAST_ONE)));
    edges.refused("run 1 at the 64th", &nearly, "0011 110", 11);
}

/// Every codeword of every table in a picture, with every cut.
fn every_word(edges: &mut Edges, format: Format) {
    let inter = Draft::inter(format);
    let at_inter = inter.clone().read("0");
    for (meaning, word) in tables::MCBPC_INTER {
        edges.cut_inside("MCBPC", &at_inter, word);
        mcbpc_edge(edges, &at_inter, meaning, word);
    }
    let intra = Draft::intra(format);
    for (meaning, word) in tables::MCBPC_INTRA {
        edges.cut_inside("MCBPC", &intra, word);
        mcbpc_edge(edges, &intra, meaning, word);
    }
    for (of_intra, of_inter, word) in tables::CBPY {
        let at_intra = intra.clone().read(INTRA);
        edges.cut_inside("CBPY", &at_intra, word);
        let mut whole = at_intra.read(word);
        for bit in of_intra.chars() {
            whole = whole.read(CODE_1);
            if bit == '1' {
                whole = whole.read(LAST_ONE);
            }
        }
        edges.accepted("CBPY, INTRA", &whole.dc_codes(2).finish(1));
        let at_inter = inter.clone().reads(&["0", INTER]);
        edges.cut_inside("CBPY", &at_inter, word);
        let whole = at_inter.reads(&[word, BY_0, BY_0]);
        let blocks = of_inter.matches('1').count();
        let whole = (0..blocks).fold(whole, |draft, _| draft.read(LAST_ONE));
        edges.accepted("CBPY, INTER", &whole.finish(1));
    }
    // A macroblock with room on all sides.
    let inside = format.columns() + 1;
    let at_mvd = inter
        .clone()
        .macroblocks(inside)
        .reads(&["0", INTER, NO_Y_INTER]);
    for (_, _, word) in tables::MVD {
        edges.cut_inside("horizontal MVD", &at_mvd, word);
        let after = at_mvd.clone().read(word);
        edges.accepted(
            "horizontal MVD",
            &after.clone().read(BY_0).finish(inside + 1),
        );
        let after = at_mvd.clone().read(BY_0);
        edges.cut_inside("vertical MVD", &after, word);
        edges.accepted("vertical MVD", &after.read(word).finish(inside + 1));
    }
    let at_intra = intra.reads(&[INTRA, FIRST_Y_INTRA, CODE_1]);
    let at_inter = inter.reads(&["0", INTER, FIRST_Y_INTER, BY_0, BY_0]);
    for (last, _, _, word) in tables::TCOEF {
        for sign in ["0", "1"] {
            let word = format!("{word}{sign}");
            edges.cut_inside("TCOEF", &at_inter, &word);
            for (draft, others) in [(&at_intra, 5), (&at_inter, 0)] {
                let mut whole = draft.clone().read(&word);
                if !last {
                    edges.refused("an end before LAST", &whole, "", 3);
                    whole = whole.read(LAST_ONE);
                }
                edges.accepted("TCOEF", &whole.dc_codes(others).finish(1));
            }
        }
    }
}

/// A word of Table 4 or 5 with what follows it.
fn mcbpc_edge(edges: &mut Edges, draft: &Draft, meaning: tables::Mcbpc, word: &str) {
    let after = draft.clone().read(word);
    let tables::Mcbpc::Coded { mb_type, cbpc } = meaning else {
        let is_inter = draft.is_inter;
        edges.cut_inside("what follows stuffing", &after, "0");
        let rest = if is_inter {
            after.finish(0)
        } else {
            after.macroblocks(1).finish(1)
        };
        edges.accepted("stuffing", &rest);
        return;
    };
    if mb_type == 2 {
        edges.no_word("INTER4V", draft, word, 7);
        return;
    }
    let is_intra = mb_type >= 3;
    let mut whole = after.read(if is_intra { NO_Y_INTRA } else { NO_Y_INTER });
    if mb_type == 1 || mb_type == 4 {
        whole = whole.read("10");
    }
    whole = if is_intra {
        whole.dc_codes(4)
    } else {
        whole.reads(&[BY_0, BY_0])
    };
    for is_coded in cbpc {
        if is_intra {
            whole = whole.read(CODE_1);
        }
        if is_coded {
            whole = whole.read(LAST_ONE);
        }
    }
    edges.accepted("MCBPC", &whole.finish(1));
}

#[cfg(test)]
mod tests {
    use super::*;
    use crate::h263::reader::read_listed;

    #[test]
    fn the_reader_gives_each_edge_its_answer() {
        let list = edges();
        for edge in &list {
            let reading = read_listed(&edge.bytes, edge.count, edge.opened);
            assert_eq!(
                (reading.answer.err(), reading.reads.len()),
                (edge.refusal, edge.reads),
                "{} ({:?}, {} bits)",
                edge.name,
                edge.opened,
                edge.count
            );
        }
        let refusals: Vec<Refusal> = list.iter().filter_map(|edge| edge.refusal).collect();
        for number in [2, 3, 4, 5, 6, 7, 8, 10, 11, 12, 13, 14] {
            let found = refusals.iter().any(|refusal| refusal.number == number);
            assert!(found, "no edge of refusal {number}");
        }
        for table in 6..=10 {
            let found = refusals.iter().any(|refusal| refusal.table == table);
            assert!(found, "no edge of table {table}");
        }
        assert!(list.len() > 5000, "{}", list.len());
    }
}
