//! The two calls on grey files as C makes them, and what `pgmnoise` writes, beside a reading of request A.2 that stands on its own:
//! the header by its parts between whitespace, the orders of the reader and of the program, the program's lines, and what is left
//! in every lent slice, before and past it.

use super::{calls::{numbered, Lent}, noise, random::Random, stored::{columns, Lines}, Image, Run, Stored, Topic, Value};
use std::{array, collections::{BTreeMap, BTreeSet}, fs, iter::repeat_with, str, sync::OnceLock};

pub const TOPIC: Topic = Topic { name: "pgm", gate: true, compare, store: Some(store), speed: None };

unsafe extern "C" {
    fn vuzgari_pgm_header(front: *const u8, front_len: usize, fields: *mut u64, fields_len: usize) -> u32;
    fn vuzgari_pgm_judge(front: *const u8, front_len: usize, file_len: usize) -> u32;
    fn vuzgari_compare_pgmnoise(
        input: *const u8,
        input_len: usize,
        out: *mut u8,
        out_len: usize,
        remark: *mut u8,
        remark_len: usize,
        said: *mut usize,
    ) -> usize;
}

/// The bytes of the longest header, and the fields of a header.
const HEADER: usize = 21;
const FIELDS: usize = 4;
const WHITE: [u8; 4] = [0x20, 0x09, 0x0d, 0x0a];
/// The program takes so many pixels, and reads so many bytes: a byte more than the longest file that it takes.
const PIXELS: u64 = 4_096;
const READ: usize = HEADER + 4_096 + 1;

fn compare(run: &mut Run) {
    for (what, files) in lists() {
        let files: Vec<File> = run.once(files).collect();
        compare_files(run, what, files.iter().cloned());
    }
    let seed = run.random("seeded").bits();
    compare_files(run, "seeded", (0..run.size(100_000)).map(|k| File::any(&mut Random::new(seed ^ k))));
    let calls = run.once(lengths());
    numbered(run, "headers, lengths", calls, HeaderCall::ours, HeaderCall::theirs, |left| left.0);
    measured(run);
}

/// Files through both calls and the program.
fn compare_files(run: &mut Run, what: &str, files: impl Iterator<Item = File> + Clone) {
    let headers = files.clone().map(|file| HeaderCall::of(&file));
    numbered(run, &format!("headers, {what}"), headers, HeaderCall::ours, HeaderCall::theirs, |left| left.0);
    numbered(run, &format!("judgements, {what}"), files.clone(), File::judged, File::judgement, |left| left.0);
    let (ours, theirs) = (|file: &File| told(file.read()), |file: &File| says(&answer(&file.read(), file.len())));
    numbered(run, &format!("pgmnoise, {what}"), files, ours, theirs, Said::number);
}

// The reading.

#[derive(Clone, Copy)]
struct Header {
    sides: [u64; 2],
    maximum: u64,
    /// Where the raster begins.
    start: usize,
}

/// Four whitespace bytes, the first four, end `P5` and three numbers.
fn header(file: &[u8]) -> Option<Header> {
    let parts: Vec<&[u8]> = file.splitn(5, |byte| WHITE.contains(byte)).collect();
    let [b"P5", w, h, maximum, raster] = parts[..] else { return None };
    Some(Header { sides: [decimal(w)?, decimal(h)?], maximum: decimal(maximum)?, start: file.len() - raster.len() })
}

/// 1 to 5 decimal digits, the first not 0.
fn decimal(part: &[u8]) -> Option<u64> {
    let digits = part.iter().all(u8::is_ascii_digit) && (1..=5).contains(&part.len()) && part[0] != b'0';
    digits.then(|| str::from_utf8(part).unwrap().parse().unwrap())
}

/// The first of 20, 21, 16 (over so many pixels) and 22 that applies to a file of so many bytes, or 0.
fn refusal(header: Option<Header>, len: u64, most: u64) -> u32 {
    let Some(Header { sides: [w, h], maximum, start }) = header else { return 20 };
    match w * h {
        _ if maximum != 255 => 21,
        pixels if pixels > most => 16,
        pixels if len - start as u64 != pixels => 22,
        _ => 0,
    }
}

/// The reader's number: it takes any count of pixels.
fn judge(header: Option<Header>, len: u64) -> u32 {
    refusal(header, len, u64::MAX)
}

/// The ten fields of the program's line, for a file of so many bytes that begins with those that it reads.
fn answer(read: &[u8], len: u64) -> Vec<u32> {
    let header = header(read);
    match (refusal(header, len, PIXELS), header) {
        (0, Some(Header { sides: [w, h], start, .. })) => noise::answered(&read[start..], w as usize, h as usize),
        (number, _) => noise::refused(number),
    }
}

/// Why there is no figure, as docs/NUMBERS.md has it.
fn reason(number: u32) -> &'static str {
    static REASONS: OnceLock<BTreeMap<u32, String>> = OnceLock::new();
    let read = || {
        let text = fs::read_to_string("docs/NUMBERS.md").expect("docs/NUMBERS.md");
        let rows = text.lines().map(|line| line.split('|').map(str::trim).collect::<Vec<_>>());
        rows.filter_map(|row| Some((row.get(1)?.parse().ok()?, row.get(3)?.to_string()))).collect()
    };
    REASONS.get_or_init(read).get(&number).unwrap_or_else(|| panic!("docs/NUMBERS.md has no reason for {number}"))
}

// Files and calls.

/// These bytes, and so many more, drawn from a seed.
#[derive(Clone, Debug, PartialEq)]
struct File {
    head: Vec<u8>,
    rest: u64,
    seed: u64,
}

/// What a header is made of, and what may be taken for it.
const LETTERS: [u8; 16] = *b"P5 01925\t\r\n#+\x0b\x0c\0";

impl File {
    fn new(head: impl AsRef<[u8]>, rest: u64) -> Self {
        let head = head.as_ref().to_vec();
        let seed = head.iter().fold(rest, |seed, &byte| Random::new(seed ^ u64::from(byte)).bits());
        File { head, rest, seed }
    }

    fn len(&self) -> u64 {
        self.head.len() as u64 + self.rest
    }

    /// Its first bytes, so many or all; the drawn ones are any, or a header's.
    fn first(&self, n: usize) -> Vec<u8> {
        let n = self.len().min(n as u64) as usize;
        let mut bytes = self.head.clone();
        let mut random = Random::new(self.seed);
        while bytes.len() < n {
            let eight = random.bits().to_le_bytes();
            bytes.extend(if self.seed % 2 == 0 { eight } else { eight.map(|k| LETTERS[usize::from(k % 16)]) });
        }
        bytes.truncate(n);
        bytes
    }

    /// As many first bytes as a call is lent: at least a longest header's, or all.
    fn lent(&self) -> usize {
        self.len().min(HEADER as u64 + self.seed / 2 % 12) as usize
    }

    /// What the call on the file's first bytes answers, and the bytes after it.
    fn judged(&self) -> (u32, Front) {
        let mut front = front(&self.first(ROOM), self.lent());
        let number = unsafe { vuzgari_pgm_judge(front.start(), front.len, self.len() as usize) };
        (number, front)
    }

    fn judgement(&self) -> (u32, Front) {
        let bytes = self.first(ROOM);
        (judge(header(&bytes), self.len()), front(&bytes, self.lent()))
    }

    /// All that the program reads of it.
    fn read(&self) -> Vec<u8> {
        self.first(READ)
    }
}

impl Value for File {
    fn same(&self, other: &Self) -> bool {
        self == other
    }
    fn shown(&self) -> String {
        format!("{:?} and {} bytes, seed {}", self.head.escape_ascii().to_string(), self.rest, self.seed)
    }
    /// With half of the bytes behind, or without a byte before them.
    fn smaller(&self) -> Vec<Self> {
        let fewer = (self.rest > 0).then(|| File { rest: self.rest / 2, ..self.clone() });
        let without = |k: usize| File { head: [&self.head[..k], &self.head[k + 1..]].concat(), ..self.clone() };
        fewer.into_iter().chain((0..self.head.len()).map(without)).collect()
    }
}

/// Places for a front and for fields.
const ROOM: usize = 40;
type Front = Lent<u8, ROOM>;
type Fields = Lent<u64, 9>;

/// The first `len` of these bytes, with the others behind; a header might go on past all of them.
fn front(bytes: &[u8], len: usize) -> Front {
    Lent::new(len, |k| b"55 1 2\n"[k % 7]).with(bytes)
}

fn fields(len: usize) -> Fields {
    Lent::new(len, |k| !0 << 32 | k as u64)
}

/// A call that reads a header, and the slices before it.
#[derive(Clone, Copy, Debug)]
struct HeaderCall {
    front: Front,
    fields: Fields,
}

impl HeaderCall {
    /// With fields enough.
    fn of(file: &File) -> Self {
        let more = file.seed / 64 % 5;
        HeaderCall { front: front(&file.first(ROOM), file.lent()), fields: fields(FIELDS + more as usize) }
    }

    fn ours(&self) -> (u32, Front, Fields) {
        let HeaderCall { mut front, mut fields } = *self;
        // Pointers that may write: a change of what is only read would show.
        let number = unsafe { vuzgari_pgm_header(front.start(), front.len, fields.start(), fields.len) };
        (number, front, fields)
    }

    fn theirs(&self) -> (u32, Front, Fields) {
        let left = |number: u32, fields: Fields| (number, self.front, fields);
        if self.fields.len < FIELDS {
            return left(4, self.fields);
        }
        match header(self.front.lent()) {
            Some(Header { sides: [w, h], maximum, start }) => left(0, self.fields.with(&[w, h, maximum, start as u64])),
            None => left(20, self.fields),
        }
    }
}

impl Value for HeaderCall {
    fn same(&self, _: &Self) -> bool {
        unreachable!("an input")
    }
    fn shown(&self) -> String {
        format!("{:?}, {}", self.front.lent().escape_ascii().to_string(), self.fields.shown())
    }
}

type Report = Lent<u8, 320>;
type Remark = Lent<u8, 448>;

/// What the program writes, and whether its input stays.
#[derive(Clone, PartialEq)]
struct Said {
    report: Report,
    remark: Remark,
    lengths: [usize; 2],
    kept: bool,
}

impl Said {
    /// Room that holds other text.
    fn room() -> Self {
        let (report, remark) = (Lent::new(300, |k| b'a' + (k % 26) as u8), Lent::new(420, |k| b'A' + (k % 26) as u8));
        Said { report, remark, lengths: [0; 2], kept: true }
    }

    /// The first field of the line below the header.
    fn number(&self) -> u32 {
        let text = str::from_utf8(self.report.lent()).expect("text");
        text.lines().nth(1).and_then(|line| line.split(' ').next()?.parse().ok()).expect("a number")
    }
}

impl Value for Said {
    fn same(&self, other: &Self) -> bool {
        self == other
    }
    fn shown(&self) -> String {
        let Said { report, remark, lengths, kept } = self;
        let [report, remark] = [&report.held[..], &remark.held].map(|bytes| bytes.escape_ascii().to_string());
        format!("[{report:?}, {remark:?}, {lengths:?}, {}]", if *kept { "input kept" } else { "input changed" })
    }
}

fn told(mut input: Vec<u8>) -> Said {
    let len = input.len();
    // More behind, with which a header might go on.
    input.extend(b"55 1 1 255\n1");
    let (before, mut said) = (input.clone(), Said::room());
    let Said { report, remark, lengths: [written, remarked], kept } = &mut said;
    let (from, out, room) = (input.as_mut_ptr(), report.start(), remark.start());
    *written = unsafe { vuzgari_compare_pgmnoise(from, len, out, report.len, room, remark.len, remarked) };
    *kept = input == before;
    said
}

fn says(words: &[u32]) -> Said {
    let lines = format!("answer sigma milli b0 b1 b2 b3 rail rounds passes\n{}\n", noise::shown(words));
    let said = match words[0] {
        0 => String::new(),
        number => format!("pgmnoise: no figure, number {number}: {}\n", reason(number)),
    };
    let Said { report, remark, kept, .. } = Said::room();
    let lengths = [lines.len(), said.len()];
    Said { report: report.with(lines.as_bytes()), remark: remark.with(said.as_bytes()), lengths, kept }
}

// Fixed lists.

/// The header of a good file, in three lines.
fn head(w: u64, h: u64) -> String {
    format!("P5\n{w} {h}\n255\n")
}

fn good(w: u64, h: u64) -> File {
    File::new(head(w, h), w * h)
}

/// Lists of files by what they vary.
fn lists() -> [(&'static str, Box<dyn Iterator<Item = File>>); 6] {
    [
        ("good and broken", Box::new(broken())),
        ("whitespace", Box::new(whitespace())),
        ("a byte", Box::new(byte_by_byte().into_iter())),
        ("numbers", Box::new(numbers())),
        ("short strings", Box::new(short_strings())),
        ("products", Box::new(products().into_iter())),
    ]
}

/// Headers that keep the subset and such as break it by one thing, each with a raster for 26 by 26 pixels, a byte less, a byte
/// more, and none.
fn broken() -> impl Iterator<Item = File> {
    HEADS.into_iter().flat_map(|head| [676, 675, 677, 0].map(|rest| File::new(head, rest)))
}

const HEADS: [&str; 60] = [
    "P5 26 26 255\n", "P5\n26 26\n255\n", "P5\r26\t26\r255\t", "P5 26 26 100\n", "P5 26 26 254\n", "P5 26 26 256\n", "P5 26 26 1\n",
    "P5 26 26 65535\n", "P5 26 26 99999\n", "P5 26 26 511\n", "P5 26 26 100", "P5 26 26 255", "P5 26 26 0255\n", "P5 026 26 255\n",
    "P5 26 026 255\n", "P5 0 26 255\n", "P5 26 0 255\n", "P5 26 26 0\n", "P5 00 26 255\n", "P5 26 00 255\n", "P5 26 26 00\n",
    "P5 000026 26 255\n", "P5 100000 26 255\n", "P5 26 100000 255\n", "P5 26 26 100000\n", "P5 26 26 255255\n", "P5 26 26 000255\n",
    "P5 +26 26 255\n", "P5 -26 26 255\n", "P5 26 +26 255\n", "P5 26 -26 255\n", "P5 26 26 +255\n", "P5 26 26 -1\n",
    "P5#c\n26 26 255\n", "P5 #c\n26 26 255\n", "P5\n# c\n26 26\n255\n", "P5 26 #c\n26 255\n", "P5 26 26 #c\n255\n",
    "P5 26 26 255#c\n", "P5 26 26 255 #c\n", "P5  26 26 255\n", "P5 26  26 255\n", "P5 26 26  255\n", "P5 26 26 255  ",
    "P5 26 26 255\r\n", "P5\r\n26 26 255\n", "P5 26 26\r\n255\n", "P526 26 255\n", "P2 26 26 255\n", "P6 26 26 255\n",
    "p5 26 26 255\n", "P4 26 26\n", "P55 26 26 255\n", " P5 26 26 255\n", "\nP5 26 26 255\n", "PP5 26 26 255\n", "5P 26 26 255\n",
    "P5 26 26\n", "P5 2 6 26 255\n", "P5 26.0 26 255\n",
];

/// A header of 26 by 26 pixels with this byte at one of the four places for whitespace.
fn spaced(place: usize, byte: u8, rest: u64) -> File {
    let mut white = *b" \n\t\r";
    white[place] = byte;
    let [a, b, c, d] = white.map(|byte| [byte]);
    File::new([&b"P5"[..], &a, b"26", &b, b"26", &c, b"255", &d].concat(), rest)
}

/// Every byte at each of the four places.
fn whitespace() -> impl Iterator<Item = File> {
    (0..4).flat_map(|place| (0..=255).flat_map(move |byte| [676, 0].map(|rest| spaced(place, byte, rest))))
}

/// Good headers and others with a byte changed, removed, doubled, inserted, or cut from there on.
fn byte_by_byte() -> Vec<File> {
    let heads = [("P5 26 26 255\n", 676), ("P5\n4 5\n255\n", 20), ("P5 99999 99999 255\n", 0), ("P5\t12345\r54321 99999\n", 4)];
    let mut all = vec![];
    for (head, rest) in heads.map(|(head, rest)| (head.as_bytes(), rest)) {
        for k in 0..=head.len() {
            let (before, after) = head.split_at(k);
            all.push(File::new(before, 0));
            all.extend((0..=255).map(|byte| File::new([before, &[byte], after].concat(), rest)));
            if let Some((old, after)) = after.split_first() {
                all.push(File::new([before, after].concat(), rest));
                all.push(File::new([before, &[*old, *old], after].concat(), rest));
                all.extend((0..=255).map(|byte| File::new([before, &[byte], after].concat(), rest)));
            }
        }
    }
    all
}

/// Every number of up to five digits in each place, and a little beyond.
fn numbers() -> impl Iterator<Item = File> {
    (0..100_020).flat_map(|n| {
        let wide = (format!("P5 {n} 1 255\n"), n);
        let high = (format!("P5 1 {n} 255\n"), n);
        let maximum = (format!("P5 1 1 {n}\n"), 1);
        [wide, high, maximum].map(|(head, rest)| File::new(head, rest))
    })
}

/// Every string of up to five letters after the front of a header, which some of them end.
fn short_strings() -> impl Iterator<Item = File> {
    let letters = b" 0125\n#P";
    let string = move |n: usize, k: usize| (0..n).map(|at| letters[k >> (3 * at) & 7]).collect::<Vec<u8>>();
    let strings = (0..=5).flat_map(move |n| (0..1 << (3 * n)).map(move |k| string(n, k)));
    let fronts = [("", 0), ("P5", 0), ("P5 1", 0), ("P5 1 1", 1)];
    strings.flat_map(move |string| fronts.map(|(front, rest)| File::new([front.as_bytes(), &string].concat(), rest)))
}

/// Sides whose product is about the program's limit, or wraps in 32 bits; rasters of that length, of what is left of it in fewer
/// bits, and about it.
fn products() -> Vec<File> {
    let near = (PIXELS - 4..=PIXELS + 4).flat_map(|n| (1..=n).filter(move |w| n % w == 0).map(move |w| [w, n / w]));
    let mut sides: Vec<[u64; 2]> = near.collect();
    let wide = [1, 2, 16, 255, 256, 257, 4_095, 4_096, 4_097, 32_768, 42_949, 43_691, 65_535, 65_536, 65_537, 98_304, 99_999];
    sides.extend(wide.into_iter().flat_map(|w| wide.map(|h| [w, h])));
    let mut all = vec![];
    for [w, h] in sides {
        let n = w * h;
        let near = [0, 1, n - 1, n, n + 1, n + (1 << 32), w, h, u64::MAX - HEADER as u64];
        let rests: BTreeSet<u64> = near.into_iter().chain([16, 31, 32].map(|bits| n % (1 << bits))).collect();
        all.extend(rests.into_iter().map(|rest| File::new(head(w, h), rest)));
        all.extend([0, n].map(|rest| File::new(format!("P5 {w} {h} 254\n"), rest)));
    }
    all
}

/// Fronts of each length, and fields of each count, of headers that are right, broken, and cut.
fn lengths() -> impl Iterator<Item = HeaderCall> {
    let files = [good(26, 26), good(99_999, 99_999), File::new("P5 12345 54321 99999\n", 9), File::new("P5 026 26 255\n", 676)];
    files.into_iter().flat_map(|file| {
        (0..=25).flat_map(move |n| {
            let front = front(&file.first(ROOM), n);
            (0..=6).map(move |m| HeaderCall { front, fields: fields(m) })
        })
    })
}

// Seeded files.

/// A number of each count of digits.
fn side(random: &mut Random) -> u64 {
    match random.below(8) {
        0 => 10_u64.pow(random.below(5) as u32 + 1) - 1,
        1..5 => 1 + random.below(12),
        _ => {
            let least = 10_u64.pow(random.below(5) as u32);
            least + random.below(9 * least)
        }
    }
}

impl File {
    /// One that keeps the subset, or was spoiled after; its raster fits, is a byte off, or is of another length.
    fn any(random: &mut Random) -> Self {
        let [w, h, any] = array::from_fn(|_| side(random));
        let maximum = if random.below(4) > 0 { 255 } else { random.pick(&[254, 256, 2_550, 25, any]) };
        let mut parts = [String::new(), w.to_string(), h.to_string(), maximum.to_string()].map(String::into_bytes);
        parts[0] = b"P5".to_vec();
        let mut whites: [Vec<u8>; 4] = array::from_fn(|_| vec![random.pick(&WHITE)]);
        let times = random.pick(&[0, 0, 0, 1, 1, 2]);
        for _ in 0..times {
            if random.below(2) == 0 {
                spoil_part(random, &mut parts, &mut whites);
            }
        }
        let mut head: Vec<u8> = parts.into_iter().zip(whites).flat_map(|(part, white)| [part, white]).flatten().collect();
        for _ in 0..times {
            if random.below(2) == 0 {
                spoil_byte(random, &mut head);
            }
        }
        let (n, other) = (w * h, random.below(2 * w * h));
        let rest = random.pick(&[n, n, n, n, n + 1, n - 1, 0, n % (1 << 32), other]);
        File { head, rest, seed: random.bits() }
    }
}

/// Another mark; a number with zeros, a digit more, a sign, or none; a whitespace byte doubled, changed, gone, or with a comment.
fn spoil_part(random: &mut Random, parts: &mut [Vec<u8>; 4], whites: &mut [Vec<u8>; 4]) {
    let number = &mut parts[1 + random.below(3) as usize];
    let white = &mut whites[random.below(4) as usize];
    match random.below(11) {
        0 => parts[0] = random.pick(&["P2", "P6", "p5", "P4", "P55", "5P", "P", "5", "", "\u{feff}P5", " P5"]).into(),
        1 => number.insert(0, b'0'),
        2 => number.splice(..0, *b"000").for_each(drop),
        3 => number.extend_from_slice(&b"000000"[..6 - number.len().min(6)]),
        4 => number.insert(0, random.pick(b"+-")),
        5 => *number = random.pick(&["0", "00", "", "1e2", "0x1A", "26.0"]).into(),
        6 => white.push(random.pick(&WHITE)),
        7 => *white = vec![random.pick(b"\x0b\x0c\0\x1f\x08\x0e\xa0\x85,")],
        8 => *white = b"\r\n".to_vec(),
        9 => white.clear(),
        _ => white.extend(b"#c\n"),
    }
}

/// A byte changed, removed, doubled, inserted, or all cut from there on.
fn spoil_byte(random: &mut Random, head: &mut Vec<u8>) {
    if head.is_empty() {
        return;
    }
    let k = random.below(head.len() as u64) as usize;
    let byte = if random.below(4) == 0 { random.bits() as u8 } else { random.pick(&LETTERS) };
    match random.below(6) {
        0 | 1 => head[k] = byte,
        2 => drop(head.remove(k)),
        3 => head.insert(k, head[k]),
        4 => head.insert(k, byte),
        _ => head.truncate(k),
    }
}

/// Images of up to 4,096 pixels through the program, beside the original.
fn measured(run: &mut Run) {
    let mut random = run.random("images");
    let images = repeat_with(|| {
        let w = 16 + random.below(113) as usize;
        let most = PIXELS as usize / w;
        let h = if random.below(4) == 0 { most } else { 4 + random.below(most as u64 - 3) as usize };
        Image::sized(&mut random, w, h)
    });
    let file = |image: &Image| [head(image.w as u64, image.h as u64).as_bytes(), &image.pixels()].concat();
    numbered(
        run,
        "pgmnoise, images",
        images.take(run.size(2_000).min(20_000) as usize),
        |image| told(file(image)),
        |image| says(&answer(&file(image), file(image).len() as u64)),
        Said::number,
    );
}

// Stored calls.

/// What each field of the program `stored_pgm` holds before a call.
const HELD: u64 = 999;

/// As the program `stored_pgm` reads them: how many of forty bytes are lent, how many fields or how long the file is, and the
/// bytes, eight in a column.
fn store() -> Stored {
    let mut lines = Lines::new(7);
    let whole = "P5 26 26 255\n".as_bytes();
    for n in 0..=whole.len() {
        store_header(&mut lines, whole, n, FIELDS);
        store_judge(&mut lines, whole, n, n as u64);
    }
    let spaces = (0..4).flat_map(|place| b" \t\r\n\x0b\x0c\0".map(|byte| spaced(place, byte, 676)));
    let long = ["P5 99999 99999 255\n", "P5 12345 54321 99999\n", "P5 123456 54321 255\n"].map(|head| File::new(head, 676));
    let alone = ["P5 26 26 100", "P5 26 26 100\n", "P5 26 26 256", "P5 26 26 256\n"].map(|head| File::new(head, 0));
    for file in HEADS.map(|head| File::new(head, 676)).into_iter().chain(spaces).chain(long).chain(alone) {
        store_header(&mut lines, &file.first(ROOM), file.lent(), 6);
        store_judge(&mut lines, &file.first(ROOM), file.lent(), file.len());
    }
    let judged = [
        ("P5 26 26 255\n", 676), ("P5 26 26 255  ", 676), ("P5 26 26 255\r\n", 676), ("P5 26 26 256\n", 676), ("P5 1 1 255\n", 1),
        ("P5 65536 65536 255\n", 65_536 * 65_536), ("P5 65537 65535 255\n", 65_537 * 65_535),
        ("P5 99999 99999 255\n", 99_999 * 99_999),
    ];
    for (head, pixels) in judged {
        for rest in [0, pixels - 1, pixels, pixels + 1, pixels % (1 << 32)] {
            let file = File::new(head, rest);
            store_judge(&mut lines, &file.first(ROOM), file.lent(), file.len());
        }
    }
    for (head, m) in ["P5 26 26 255\n", "P5 26 26 255"].into_iter().flat_map(|head| (0..=6).map(move |m| (head, m))) {
        store_header(&mut lines, head.as_bytes(), head.len(), m);
    }
    small().iter().for_each(|bytes| store_answer(&mut lines, bytes));
    lines.stored()
}

/// Inputs of up to forty bytes for the program: a good one cut at each byte, broken headers, sides about the limit, rasters about
/// their length.
fn small() -> Vec<Vec<u8>> {
    let whole = good(4, 4);
    let mut all: Vec<Vec<u8>> = (0..=whole.len()).map(|n| whole.first(n as usize)).collect();
    let heads = HEADS.into_iter().chain(["P5 17 241 254\n", "P5 17 241 255", "P5 99999 99999 99999\n", "P5 99999 99999 255"]);
    all.extend(heads.map(|head| head.into()));
    let limits = [[64, 64], [17, 241], [241, 17], [4_096, 1], [1, 4_097], [65_536, 65_536], [99_999, 99_999]];
    all.extend(limits.into_iter().flat_map(|[w, h]| [0, 1].map(|rest| File::new(head(w, h), rest).first(ROOM))));
    let sides = [[1, 1], [3, 3], [4, 3], [3, 4], [9, 3], [4, 4], [5, 5], [6, 4], [4, 7]];
    let rasters = sides.into_iter().flat_map(|[w, h]| [w * h - 1, w * h, w * h + 1].map(|rest| File::new(head(w, h), rest)));
    all.extend(rasters.map(|file| file.first(ROOM)));
    all
}

/// Forty bytes, these first.
fn forty(bytes: &[u8]) -> [u64; 5] {
    columns(&front(bytes, bytes.len()).held)
}

fn store_header(lines: &mut Lines, bytes: &[u8], front_len: usize, fields_len: usize) {
    let call = HeaderCall { front: front(bytes, front_len), fields: Lent::new(fields_len, |_| HELD) };
    let (number, _, left) = call.theirs();
    let shown: String = left.held[..6].iter().map(|field| format!(" {field}")).collect();
    lines.call('h', &[&[front_len as u64, fields_len as u64][..], &forty(bytes)].concat(), &format!("header {number}{shown}"));
}

fn store_judge(lines: &mut Lines, bytes: &[u8], front_len: usize, len: u64) {
    let number = judge(header(&bytes[..front_len]), len);
    lines.call('j', &[&[front_len as u64, len][..], &forty(bytes)].concat(), &format!("judge {number}"));
}

fn store_answer(lines: &mut Lines, bytes: &[u8]) {
    let words: String = answer(bytes, bytes.len() as u64).iter().map(|word| format!(" {word}")).collect();
    lines.call('p', &[&[bytes.len() as u64, 0][..], &forty(bytes)].concat(), &format!("pgmnoise{words}"));
}
