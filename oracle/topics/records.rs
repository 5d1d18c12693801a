//! The two record calls as C makes them, beside a reading of request A.1 that stands on its own: the 35 bytes, the rule with T by a
//! walk over document 01's grid, the orders, and what is left in every lent slice and past it.

use super::{calls::{numbered, Lent}, noise, random::specials32, random::Random, stored::{columns, Lines}, Image, Run, Stored, Topic, Value};
use std::{array, cell::RefCell, collections::{BTreeSet, HashMap}, iter::repeat_with};

pub const TOPIC: Topic = Topic { name: "records", gate: true, compare, store: Some(store), speed: None };

unsafe extern "C" {
    fn vuzgari_record_write(
        shot: u32,
        w: usize,
        h: usize,
        answer: *const u8,
        answer_len: usize,
        out: *mut u8,
        out_len: usize,
    ) -> u32;
    fn vuzgari_record_read(bytes: *const u8, bytes_len: usize, fields: *mut u64, fields_len: usize) -> u32;
}

/// A record's bytes and fields, and the bytes of the noise call's answer.
const BYTES: usize = 35;
const FIELDS: usize = 10;
const ANSWER: usize = 40;
const MARK: [u8; 2] = [0x4e, 0x46];
/// W of the first pass and of the second.
const PASSES: [u64; 2] = [8_192, 32_768];
const SIDES: std::ops::RangeInclusive<u64> = 4..=16_384;

fn compare(run: &mut Run) {
    for (what, records) in lists() {
        let mut random = run.random(what);
        writes(run, &format!("writes, {what}"), run.once(records.clone().into_iter()).map(|record| Write::of(&mut random, record)));
        let narrow = run.once(records.into_iter()).filter(Record::fits);
        reads(run, &format!("reads, {what}"), narrow.map(|record| Read::of(record.bytes())));
    }
    writes(run, "writes, lengths", run.once(write_lengths()));
    reads(run, "reads, lengths", run.once(read_lengths()));
    reads(run, "reads, a byte changed", run.once(bytes_changed()));
    seeded(run);
    both_ways(run);
    measured(run);
}

// The reading.

/// The fields as a caller has them, which may be wider than a record's bytes.
#[derive(Clone, Copy, Debug, PartialEq)]
struct Record {
    shot: u32,
    sides: [u64; 2],
    answer: u32,
    sigma: u32,
    bands: [u32; 4],
    rail: u32,
}

/// T of a pass, window after window.
fn walked([w, h]: [u64; 2], windows: u64) -> u64 {
    let step = (1..).find(|s| s * s * windows >= w * h).expect("a step");
    let mut total = 0;
    for (j, y) in (0..).step_by(step as usize).enumerate() {
        if y + 3 >= h {
            break;
        }
        let mut x = j as u64 * 618_034 % 1_000_000 * step / 1_000_000;
        while x + 3 < w {
            total += 1;
            x += step;
        }
    }
    total
}

thread_local!(static WALKED: RefCell<HashMap<[u64; 2], [u64; 2]>> = RefCell::default());

/// T of both passes, walked once for the same sides.
fn totals(sides: [u64; 2]) -> [u64; 2] {
    WALKED.with_borrow_mut(|known| *known.entry(sides).or_insert_with(|| PASSES.map(|windows| walked(sides, windows))))
}

impl Record {
    fn kept(&self) -> u64 {
        self.bands.iter().map(|&n| u64::from(n)).sum()
    }

    /// Whether a field breaks the rule.
    fn broken(&self) -> bool {
        let sigma = f32::from_bits(self.sigma);
        let answered = match self.answer {
            0 => sigma.is_sign_positive() && (0.0..=1_000.0).contains(&sigma) && self.kept() >= 512,
            5..=7 => self.sigma == 0,
            _ => false,
        };
        let inside = self.sides.iter().all(|side| SIDES.contains(side));
        !(answered && inside && totals(self.sides).contains(&(self.kept() + u64::from(self.rail))))
    }

    /// Whether each field has room in its bytes.
    fn fits(&self) -> bool {
        self.sides.iter().all(|&side| side < 1 << 16) && self.answer < 1 << 8
    }

    /// The layout; of a field without room its low bytes.
    fn bytes(&self) -> [u8; BYTES] {
        let [w, h] = self.sides.map(|side| (side as u16).to_le_bytes());
        let counts = [self.bands[0], self.bands[1], self.bands[2], self.bands[3], self.rail].map(u32::to_le_bytes);
        let [shot, sigma] = [self.shot, self.sigma].map(u32::to_le_bytes);
        [&MARK[..], &shot, &w, &h, &[self.answer as u8], &sigma, counts.as_flattened()].concat().try_into().expect("35 bytes")
    }

    fn from(bytes: [u8; BYTES]) -> Self {
        let number = |from: usize, n: usize| bytes[from..from + n].iter().rev().fold(0, |high, &low| high << 8 | u32::from(low));
        Record {
            shot: number(2, 4),
            sides: [number(6, 2).into(), number(8, 2).into()],
            answer: number(10, 1),
            sigma: number(11, 4),
            bands: array::from_fn(|k| number(15 + 4 * k, 4)),
            rail: number(31, 4),
        }
    }

    fn fields(&self) -> [u64; FIELDS] {
        let [b0, b1, b2, b3] = self.bands.map(u64::from);
        [self.shot.into(), self.sides[0], self.sides[1], self.answer.into(), self.sigma.into(), b0, b1, b2, b3, self.rail.into()]
    }

    fn of_fields(fields: &[u64]) -> Self {
        let [shot, answer, sigma, b0, b1, b2, b3, rail] = [0, 3, 4, 5, 6, 7, 8, 9].map(|k| fields[k].try_into().unwrap_or(u32::MAX));
        Record { shot, sides: [fields[1], fields[2]], answer, sigma, bands: [b0, b1, b2, b3], rail }
    }

    /// From the ten fields of the noise call's answer.
    fn of_words(shot: u32, sides: [usize; 2], words: &[u32]) -> Self {
        let bands = array::from_fn(|k| words[3 + k]);
        Record { shot, sides: sides.map(|side| side as u64), answer: words[0], sigma: words[1], bands, rail: words[7] }
    }

    /// The ten fields of such an answer, with these thousandths, rounds and passes.
    fn words(&self, [milli, rounds, passes]: [u32; 3]) -> [u32; 10] {
        let [b0, b1, b2, b3] = self.bands;
        [self.answer, self.sigma, milli, b0, b1, b2, b3, self.rail, rounds, passes]
    }
}

type Bytes = Lent<u8, 48>;
type Fields = Lent<u64, 14>;

/// So many bytes, no two alike.
fn bytes(len: usize) -> Bytes {
    Lent::new(len, |k| 0xa5 ^ k as u8)
}

fn fields(len: usize) -> Fields {
    Lent::new(len, |k| !0 << 32 | k as u64)
}

/// A call that writes, and the slices before it.
#[derive(Clone, Copy, Debug)]
struct Write {
    shot: u32,
    sides: [usize; 2],
    answer: Bytes,
    out: Bytes,
}

impl Write {
    /// The number, and the slices after the call.
    fn ours(&self) -> (u32, Bytes, Bytes) {
        let Write { shot, sides: [w, h], mut answer, mut out } = *self;
        // Pointers that may write: a change of what is only read would show.
        let (from, to) = (answer.start(), out.start());
        let number = unsafe { vuzgari_record_write(shot, w, h, from, answer.len, to, out.len) };
        (number, answer, out)
    }

    fn theirs(&self) -> (u32, Bytes, Bytes) {
        let left = |number: u32, out: Bytes| (number, self.answer, out);
        if self.answer.len < ANSWER {
            return left(4, self.out);
        }
        let words: Vec<u32> = self.answer.held[..ANSWER].chunks(4).map(|four| u32::from_le_bytes(four.try_into().unwrap())).collect();
        let record = Record::of_words(self.shot, self.sides, &words);
        if record.broken() {
            return left(19, self.out);
        }
        if self.out.len < BYTES {
            return left(18, self.out);
        }
        left(0, self.out.with(&record.bytes()))
    }

    /// With slices of just the length or longer, and anything in the fields that are not looked at.
    fn of(random: &mut Random, record: Record) -> Self {
        let words = record.words(array::from_fn(|_| random.bits() as u32)).map(u32::to_le_bytes);
        let mut any = |least: usize| Lent::new(least + random.pick(&[0, 0, 1, 6]), |_| random.bits() as u8);
        let (answer, out) = (any(ANSWER).with(words.as_flattened()), any(BYTES));
        Write { shot: record.shot, sides: record.sides.map(|side| side as usize), answer, out }
    }
}

impl Value for Write {
    fn same(&self, _: &Self) -> bool {
        unreachable!("an input")
    }
    fn shown(&self) -> String {
        format!("{}, {:?}, {}, {}", self.shot, self.sides, self.answer.shown(), self.out.shown())
    }
}

/// A call that reads, and the slices before it.
#[derive(Clone, Copy, Debug)]
struct Read {
    bytes: Bytes,
    fields: Fields,
}

impl Read {
    fn ours(&self) -> (u32, Bytes, Fields) {
        let Read { mut bytes, mut fields } = *self;
        let number = unsafe { vuzgari_record_read(bytes.start(), bytes.len, fields.start(), fields.len) };
        (number, bytes, fields)
    }

    fn theirs(&self) -> (u32, Bytes, Fields) {
        let left = |number: u32, fields: Fields| (number, self.bytes, fields);
        if self.fields.len < FIELDS {
            return left(4, self.fields);
        }
        if self.bytes.len < BYTES {
            return left(18, self.fields);
        }
        if self.bytes.held[..2] != MARK {
            return left(17, self.fields);
        }
        let record = Record::from(*self.bytes.held.first_chunk().unwrap());
        if record.broken() {
            return left(19, self.fields);
        }
        left(0, self.fields.with(&record.fields()))
    }

    /// With slices of just the length.
    fn of(record: [u8; BYTES]) -> Self {
        Read { bytes: bytes(BYTES).with(&record), fields: fields(FIELDS) }
    }

    /// With slices of just the length or longer, and anything past the record.
    fn any(random: &mut Random, record: [u8; BYTES]) -> Self {
        let len = BYTES + random.pick(&[0, 0, 1, 2, 13]);
        let bytes = Lent::new(len, |_| random.bits() as u8).with(&record);
        let len = FIELDS + random.pick(&[0, 0, 1, 2]);
        Read { bytes, fields: Lent::new(len, |_| random.bits()) }
    }
}

impl Value for Read {
    fn same(&self, _: &Self) -> bool {
        unreachable!("an input")
    }
    fn shown(&self) -> String {
        format!("{}, {}", self.bytes.shown(), self.fields.shown())
    }
}

impl Value for Record {
    fn same(&self, other: &Self) -> bool {
        self == other
    }
    fn shown(&self) -> String {
        format!("{self:?}")
    }
}

fn writes(run: &mut Run, what: &str, calls: impl Iterator<Item = Write>) {
    numbered(run, what, calls, Write::ours, Write::theirs, |left| left.0);
}

fn reads(run: &mut Run, what: &str, calls: impl Iterator<Item = Read>) {
    numbered(run, what, calls, Read::ours, Read::theirs, |left| left.0);
}

// Fixed lists.

/// Sides with one pass or two, few windows or many, at the ends of their range.
const BASES: [[u64; 2]; 11] = [
    [26, 26], [25, 25], [4, 4], [91, 91], [128, 64], [300, 200], [16_056, 25], [640, 480], [16_384, 16_384], [16_384, 4], [4, 16_384],
];

/// The counts of so many windows of which so many are rail, with the kept ones in four parts or in one.
fn split(total: u64, rail: u64, way: usize) -> ([u32; 4], u32) {
    let kept = total - rail;
    let bands = match way {
        0..=3 => array::from_fn(|k| if k == way { kept } else { 0 }),
        _ => [kept / 4, kept / 3, kept - kept / 4 - kept / 3 - kept / 8, kept / 8],
    };
    (bands.map(|n| n as u32), rail as u32)
}

/// A record with these counts; figures have sigma 1.
fn plain(sides: [u64; 2], answer: u32, (bands, rail): ([u32; 4], u32)) -> Record {
    let sigma = if answer == 0 { 1.0_f32.to_bits() } else { 0 };
    Record { shot: 0x0403_0201, sides, answer, sigma, bands, rail }
}

/// Good records: each answer that the sides' windows allow, in each pass with windows of its own.
fn good() -> impl Iterator<Item = Record> {
    BASES.into_iter().flat_map(|sides| {
        let passes = BTreeSet::from(totals(sides));
        let all = passes.into_iter().flat_map(|total| [0, 5, 6, 7].map(|answer| (total, answer)));
        let taken = all.filter(|&(total, answer)| answer != 0 || total >= 512);
        taken.map(move |(total, answer)| plain(sides, answer, split(total, if answer == 0 { total - 512 } else { total / 3 }, 4)))
    })
}

/// Lists of records by what they vary.
fn lists() -> [(&'static str, Vec<Record>); 7] {
    [
        ("good", good().collect()),
        ("sides", sides()),
        ("answers", answers()),
        ("sigmas", sigmas()),
        ("windows kept", kept()),
        ("totals", sums()),
        ("wrapped sums", wrapped()),
    ]
}

/// Sides at and beyond their limits, beyond their two bytes, and beyond 32 bits, with the windows that they have, or would have
/// within their limits or their two bytes.
fn sides() -> Vec<Record> {
    let some = [
        0, 1, 2, 3, 4, 5, 26, 16_383, 16_384, 16_385, 16_386, 32_794, 65_535, 65_536, 65_540, 65_562, 1 << 31, 1 << 32, (1 << 32) + 4,
        (1 << 32) + 26, 1 << 63, u64::MAX,
    ];
    let pairs = some.into_iter().flat_map(|w| some.map(|h| [w, h]));
    let changes: [fn(u64) -> u64; 4] = [|side| side, |side| side.clamp(4, 16_384), |side| side % 65_536, |side| side % 32_768];
    let counted = pairs.flat_map(|sides| {
        let near = changes.map(|change| sides.map(change)).into_iter().filter(|near| near.iter().all(|&side| side < 20_000));
        let counts: BTreeSet<u64> = near.flat_map(totals).collect();
        counts.into_iter().map(move |total| (sides, total))
    });
    counted.flat_map(|(sides, total)| [0, 5].map(|answer| plain(sides, answer, split(total, 0, 4)))).collect()
}

/// Every number of a byte as answer, and wider ones.
fn answers() -> Vec<Record> {
    let wide = [256, 1 << 16, 1 << 24, 1 << 31, u32::MAX - 7].into_iter().flat_map(|high| (0..9).map(move |low| high | low));
    let bases = [([26, 26], 529, 0), ([26, 26], 529, 17), ([26, 26], 529, 18), ([25, 25], 484, 0)];
    let answered = (0..256).chain(wide).flat_map(|answer| bases.map(|(sides, total, rail)| plain(sides, answer, split(total, rail, 4))));
    answered.flat_map(|record| [0, 1.0_f32.to_bits()].map(|sigma| Record { sigma, ..record })).collect()
}

/// Sigmas of all kinds and their neighbours, of both signs.
fn sigmas() -> Vec<Record> {
    let limits = [0.0, 1.0, 999.0, 1_000.0, 1_001.0, 1e30].into_iter().chain(specials32()).map(f32::to_bits);
    let near = limits.flat_map(|bits| [bits.wrapping_sub(1), bits, bits.wrapping_add(1)]).flat_map(|bits| [bits, bits ^ 1 << 31]);
    near.flat_map(|sigma| [0, 5, 6, 7].map(|answer| Record { sigma, ..plain([26, 26], answer, split(529, 0, 2)) })).collect()
}

/// Windows kept about 512, in one band or in four.
fn kept() -> Vec<Record> {
    let all = BASES.into_iter().flat_map(|sides| totals(sides).map(|total| (sides, total)));
    let cut = all.flat_map(|(sides, total)| {
        let some = [0, 1, 128, 256, 510, 511, 512, 513, total].into_iter().filter(move |&kept| kept <= total);
        some.flat_map(move |kept| (0..5).map(move |way| (sides, split(total, total - kept, way))))
    });
    cut.flat_map(|(sides, counts)| [0, 5, 6, 7].map(|answer| plain(sides, answer, counts))).collect()
}

/// Totals at and beside T of each pass, and others that a wrong grid gives.
fn sums() -> Vec<Record> {
    let all = BASES.into_iter().flat_map(|sides| {
        let [first, second] = totals(sides);
        let others = [4_096, 16_384, 65_536].map(|windows| walked(sides, windows));
        let whole = [0, first + second, 8_192, 32_768, sides[0] * sides[1], (sides[0] - 3) * (sides[1] - 3)];
        let near = [first, second].into_iter().chain(others).flat_map(|total| [total.saturating_sub(1), total, total + 1]);
        near.chain(whole).map(move |total| (sides, total)).collect::<Vec<_>>()
    });
    let cut = all.flat_map(|(sides, total)| [0, total / 2, total].map(|rail| (sides, split(total, rail, 4))));
    cut.flat_map(|(sides, counts)| [0, 5].map(|answer| plain(sides, answer, counts))).collect()
}

/// Counts that are right only where their sum loses what is beyond 32 bits.
fn wrapped() -> Vec<Record> {
    let bases = [([26, 26], 529, 0), ([300, 200], totals([300, 200])[1], 7)];
    let mut all = vec![];
    for (sides, total, rail) in bases {
        let (bands, rail) = split(total, rail, 4);
        let counts = [bands[0], bands[1], bands[2], bands[3], rail];
        for chosen in 1_u32..32 {
            let places = chosen.count_ones();
            // So many times so much is 2^32, or a multiple of it.
            let shares = [1 << 30, 1 << 31, 3 << 30].into_iter().filter(|share| u64::from(places) * share % (1 << 32) == 0);
            for share in shares {
                let more = array::from_fn::<u32, 5, _>(|k| counts[k].wrapping_add((chosen >> k & 1) * share as u32));
                all.push((sides, more));
            }
        }
        for (low, high) in (0..5).flat_map(|low| (0..5).map(move |high| (low, high))).filter(|(low, high)| low != high) {
            // One less in one place than nothing, and one more in the other.
            let mut more = counts;
            (more[low], more[high]) = (u32::MAX, more[high] + more[low] + 1);
            all.push((sides, more));
        }
    }
    let counted = all.into_iter().map(|(sides, [b0, b1, b2, b3, rail])| (sides, ([b0, b1, b2, b3], rail)));
    counted.flat_map(|(sides, counts)| [0, 5].map(|answer| plain(sides, answer, counts))).collect()
}

/// A good record and broken ones, for slices of each length.
fn write_lengths() -> impl Iterator<Item = Write> {
    let right = plain([26, 26], 0, split(529, 17, 4));
    let records = [right, plain([25, 25], 5, split(484, 0, 4)), Record { rail: 18, ..right }, Record { sides: [3, 26], ..right }];
    records.into_iter().flat_map(|record| {
        let call = Write::of(&mut Random::new(1), record);
        (0..42).flat_map(move |n| (0..42).map(move |m| Write { answer: call.answer.of(n), out: bytes(m), ..call }))
    })
}

/// A good record, others with another mark, a broken rule, or both, in slices of each length.
fn read_lengths() -> impl Iterator<Item = Read> {
    let right = plain([26, 26], 0, split(529, 17, 4));
    let other = |mark: [u8; 2], record: Record| {
        let mut bytes = record.bytes();
        bytes[..2].copy_from_slice(&mark);
        bytes
    };
    let wrong = Record { rail: 18, ..right };
    let marks = [MARK, [0x46, 0x4e], [0x4e, 0x47], [0x4f, 0x46], [0, 0]];
    let records = marks.into_iter().flat_map(move |mark| [other(mark, right), other(mark, wrong)]);
    records.flat_map(|record| {
        (0..42).flat_map(move |n| (0..=12).map(move |m| Read { bytes: bytes(n).with(&record), fields: fields(m) }))
    })
}

/// Every byte of good records, changed to every other.
fn bytes_changed() -> impl Iterator<Item = Read> {
    let sides = [[26, 26], [128, 64], [300, 200], [4, 4]];
    good().filter(move |record| sides.contains(&record.sides)).flat_map(|record| {
        (0..BYTES).flat_map(move |k| {
            (1..=255).map(move |other| {
                let mut bytes = record.bytes();
                bytes[k] ^= other;
                Read::of(bytes)
            })
        })
    })
}

// Seeded records.

/// Sides to choose from, so that the windows of few are walked: small ones, some about a threshold of a step, and a few large.
fn pool(random: &mut Random, n: u64) -> Vec<[u64; 2]> {
    let mut sides = vec![];
    for k in 0..n {
        let mut side = |least: u64, most: u64| least + random.below(most - least + 1);
        sides.push(match k % 8 {
            0 => [side(24, 28), side(24, 28)],
            1 => [side(88, 93), side(88, 93)],
            2 => [side(4, 16_384), side(4, 40)],
            3 => [side(4, 2_000), side(4, 2_000)],
            4 => [side(300, 16_384), side(300, 16_384)],
            5 if k % 64 == 5 => [side(4, 40), side(4, 16_384)],
            _ => [side(4, 90), side(4, 90)],
        });
    }
    sides
}

impl Record {
    /// One that the rule takes.
    fn any(random: &mut Random, pool: &[[u64; 2]]) -> Self {
        let sides = random.pick(pool);
        let total = random.pick(&totals(sides));
        let answer = if total < 512 { random.pick(&[5, 6, 7]) } else { random.pick(&[0, 0, 0, 5, 6, 7]) };
        let most = if answer == 0 { total - 512 } else { total };
        let rail = match random.below(6) {
            0 => 0,
            1 => most,
            _ => random.below(most + 1),
        };
        let mut cuts: [u64; 3] = array::from_fn(|_| random.below(total - rail + 1));
        cuts.sort();
        let [a, b, c] = cuts;
        let sigma = match random.below(8) {
            _ if answer != 0 => 0,
            0 => random.pick(&[0, 1, 0x447a_0000, 0x4479_ffff]),
            _ => random.below(0x447a_0001) as u32,
        };
        let shot = random.bits() as u32 >> random.below(32);
        Record { shot, sides, answer, sigma, bands: [a, b - a, c - b, total - rail - c].map(|n| n as u32), rail: rail as u32 }
    }

    /// One field, or what binds two, about its limits or at random: often broken.
    fn spoiled(mut self, random: &mut Random) -> Self {
        let (step, any) = (random.below(5) as u32, random.bits());
        let near = |n: u32| n.wrapping_add(step).wrapping_sub(2);
        match random.below(8) {
            0 => {
                let k = random.below(2) as usize;
                let old = self.sides[k];
                let wide = [old + 65_536, old + (1 << 32), near(4).into(), near(16_384).into(), u64::from(near(0)), any];
                self.sides[k] = random.pick(&wide);
                if self.sides[k] < 20_000 && random.below(2) == 0 {
                    // Broken, if at all, by the side alone.
                    self.rail = walked(self.sides, random.pick(&PASSES)) as u32;
                    (self.answer, self.sigma, self.bands) = (5, 0, [0; 4]);
                }
            }
            1 => self.answer = random.pick(&[0, 5, 6, 7, near(0), near(6), near(256), self.answer + 256, any as u32]),
            2 => self.sigma = random.pick(&[near(0), near(0x447a_0000), self.sigma ^ 1 << 31, near(0x7f80_0000), any as u32]),
            3 => self.sigma = random.f32().to_bits(),
            4 => {
                // As many windows, kept about 512.
                let total = self.kept() + u64::from(self.rail);
                let kept = u64::from(near(512)).min(total);
                let few = random.below(kept + 1) as u32;
                self.bands = [few, 0, kept as u32 - few, 0];
                self.rail = (total - kept) as u32;
                self.answer = 0;
            }
            5 => {
                let k = random.below(5) as usize;
                *self.count(k) = near(*self.count(k));
            }
            6 => {
                // The sum in 32 bits as it was.
                let [k, l] = array::from_fn(|_| random.below(5) as usize);
                let more = random.pick(&[1 << 31, any as u32, 1, u32::MAX]);
                *self.count(k) = self.count(k).wrapping_add(more);
                *self.count(l) = self.count(l).wrapping_sub(more);
            }
            _ => *self.count(random.below(5) as usize) = any as u32 >> random.below(32),
        }
        self
    }

    /// One of the five counts.
    fn count(&mut self, k: usize) -> &mut u32 {
        if k < 4 { &mut self.bands[k] } else { &mut self.rail }
    }
}

/// Good and spoiled records through both calls, in slices of any length; random bytes behind a mark and without one.
fn seeded(run: &mut Run) {
    let mut random = run.random("writes");
    let sides = pool(&mut random, run.size(1_600).min(20_000));
    let calls = repeat_with(|| {
        let mut record = Record::any(&mut random, &sides);
        if random.below(2) == 0 {
            record = record.spoiled(&mut random);
        }
        let mut call = Write::of(&mut random, record);
        if random.below(8) == 0 {
            call.answer.len = random.below(42) as usize;
        }
        if random.below(8) == 0 {
            call.out.len = random.below(42) as usize;
        }
        call
    });
    writes(run, "writes, seeded", calls.take(run.size(400_000) as usize));

    let mut random = run.random("reads");
    let sides = pool(&mut random, run.size(1_600).min(20_000));
    let calls = repeat_with(|| {
        let mut record = Record::any(&mut random, &sides);
        if random.below(2) == 0 {
            record = record.spoiled(&mut random);
        }
        let mut bytes = record.bytes();
        match random.below(8) {
            0 => bytes[2..].fill_with(|| random.bits() as u8),
            1 => bytes.fill_with(|| random.bits() as u8),
            2 => bytes[random.below(BYTES as u64) as usize] = random.bits() as u8,
            _ => {}
        }
        let mut call = Read::any(&mut random, bytes);
        if random.below(8) == 0 {
            call.bytes.len = random.below(42) as usize;
        }
        if random.below(8) == 0 {
            call.fields.len = random.below(13) as usize;
        }
        call
    });
    reads(run, "reads, seeded", calls.take(run.size(400_000) as usize));
}

/// What is written is read back, and what is read is written back; other bytes past a record change nothing.
fn both_ways(run: &mut Run) {
    let sides = pool(&mut run.random("both ways"), run.size(1_600).min(20_000));
    run.same(
        "read after write",
        good_records(run, "read after write", &sides),
        |&(record, seed)| {
            let (number, _, out) = Write::of(&mut Random::new(seed), record).ours();
            let (again, _, left) = Read { bytes: out, fields: fields(FIELDS) }.ours();
            (number, again, left)
        },
        |&(record, _)| (0, 0, fields(FIELDS).with(&record.fields())),
    );
    run.same(
        "write after read",
        good_records(run, "write after read", &sides),
        |&(record, seed)| {
            let random = &mut Random::new(seed);
            let (number, _, read) = Read::any(random, record.bytes()).ours();
            let (again, _, out) = Write { out: bytes(BYTES), ..Write::of(random, Record::of_fields(read.lent())) }.ours();
            (number, again, out)
        },
        |&(record, _)| (0, 0, bytes(BYTES).with(&record.bytes())),
    );
    run.same(
        "other bytes past the record",
        good_records(run, "other bytes past the record", &sides),
        |&(record, seed)| {
            let random = &mut Random::new(seed);
            let spoiled = record.spoiled(random).bytes();
            let past = |_| {
                let (number, _, left) = Read { fields: fields(FIELDS), ..Read::any(random, spoiled) }.ours();
                (number, left)
            };
            [(); 2].map(past)
        },
        |&(record, seed)| {
            let (number, _, left) = Read::of(record.spoiled(&mut Random::new(seed)).bytes()).theirs();
            [(number, left); 2]
        },
    );
}

/// Records that the rule takes, each with a seed for what else a call is lent.
fn good_records<'a>(run: &Run, what: &str, sides: &'a [[u64; 2]]) -> impl Iterator<Item = (Record, u64)> + use<'a> {
    let mut random = run.random(what);
    repeat_with(move || (Record::any(&mut random, sides), random.bits())).take(run.size(200_000) as usize)
}

/// What the noise call answers with 0, 5, 6 or 7 is written for any shot, and read back as the original has it.
fn measured(run: &mut Run) {
    let mut random = run.random("noise calls");
    let mut seen = [0; 8];
    let mut twice = 0;
    let images = repeat_with(|| (Image::any(&mut random), random.bits() as u32)).take(run.size(2_000).min(20_000) as usize);
    run.same(
        "noise calls",
        images,
        |(image, shot)| {
            let (sides, lent) = ([image.w, image.h], noise::Lent::needed(image.w, image.h));
            let (_, words, wrong) = noise::ours(&image.pixels(), image.w, image.h, lent);
            let answer = bytes(ANSWER).with(&words.iter().flat_map(|word| word.to_le_bytes()).collect::<Vec<u8>>());
            let (number, _, out) = Write { shot: *shot, sides, answer, out: bytes(BYTES) }.ours();
            let read = Read { bytes: out, fields: fields(FIELDS) }.ours();
            (number, out, read.0, read.2, wrong)
        },
        |(image, shot)| {
            let (sides, lent) = ([image.w, image.h], noise::Lent::needed(image.w, image.h));
            let (answer, words, wrong) = noise::theirs(&image.pixels(), image.w, image.h, lent);
            let record = Record::of_words(*shot, sides, &words);
            seen[answer as usize] += 1;
            twice += u64::from(words[9] == 2);
            (0, bytes(BYTES).with(&record.bytes()), 0, fields(FIELDS).with(&record.fields()), wrong)
        },
    );
    for number in [0, 5, 6, 7] {
        run.count(&format!("noise calls, answer {number}"), seen[number]);
    }
    run.count("noise calls, second pass", twice);
}

// Stored calls.

/// What the slices of the program `stored_records` hold before a call.
const HELD: (u8, u64) = (0xee, 999);

/// Records at each limit of the rule and beyond it.
fn limits() -> Vec<Record> {
    let right = plain([26, 26], 0, split(529, 17, 4));
    let few = plain([25, 25], 5, split(484, 9, 4));
    let [first, second] = totals([300, 200]);
    let wide = [[65_562, 26], [26, (1 << 32) + 26], [u64::MAX, 26]];
    let sides = [[4, 4], [3, 26], [26, 3], [0, 0], [16_384, 4], [4, 16_384], [16_385, 4], [4, 16_385]].into_iter().chain(wide);
    let near = |side: u64| if side > 20_000 { side % 65_536 } else { side };
    let mut all: Vec<Record> = sides.map(|sides| plain(sides, 5, split(totals(sides.map(near))[0], 0, 4))).collect();
    all.extend([0, 1, 4, 5, 6, 7, 8, 255, 256, 261, 1 << 24].map(|answer| Record { answer, ..few }));
    let sigmas = [0, 1, 0x447a_0000, 0x447a_0001, 0x8000_0000, 0xc47a_0000, 0x7f80_0000, 0x7fc0_0000, 0xffc0_0000];
    all.extend(sigmas.map(|sigma| Record { sigma, ..right }));
    all.extend([1, 0x8000_0000].map(|sigma| Record { sigma, ..few }));
    all.extend([511, 512].into_iter().flat_map(|kept| [0, 6].map(|answer| plain([26, 26], answer, split(529, 529 - kept, 4)))));
    all.extend([first - 1, first, first + 1, second - 1, second, second + 1].map(|total| plain([300, 200], 0, split(total, 40, 4))));
    all.extend([0, 1, 0xffff_ffff].map(|shot| Record { shot, ..right }));
    all.extend(wrapped().into_iter().step_by(12));
    all
}

/// As the program `stored_records` reads them: shot and sides of a call that writes, the lengths of its two slices, and the bytes of
/// the first, eight in a column.
fn store() -> Stored {
    let mut lines = Lines::new(10);
    let (right, wrong) = (plain([26, 26], 0, split(529, 17, 4)), plain([26, 26], 0, split(529, 18, 4)));
    let whole = good().step_by(5).chain(limits()).map(|record| (record, ANSWER, BYTES));
    let lengths = [
        (right, 0, 35), (right, 39, 35), (right, 39, 34), (wrong, 39, 35), (right, 40, 0), (right, 40, 34), (right, 40, 36),
        (right, 40, 40), (wrong, 40, 34), (wrong, 40, 0), (wrong, 40, 40), (wrong, 0, 0),
    ];
    whole.chain(lengths).for_each(|(record, answer, out)| store_write(&mut lines, record, answer, out));

    let marked = |mark: [u8; 2], record: Record| array::from_fn(|k| if k < 2 { mark[k] } else { record.bytes()[k] });
    let (other, both) = (marked([0x4e, 0x47], right), marked([0x46, 0x4e], wrong));
    let (right, wrong) = (right.bytes(), wrong.bytes());
    let whole = good().step_by(7).chain(limits()).filter(Record::fits).map(|record| record.bytes());
    let changed = (0..BYTES).map(|k| array::from_fn(|at| right[at] ^ if at == k { 1 << (k % 8) } else { 0 }));
    let lengths = [
        (right, 0, 10), (right, 34, 10), (right, 36, 10), (right, 40, 12), (right, 35, 11), (right, 35, 9), (right, 35, 0), (right, 34, 9),
        (other, 35, 10), (other, 34, 10), (other, 35, 9), (other, 40, 12), (both, 35, 10), (both, 1, 10), (both, 0, 9), (wrong, 34, 10),
        (wrong, 35, 9), (wrong, 40, 12),
    ];
    let all = whole.chain(changed).map(|record| (record, BYTES, FIELDS)).chain(lengths);
    all.for_each(|(record, n, m)| store_read(&mut lines, record, n, m));
    lines.stored()
}

fn store_write(lines: &mut Lines, record: Record, answer_len: usize, out_len: usize) {
    let words = record.words([0x3333_3333, 0x8888_8888, 0x9999_9999]).map(u32::to_le_bytes);
    let (answer, out) = (bytes(answer_len).with(words.as_flattened()), Lent::new(out_len, |_| HELD.0));
    let (number, _, left) = Write { shot: record.shot, sides: record.sides.map(|side| side as usize), answer, out }.theirs();
    let columns = columns(answer.held.first_chunk().unwrap());
    let numbers = [&[record.shot.into(), record.sides[0], record.sides[1], answer_len as u64, out_len as u64][..], &columns];
    let shown: String = left.held[..40].iter().map(|byte| format!("{byte:02x}")).collect();
    lines.call('w', &numbers.concat(), &format!("write {number} {shown}"));
}

fn store_read(lines: &mut Lines, record: [u8; BYTES], bytes_len: usize, fields_len: usize) {
    let call = Read { bytes: bytes(bytes_len).with(&record), fields: Lent::new(fields_len, |_| HELD.1) };
    let (number, _, left) = call.theirs();
    let columns = columns(call.bytes.held.first_chunk().unwrap());
    let numbers = [&[0, 0, 0, bytes_len as u64, fields_len as u64][..], &columns];
    let shown: String = left.held[..12].iter().map(|field| format!(" {field}")).collect();
    lines.call('r', &numbers.concat(), &format!("read {number}{shown}"));
}
