//! compare [TOPIC..] [--count N] [--seed N]                  runs topics (none named: those of the gate)
//! compare [TOPIC..] --scale [--seconds S] [--seed N]        runs topics at scale (none named: all) for S seconds, 300 if not told
//! compare --store TOPIC                                     writes the topic's stored answers into crates/stored_TOPIC
//! compare --speed [TOPIC]                                   times the calls of a topic, or of the table, beside the original's
//!
//! A topic compares with the original, or with a reading of document 02 where that adds to it. Without --scale each kind of
//! call is run on as many inputs as its topic sets for the gate, or on N, and the stored answers are held to what --store would
//! write. At scale smaller turns, each with inputs of its own, follow one another until the time is over; fixed lists are cut
//! into SLICES slices, one to a turn. The first turn is always whole. The same seed gives the same inputs; --turn T begins at
//! turn T. Progress goes to standard error, the counts of what was compared come at the end; a run that compares nothing of a
//! topic, or at the gate's size nothing of a kind, ends with status 1. So does the first difference: its sides and counts are
//! halved while it still differs, and it is printed as a call, with floats as hexadecimal patterns.

mod images;
mod random;
mod speed;
mod topics;
mod value;

use random::Random;
use std::{
    collections::{BTreeMap, BTreeSet},
    fs,
    process::exit,
    time::{Duration, Instant},
};
use value::Value;

/// One file of `topics/`.
pub struct Topic {
    pub name: &'static str,
    /// Whether it runs where no topic is named.
    pub gate: bool,
    pub compare: fn(&mut Run),
    pub store: Option<fn() -> Stored>,
    /// Prints lines of `speed.rs`'s table.
    pub speed: Option<fn()>,
}

/// A list that the program `stored_TOPIC` replays, and what the program says of it.
#[derive(Default)]
pub struct Stored {
    pub stdin: String,
    pub stdout: String,
}

impl Stored {
    fn files(self, topic: &str) -> [(String, String); 2] {
        [("stdin", self.stdin), ("stdout", self.stdout)].map(|(name, text)| (format!("crates/stored_{topic}/{name}"), text))
    }
}

/// How long to go on.
#[derive(Clone, Copy)]
enum Limit {
    Gate,
    Count(u64),
    Seconds(u64),
}

/// Seeds where none is given: of the gate and of a run at scale.
const SEEDS: [u64; 2] = [1, 2];
/// Seconds of a run at scale where none are given.
const SECONDS: u64 = 300;
/// Into how many turns of a run at scale a fixed list is cut.
const SLICES: u64 = 16;

pub struct Run {
    limit: Limit,
    seed: u64,
    turn: u64,
    topic: &'static str,
    /// Which topic of how many it is.
    place: [usize; 2],
    began: Instant,
    told: Instant,
    /// Inputs compared so far.
    compared: u64,
    /// What was compared, or counted apart, and how often.
    counts: BTreeMap<String, u64>,
    /// The topics of which something was compared.
    busy: BTreeSet<&'static str>,
}

impl Run {
    /// A generator for the inputs of one kind of call: the same for the same seed, turn, topic and kind.
    pub fn random(&self, what: &str) -> Random {
        let name = format!("{} {what} {}", self.topic, self.turn);
        Random::new(name.bytes().fold(self.seed, |seed, byte| Random::new(seed ^ u64::from(byte)).bits()))
    }

    /// How many inputs of a kind to run where the gate runs `gate`.
    pub fn size(&self, gate: u64) -> u64 {
        match self.limit {
            Limit::Gate => gate,
            Limit::Count(n) => n,
            Limit::Seconds(_) => (gate / 8).max(1),
        }
    }

    /// A list of the same inputs in every turn: those that fall to this turn, each once in a run.
    pub fn once<I: Iterator>(&self, list: I) -> impl Iterator<Item = I::Item> + use<I> {
        self.slice(list).take(if self.turn < SLICES { usize::MAX } else { 0 })
    }

    /// A list whose inputs are made anew in every turn: those that fall to this turn.
    pub fn slice<I: Iterator>(&self, list: I) -> impl Iterator<Item = I::Item> + use<I> {
        let (skip, step) = if let Limit::Seconds(_) = self.limit { (self.turn % SLICES, SLICES) } else { (0, 1) };
        list.skip(skip as usize).step_by(step as usize)
    }

    /// Compares the call `what` with the original's, or with another reading of the paper, on each input.
    pub fn same<A: Value, R: Value>(
        &mut self,
        what: &str,
        inputs: impl Iterator<Item = A>,
        mut ours: impl FnMut(&A) -> R,
        mut theirs: impl FnMut(&A) -> R,
    ) {
        let mut n = 0;
        for mut input in inputs {
            if !ours(&input).same(&theirs(&input)) {
                let mut times = 0;
                while let Some(smaller) = input.smaller().into_iter().find(|input| !ours(input).same(&theirs(input))) {
                    input = smaller;
                    times += 1;
                }
                let (got, want) = (ours(&input), theirs(&input));
                self.tell_counts();
                println!("compare: {} {what}({}) is {}, and not {}", self.topic, input.shown(), got.shown(), want.shown());
                println!("compare: seed {}, turn {}, after {n} that agree, made smaller {times} times", self.seed, self.turn);
                exit(1);
            }
            n += 1;
            if n % (1 << 12) == 0 {
                self.progress(what, n);
            }
        }
        self.progress(what, n);
        self.compared += n;
        if n > 0 {
            self.busy.insert(self.topic);
        } else if let Limit::Gate = self.limit {
            println!("compare: nothing was compared of {} {what}", self.topic);
            exit(1);
        }
        self.count(what, n);
    }

    /// Holds the list in the repository, and what its program is to say, to what the topic stores now.
    fn stored(&mut self, stored: Stored) {
        for (path, text) in stored.files(self.topic) {
            if fs::read_to_string(&path).ok().as_ref() != Some(&text) {
                println!("compare: {path} is not what compare --store {} writes", self.topic);
                exit(1);
            }
            self.count("lines stored", text.lines().count() as u64);
        }
    }

    /// Adds to a count that is printed at the end.
    pub fn count(&mut self, what: &str, n: u64) {
        *self.counts.entry(format!("{} {what}", self.topic)).or_default() += n;
    }

    fn tell_counts(&self) {
        for (what, n) in &self.counts {
            println!("compare: {what}: {n}");
        }
    }

    fn progress(&mut self, what: &str, n: u64) {
        if self.told.elapsed() >= Duration::from_secs(10) {
            self.told = Instant::now();
            let (seconds, compared, [k, of]) = (self.began.elapsed().as_secs(), self.compared + n, self.place);
            let at = format!("turn {}, topic {k} of {of}, {} {what}", self.turn, self.topic);
            eprintln!("compare: {seconds} s, {compared} inputs agree; {at}, {n} this turn");
        }
    }

    fn over(&self) -> bool {
        match self.limit {
            Limit::Gate | Limit::Count(_) => true,
            Limit::Seconds(s) => self.began.elapsed() >= Duration::from_secs(s),
        }
    }

    /// Says which topic begins, where each is run once.
    fn begin(&mut self, topic: &Topic, place: [usize; 2]) {
        (self.topic, self.place) = (topic.name, place);
        if !matches!(self.limit, Limit::Seconds(_)) {
            eprintln!("compare: topic {} of {}: {}", place[0], place[1], topic.name);
        }
    }

    /// Runs the topics, in turns where a time is set; the first turn is run to its end.
    fn turns(&mut self, topics: &[&Topic]) {
        let first = self.turn;
        loop {
            for (k, topic) in topics.iter().enumerate() {
                self.begin(topic, [k + 1, topics.len()]);
                (topic.compare)(self);
                if let (Limit::Gate, Some(store)) = (self.limit, topic.store) {
                    self.stored(store());
                }
                if self.turn > first && self.over() {
                    return;
                }
            }
            if self.over() {
                return;
            }
            self.turn += 1;
        }
    }
}

fn stop(why: &str) -> ! {
    eprintln!("compare: {why}");
    exit(2)
}

fn topic(name: &str) -> &'static Topic {
    topics::ALL.iter().find(|topic| topic.name == name).unwrap_or_else(|| {
        let names: Vec<&str> = topics::ALL.iter().map(|topic| topic.name).collect();
        stop(&format!("there is no topic {name}; there are: {}", names.join(" ")))
    })
}

fn main() {
    let (mut scale, mut seconds, mut count, mut seed, mut turn) = (false, None, None, None, 0);
    let mut chosen: Vec<&Topic> = vec![];
    let mut args = std::env::args().skip(1);
    while let Some(word) = args.next() {
        let mut next = || args.next().unwrap_or_else(|| stop(&format!("{word} needs a word after it")));
        let number = |text: String| text.parse().unwrap_or_else(|_| stop(&format!("{text} is no number")));
        match word.as_str() {
            "--scale" => scale = true,
            "--seconds" => seconds = Some(number(next())),
            "--count" => count = Some(number(next())),
            "--seed" => seed = Some(number(next())),
            "--turn" => turn = number(next()),
            "--store" => {
                let topic = topic(&next());
                let store = topic.store.unwrap_or_else(|| stop("the topic stores nothing"));
                for (path, text) in store().files(topic.name) {
                    fs::write(&path, text).unwrap_or_else(|e| stop(&format!("{path}: {e}")));
                }
                return;
            }
            "--speed" => {
                let named: Vec<&Topic> = args.map(|name| topic(&name)).collect();
                let timed = if named.is_empty() { topics::TIMED.iter().collect() } else { named };
                speed::heading();
                return timed.iter().for_each(|topic| topic.speed.unwrap_or_else(|| stop("the topic times nothing"))());
            }
            name => chosen.push(topic(name)),
        }
    }
    let limit = match (scale, seconds, count) {
        (true, seconds, None) => Limit::Seconds(seconds.unwrap_or(SECONDS)),
        (false, None, Some(0)) => stop("--count is 1 or more"),
        (false, None, Some(n)) => Limit::Count(n),
        (false, None, None) if turn == 0 => Limit::Gate,
        _ => stop("--seconds and --turn go with --scale, --count goes without"),
    };
    if chosen.is_empty() {
        chosen.extend(topics::ALL.iter().filter(|topic| topic.gate || scale));
    }
    let seed = seed.unwrap_or(SEEDS[usize::from(scale)]);
    if let Limit::Seconds(s) = limit {
        eprintln!("compare: seed {seed}, {s} s, from turn {turn}");
    }
    let now = Instant::now();
    let (counts, busy) = (BTreeMap::new(), BTreeSet::new());
    let mut run = Run { limit, seed, turn, topic: "", place: [0; 2], began: now, told: now, compared: 0, counts, busy };
    run.turns(&chosen);
    run.tell_counts();
    if let Some(idle) = chosen.iter().find(|topic| !run.busy.contains(topic.name)) {
        println!("compare: nothing was compared of {}", idle.name);
        exit(1);
    }
    let (turns, compared) = (run.turn + 1 - turn, run.compared);
    println!("compare: no difference, seed {seed}, {turns} turns, {compared} inputs, {:.1} s", now.elapsed().as_secs_f64());
}
