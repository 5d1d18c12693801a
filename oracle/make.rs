//! make SRC OUT: writes the original's modules to OUT as one Rust library, `original`.
//!
//! Every change is a short anchor and what takes its place, with how often the anchor stands in the file. A file in which an
//! anchor stands more or less often is not the one these changes were written for: the maker says so and stops.

use std::{fs, path::Path, process::exit};

struct Module {
    name: &'static str,
    text: String,
}

impl Module {
    fn read(src: &Path, name: &'static str) -> Self {
        let path = src.join("crates/chess-corners-core/src").join(name);
        let text = fs::read_to_string(&path).unwrap_or_else(|e| stop(&format!("{}: {e}", path.display())));
        Module { name, text }
    }

    /// Puts `new` where `anchor` stands, which is `times` places.
    fn swap(&mut self, times: usize, anchor: &str, new: &str) {
        let found = self.text.matches(anchor).count();
        if found != times {
            stop(&format!("{}: the anchor {anchor:?} stands there {found} times, not {times}", self.name));
        }
        self.text = self.text.replace(anchor, new);
    }

    fn before(&mut self, times: usize, anchor: &str, new: &str) {
        self.swap(times, anchor, &format!("{new}{anchor}"));
    }

    fn after(&mut self, times: usize, anchor: &str, new: &str) {
        self.swap(times, anchor, &format!("{anchor}{new}"));
    }

    /// The text from `first` to the end of the item that begins with `last`.
    fn cut(&mut self, first: &str, last: &str) {
        self.swap(1, first, first);
        self.swap(1, last, last);
        let from = self.text.find(first).unwrap();
        let item = self.text.find(last).unwrap();
        let Some(end) = self.text[item..].find("\n}\n") else {
            stop(&format!("{}: no end of {last:?}", self.name));
        };
        self.text = self.text[from..item + end + 3].to_string();
    }

    /// Makes every item, method and field of the kinds counted public.
    fn expose(&mut self, counts: &[(usize, &str)], fields: &[&str]) {
        for &(times, word) in counts {
            let indent = word.len() - word.trim_start().len();
            self.swap(times, &format!("\n{word} "), &format!("\n{}pub {} ", &word[..indent], word.trim_start()));
        }
        for field in fields {
            self.swap(1, &format!("\n    {field}"), &format!("\n    pub {field}"));
        }
    }

    /// What stands between `first` and the next `last`.
    fn between(&self, first: &str, last: &str) -> &str {
        let mut parts = self.text.split(first).skip(1);
        match (parts.next().and_then(|rest| rest.split_once(last)), parts.next()) {
            (Some((part, _)), None) => part,
            _ => stop(&format!("{}: {first:?} does not stand there once with {last:?} after it", self.name)),
        }
    }

    fn write(&self, out: &Path, name: &str) {
        let path = out.join(name);
        fs::write(&path, &self.text).unwrap_or_else(|e| stop(&format!("{}: {e}", path.display())));
    }
}

fn stop(why: &str) -> ! {
    eprintln!("make: {why}");
    exit(1)
}

fn main() {
    let args: Vec<String> = std::env::args().skip(1).collect();
    let [src, out] = &args[..] else { stop("usage: make SRC OUT") };
    let (src, out) = (Path::new(src), Path::new(out));
    fs::create_dir_all(out).unwrap_or_else(|e| stop(&format!("{}: {e}", out.display())));

    let mut noise = Module::read(src, "noise.rs");
    noise.expose(
        &[(8, "fn"), (20, "const"), (2, "struct"), (1, "type"), (8, "    fn")],
        &["gate: &'a [f32],", "op: &'a [f32],", "buf: Vec<f32>,", "kept: usize,", "start: [usize; BANDS + 1],"],
    );
    noise.write(out, "noise.rs");
    grid(&noise).write(out, "grid.rs");
    count(&mut noise);
    noise.write(out, "counted.rs");

    let mut uncertainty = Module::read(src, "uncertainty.rs");
    uncertainty.swap(27, "pub(crate) ", "pub ");
    uncertainty.expose(
        &[(3, "const"), (1, "    fn")],
        &["grad: Vec<[f32; 2]>,", "data: Vec<f32>,"],
    );
    uncertainty.swap(2, "\n    origin: [i32; 2],\n    side: usize,", "\n    pub origin: [i32; 2],\n    pub side: usize,");
    uncertainty.write(out, "uncertainty.rs");
    uncertainty.after(
        1,
        "grads.select_nth_unstable_by(m - k - 1, |a, b| a.total_cmp(b));",
        "\n        grads[m - k..].sort_by(f32::total_cmp);",
    );
    uncertainty.write(out, "sorted.rs");

    let mut imageview = Module::read(src, "imageview.rs");
    imageview.swap(4, "pub(crate) ", "pub ");
    imageview.write(out, "imageview.rs");

    let mut refine = Module::read(src, "refine/mod.rs");
    refine.cut(
        "#[derive(Clone, Copy, Debug, PartialEq)]\n#[non_exhaustive]\npub struct PositionCovariance",
        "impl core::ops::Add for PositionCovariance",
    );
    refine.swap(2, "pub(crate) ", "pub ");
    refine.write(out, "refine.rs");
}

/// The step, a grid row and the window count of a pass, by `Sample::collect`'s own expressions.
fn grid(noise: &Module) -> Module {
    let step = noise.between("let step = ", ";\n");
    let row = noise.between("let grid_row = |j: usize| {", "};\n");
    let total = noise.between("let total: usize = ", ";\n");
    let text = format!(
        "pub fn step(w: usize, h: usize, windows: usize) -> usize {{ {step} }}\n\
         pub fn grid_row(w: usize, step: usize, j: usize) -> (usize, usize) {{ {row} }}\n\
         pub fn total(w: usize, h: usize, step: usize) -> usize {{ let grid_row = |j: usize| grid_row(w, step, j); {total} }}\n"
    );
    Module { name: "grid.rs", text }
}

/// Counts what document 01 counts and the original does not answer: rounds, passes, band counts, rail, and why there is no figure.
fn count(noise: &mut Module) {
    noise.after(2, "for _ in 0..ROUNDS {", "\n            crate::counts::round();");
    noise.before(1, "    let kept = start[BANDS];\n", "    crate::counts::windows(count);\n    ");
    noise.before(1, "    if sample.len() < MIN_SAMPLES {\n", "    crate::counts::pass();\n");
    noise.after(1, "    if sample.len() < MIN_SAMPLES {\n", "        crate::counts::reason(5);\n");
    noise.swap(1, "        0 => return None,\n", "        0 => {\n            crate::counts::reason(6);\n            return None;\n        }\n");
    noise.before(1, "    (n >= MIN_SAMPLES).then(", "    crate::counts::reason(if n >= MIN_SAMPLES { 0 } else { 7 });\n");
    noise.after(1, "    if w < 4 || h < 4 {\n", "        crate::counts::reason(3);\n");
}
