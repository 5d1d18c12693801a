//! Lists of calls that a program `stored_TOPIC` replays, and what it says of them, from the answers of the original or of
//! the reading of document 02.

use super::Stored;

pub struct Lines {
    columns: usize,
    stored: Stored,
}

impl Lines {
    pub fn new(columns: usize) -> Self {
        Lines { columns, stored: Stored::default() }
    }

    /// A line that the program answers with nothing.
    pub fn put(&mut self, letter: char, numbers: &[u64]) {
        assert!(numbers.len() <= self.columns);
        self.stored.stdin.push(letter);
        (0..self.columns).for_each(|k| self.stored.stdin += &format!(" {:016x}", numbers.get(k).unwrap_or(&0)));
        self.stored.stdin.push('\n');
    }

    /// A line and its answer.
    pub fn call(&mut self, letter: char, numbers: &[u64], answer: &str) {
        self.put(letter, numbers);
        self.stored.stdout += answer;
        self.stored.stdout.push('\n');
    }

    /// The whole list. At its end the first line once more, three times with a byte that does not belong there: a capital for its
    /// first digit, another separator, no line end.
    pub fn stored(mut self) -> Stored {
        let first = self.stored.stdin.lines().next().expect("a line").to_string();
        for (at, byte) in [(2, "A"), (1, "_"), (first.len(), "0")] {
            let mut line = first.clone() + "\n";
            line.replace_range(at..=at, byte);
            self.stored.stdin += &line;
            self.stored.stdout += "a line that cannot be read\n";
        }
        assert!(self.stored.stdin.len() <= 1 << 16, "the program reads 65,536 bytes");
        let width = 17 * self.columns + 2;
        self.stored.stdout += &format!("{} lines, 0 bytes over\n", self.stored.stdin.len() / width);
        self.stored
    }
}

/// Forty bytes in five columns.
pub fn columns(bytes: &[u8; 40]) -> [u64; 5] {
    std::array::from_fn(|k| u64::from_be_bytes(bytes[8 * k..8 * k + 8].try_into().unwrap()))
}

/// A whole number as the lists have it: bit 31 for the sign, 31 bits for the size.
pub fn signed(z: i32) -> u64 {
    assert!(z != i32::MIN, "no list has it");
    u64::from(z.unsigned_abs()) | u64::from(z < 0) << 31
}

/// A pattern as a column has it.
pub fn pattern(x: f32) -> u64 {
    x.to_bits().into()
}

/// Patterns as a program writes them.
pub fn shown(floats: &[f32]) -> String {
    floats.iter().map(|x| format!(" {:08x}", if x.is_nan() { 0x7fc0_0000 } else { x.to_bits() })).collect()
}
