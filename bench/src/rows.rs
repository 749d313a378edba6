//! What the programs read: rows `name,city,code`, words and messages, the same at each run.

/// How many rows, words and messages there are.
pub const ROWS: usize = 4000;
/// How many bytes a name, a city and a code have at most.
pub const NAME: usize = 30;
pub const CITY: usize = 62;
pub const CODE: usize = 14;
/// How many bytes the words have at most, and a line that is written.
pub const SHORT: usize = 23;
pub const LONG: usize = 63;
pub const LINE: usize = 255;

const CITIES: usize = 200;
const SYLLABLES: [&str; 16] =
    ["an", "bel", "cor", "dé", "el", "fri", "gan", "hö", "ix", "jo", "ku", "lam", "mor", "né", "os", "pra"];

/// Numbers in an order of no meaning: each is made of the one before it.
struct Numbers(u64);

impl Numbers {
    /// One from `least` to `most`.
    fn between(&mut self, least: usize, most: usize) -> usize {
        self.0 = self.0.wrapping_mul(6_364_136_223_846_793_005).wrapping_add(1_442_695_040_888_963_407);
        least + (self.0 >> 33) as usize % (most - least + 1)
    }

    /// A word of so many bytes.
    fn word(&mut self, size: usize) -> String {
        let mut word = String::new();
        while word.len() < size {
            let syllable = SYLLABLES[self.between(0, SYLLABLES.len() - 1)];
            word += if word.len() + syllable.len() <= size { syllable } else { "e" };
        }
        word
    }
}

/// The lines of all rows. Names, cities and codes have each length up to the most.
pub fn lines() -> String {
    let mut numbers = Numbers(1);
    let sizes = (0..CITIES).map(|at| 4 + at % (CITY - 3));
    let cities: Vec<String> = sizes.map(|size| numbers.word(size)).collect();
    let mut lines = String::new();
    for at in 0..ROWS {
        let (name_size, code_size) = (3 + at % (NAME - 2), numbers.between(2, CODE));
        let name = numbers.word(name_size);
        let city = &cities[numbers.between(0, CITIES - 1)];
        lines += &format!("{name},{city},{}\n", numbers.word(code_size));
    }
    lines
}

/// Words of each length from `least` to `most`.
pub fn words(least: usize, most: usize) -> Vec<String> {
    let mut numbers = Numbers(2);
    let sizes: Vec<usize> = (0..ROWS).map(|_| numbers.between(least, most)).collect();
    sizes.into_iter().map(|size| numbers.word(size)).collect()
}
