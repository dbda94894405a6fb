//! Stored cases as words of text, of eight hexadecimal digits each. A slice is asked as its length and its words, and
//! answered as its words, on a line of its own.

/// What is asked, and what must be answered.
#[derive(Default)]
pub struct Cases {
    pub asked: String,
    pub answered: String,
}

pub fn line(words: impl IntoIterator<Item = u32>) -> String {
    let words: Vec<String> = words
        .into_iter()
        .map(|word| format!("{word:08x}"))
        .collect();
    words.join(" ") + "\n"
}

fn slice(words: impl ExactSizeIterator<Item = u32>) -> String {
    line(std::iter::once(words.len() as u32).chain(words))
}

pub fn numbers(values: &[u32]) -> String {
    slice(values.iter().copied())
}

pub fn bytes(values: &[u8]) -> String {
    slice(values.iter().map(|&byte| byte.into()))
}

pub fn floats(values: &[f32]) -> String {
    slice(values.iter().map(|x| x.to_bits()))
}

fn answer(words: impl Iterator<Item = u32>) -> String {
    words.map(|word| format!("{word:08x} ")).collect::<String>() + "\n"
}

pub fn answer_numbers(values: &[u32]) -> String {
    answer(values.iter().copied())
}

pub fn answer_bytes(values: &[u8]) -> String {
    answer(values.iter().map(|&byte| byte.into()))
}

/// Every NaN is written as 7fc00000.
pub fn answer_floats(values: &[f32]) -> String {
    let pattern = |x: &f32| if x.is_nan() { 0x7fc0_0000 } else { x.to_bits() };
    answer(values.iter().map(pattern))
}

impl Cases {
    /// A case: the words before its slices, the slices as asked, the code, and the slices as answered.
    pub fn add(&mut self, head: &[u32], asked: &[String], code: u32, answered: &[String]) {
        self.asked += &line(head.iter().copied());
        self.asked.extend(asked.iter().map(String::as_str));
        self.answered += &line([code]);
        self.answered.extend(answered.iter().map(String::as_str));
    }

    /// Writes the files of that name among the package's tests, at the root of the repository.
    pub fn write(self, name: &str) -> std::io::Result<()> {
        std::fs::write(format!("rust/tests/stored/{name}.asked"), self.asked)?;
        std::fs::write(format!("rust/tests/stored/{name}.answered"), self.answered)
    }
}

/// The count that the first argument gives, or another.
pub fn count_or(count: usize) -> usize {
    let word = std::env::args().nth(1);
    word.map_or(count, |word| word.parse().expect("a count"))
}
