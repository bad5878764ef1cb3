//! Files of cases: what a program reads from standard input, and what it must print.

/// A case in the files.
pub trait Filed {
    /// Its bytes on standard input.
    fn stdin(&self) -> Vec<u8>;

    /// Its expected output, with the ends of its lines.
    fn stdout(&self) -> String;
}

/// The bytes of standard input.
pub fn stdin_bytes(cases: &[impl Filed]) -> Vec<u8> {
    cases.iter().flat_map(Filed::stdin).collect()
}

/// The expected standard output.
pub fn stdout_text(cases: &[impl Filed]) -> String {
    cases.iter().map(Filed::stdout).collect()
}

/// Numbers of 16 bits, high byte first.
pub fn words_bytes(words: impl IntoIterator<Item = u16>) -> impl Iterator<Item = u8> {
    words.into_iter().flat_map(u16::to_be_bytes)
}

/// A case: numbers of 16 bits, numbers of 32 bits, high byte first; then the label; then the bytes.
pub fn case_bytes(words: &[u16], longs: &[usize], label: &str, bytes: &[u8]) -> Vec<u8> {
    let longs = longs
        .iter()
        .flat_map(|number| (*number as u32).to_be_bytes());
    let head = words_bytes(words.iter().copied()).chain(longs);
    let parts = label.bytes().chain(bytes.iter().copied());
    head.chain(parts).collect()
}
