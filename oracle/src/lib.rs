//! The Rust text itself, and what the programs over it share: lines of words, SCOPE's numbers for refusals (T1), and
//! Newton's passes.

pub mod newton;

use std::io::{self, Read, Write};

use error::OpticsError;

include!(concat!(env!("OUT_DIR"), "/text.rs"));

const _: () = assert!(!cfg!(debug_assertions), "the release build decides");

const LONGEST_LINE: usize = 131_200;

/// Writes what each line of standard input is answered.
pub fn answer_lines(mut answer: impl FnMut(&[u8]) -> String) -> io::Result<()> {
    let mut lines = Vec::new();
    io::stdin().read_to_end(&mut lines)?;
    let mut out = io::BufWriter::new(io::stdout().lock());
    for line in lines.split_inclusive(|&byte| byte == b'\n') {
        out.write_all(answer(line.strip_suffix(b"\n").unwrap_or(line)).as_bytes())?;
    }
    out.flush()
}

/// A line's words, which are none of an empty line. None where the line is too long or no text.
pub fn words(line: &[u8]) -> Option<Vec<&str>> {
    let text = str::from_utf8(line).ok().filter(|_| line.len() <= LONGEST_LINE)?;
    Some(text.split(' ').filter(|word| !word.is_empty()).collect())
}

pub fn number(word: &str) -> Option<f64> {
    (word.len() == 16).then_some(())?;
    let x = f64::from_bits(digits(word, 16)?);
    Some(if x.is_nan() { f64::NAN } else { x })
}

/// Digits alone: `from_str_radix` would take a sign too.
pub fn digits(word: &str, radix: u32) -> Option<u64> {
    word.chars().all(|c| c.is_digit(radix)).then(|| u64::from_str_radix(word, radix).ok())?
}

/// A space before each number.
pub fn written(numbers: &[f64]) -> String {
    let bits = |x: f64| if x.is_nan() { 0x7FF8_0000_0000_0000 } else { x.to_bits() };
    numbers.iter().map(|&x| format!(" {:016X}", bits(x))).collect()
}

/// SCOPE's number (T1), and the values that are told with it.
pub fn told(refusal: OpticsError) -> (u8, Vec<f64>) {
    match refusal {
        OpticsError::InvalidParameter(_) => (2, vec![]),
        OpticsError::InvalidSurface(_) => (3, vec![]),
        OpticsError::NumericalSingularity(_) => (4, vec![]),
        OpticsError::GeometryOutsideAperture => (5, vec![]),
        OpticsError::RayMissedSurface(_) => (6, vec![]),
        OpticsError::RayVignetted { r, max_r, .. } => (7, vec![r, max_r]),
        OpticsError::TotalInternalReflection => (8, vec![]),
        other => panic!("{other:?} has no number in SCOPE"),
    }
}

/// Stops unless both have the same number and values, bit by bit, both zeros being equal.
pub fn check(ours: Result<Vec<f64>, OpticsError>, rust: Result<Vec<f64>, OpticsError>, what: &str) {
    let words = |answer: Result<Vec<f64>, OpticsError>| {
        let (number, values) = answer.map_or_else(told, |values| (1, values));
        let without_sign: Vec<f64> = values.iter().map(|x| x + 0.0).collect();
        format!("{number}{}", written(&without_sign))
    };
    assert_eq!(words(ours), words(rust), "{what}: here, and in the Rust text");
}
