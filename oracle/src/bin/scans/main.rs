//! Drives one station by the script on standard input, as the program `scans` does.
//!
//! Nothing here steps and resumes: each trace is made whole, and what a number of steps shows of it is cut out.

mod meeting;
mod recipe;
mod trace;

use oracle::{digits, number, written};
use recipe::Surface;
use trace::{State, WIDTH, cut, ray, unbroken};

const MOST_BYTES: usize = 65_596;
const MOST_ROOM: u64 = 8_192;

struct Station {
    recipe: Vec<u8>,
    buffer: Vec<f64>,
    state: State,
    /// The state that the trace was begun from, and the steps that were allowed since.
    from: State,
    allowed: u64,
}

/// An answer's number, and its place.
type Answer = (u8, usize);

impl Station {
    fn new() -> Self {
        let state = State::refused(0);
        Self { recipe: vec![], buffer: vec![1.0; 6_656], state, from: state, allowed: 0 }
    }

    fn begin_from(&mut self, state: State) {
        (self.state, self.from, self.allowed) = (state, state, 0);
    }

    fn surfaces_with_room(&self) -> Result<Vec<Surface>, Answer> {
        let surfaces = recipe::surfaces(&self.recipe)?;
        if self.buffer.len() < WIDTH * surfaces.len() { Err((11, 0)) } else { Ok(surfaces) }
    }

    fn start(&mut self, numbers: &[f64]) -> Answer {
        self.buffer.fill(0.0);
        let index = numbers[6];
        let refusal = match recipe::surfaces(&self.recipe) {
            Err(refusal) => Some(refusal),
            _ => ray_refusal(numbers).or_else(|| self.surfaces_with_room().err()),
        };
        let (outcome, answer) = match refusal {
            Some(refusal) => (refusal.0, refusal),
            None => (self.recipe.is_empty().into(), (1, 0)),
        };
        let refused = State::refused(outcome);
        self.begin_from(if refusal.is_some() { refused } else { State { ray: ray(numbers), index, ..refused } });
        answer
    }

    fn carry_on(&mut self, allowed: u64) -> Answer {
        let surfaces = match self.surfaces_with_room() {
            Ok(surfaces) => surfaces,
            Err(refusal) => return refusal,
        };
        let end = self.recipe.len();
        if !self.state.fits(&surfaces, end) {
            return (12, 0);
        }
        let passages = unbroken(&surfaces, end, &self.from);
        let (before, _) = cut(&self.from, &passages, self.allowed);
        self.allowed += allowed;
        let (after, state) = cut(&self.from, &passages, self.allowed);
        for (i, passage) in passages.iter().enumerate().take(after).skip(before) {
            let at = WIDTH * (self.from.number as usize + i);
            self.buffer[at..at + WIDTH].copy_from_slice(&passage.record);
        }
        let (_, resumed) = cut(&self.state, &unbroken(&surfaces, end, &self.state), allowed);
        assert_eq!(resumed.words(), state.words(), "taken up from the last state, and cut out of the whole");
        self.state = state;
        (1, 0)
    }

    /// The record of one surface, by a trace of the surfaces up to it; blank where that ended before.
    fn reach(&self, number: u64, numbers: &[f64]) -> Result<[f64; WIDTH], Answer> {
        let number = usize::try_from(number).ok().filter(|&number| number < recipe::MOST_RECORDS).ok_or((2, 0))?;
        let surfaces = recipe::first(&self.recipe, number + 1)?;
        let too_few = (surfaces.len() <= number).then_some((2, 0));
        if let Some(refusal) = too_few.or_else(|| ray_refusal(numbers)) {
            return Err(refusal);
        }
        let begun = State { ray: ray(numbers), index: numbers[6], ..State::refused(0) };
        let passages = unbroken(&surfaces, self.recipe.len(), &begun);
        Ok(passages.get(number).map_or([0.0; WIDTH], |passage| passage.record))
    }

    fn shown(&self, what: &str, (number, place): Answer) -> String {
        let (records, tail) = self.buffer.as_chunks::<WIDTH>();
        let mut text = format!("{what} {number} {place}\nstate {}\n", self.state.words());
        text.extend(records.iter().enumerate().map(|(j, record)| shown_record(j, record)));
        if is_shown(tail) {
            text += &format!("tail{}\n", written(tail));
        }
        text
    }

    /// None for a line that cannot be read.
    fn answer(&mut self, line: &[u8]) -> Option<String> {
        match oracle::words(line)?[..] {
            ["recipe", ref hex @ ..] => {
                self.recipe = bytes(hex)?;
                self.begin_from(self.state);
                Some(String::new())
            }
            ["room", n] => {
                self.buffer = vec![1.0; count(n, MOST_ROOM)? as usize];
                Some(String::new())
            }
            ["start", ref words @ ..] if words.len() == 7 => {
                let answer = self.start(&numbers(words)?);
                Some(self.shown("start", answer))
            }
            ["state", ref words @ ..] => {
                self.begin_from(state(words)?);
                Some(String::new())
            }
            ["continue", n] => {
                let answer = self.carry_on(count(n, u16::MAX.into())?);
                Some(self.shown("continue", answer))
            }
            ["reach", number, ref words @ ..] if words.len() == 7 => {
                let number = count(number, u64::MAX)?;
                let ((answer, place), record) = match self.reach(number, &numbers(words)?) {
                    Ok(record) => ((1, 0), record),
                    Err(refusal) => (refusal, [0.0; WIDTH]),
                };
                Some(format!("reach {answer} {place}\n{}", shown_record(number, &record)))
            }
            _ => None,
        }
    }
}

/// Of a ray and its index.
fn ray_refusal(numbers: &[f64]) -> Option<Answer> {
    match numbers {
        _ if !numbers.iter().all(|x| x.is_finite()) => Some((2, 0)),
        [.., index] if *index <= 0.0 => Some((4, 0)),
        _ => None,
    }
}

fn is_shown(numbers: &[f64]) -> bool {
    numbers.iter().any(|x| x.to_bits() != 0)
}

/// Nothing for a blank one.
fn shown_record(number: impl std::fmt::Display, record: &[f64; WIDTH]) -> String {
    if is_shown(record) { format!("record {number}{}\n", written(record)) } else { String::new() }
}

fn count(word: &str, most: u64) -> Option<u64> {
    digits(word, 10).filter(|&n| n <= most)
}

fn numbers(words: &[&str]) -> Option<Vec<f64>> {
    words.iter().map(|word| number(word)).collect()
}

/// Of no word or one.
fn bytes(hex: &[&str]) -> Option<Vec<u8>> {
    let digits_of_bytes = match hex {
        [] => "",
        [word] => word,
        _ => return None,
    };
    let (pairs, []) = digits_of_bytes.as_bytes().as_chunks::<2>() else { return None };
    let byte = |pair: &[u8; 2]| digits(str::from_utf8(pair).ok()?, 16)?.try_into().ok();
    pairs.iter().map(byte).collect::<Option<Vec<u8>>>().filter(|bytes| bytes.len() <= MOST_BYTES)
}

fn state(words: &[&str]) -> Option<State> {
    let &[number, place, passes, ref floats @ .., steps, outcome] = words else { return None };
    let &[t, ref ray_numbers @ .., index, path] = &numbers(floats)?[..] else { return None };
    (ray_numbers.len() == 6).then_some(())?;
    Some(State {
        number: count(number, u64::MAX)?,
        place: count(place, u64::MAX)?,
        passes: count(passes, u16::MAX.into())?,
        t,
        ray: ray(ray_numbers),
        index,
        path,
        steps: count(steps, u64::MAX)?,
        outcome: count(outcome, u8::MAX.into())? as u8,
    })
}

fn main() -> std::io::Result<()> {
    let mut station = Station::new();
    oracle::answer_lines(|line| station.answer(line).unwrap_or_else(|| "?\n".to_string()))
}
