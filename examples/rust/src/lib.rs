//! Safe functions over the trace of `libstation.a`. `include/pilingrue.h` has what each call does; the constants are
//! the header's, without their prefix.

mod raw;

pub use raw::Verdict;

pub const VERSION: u64 = 2;

pub const BLANK: u64 = 0;
pub const RUNNING: u64 = 0;
pub const HIT: u64 = 1;
pub const DONE: u64 = 1;
pub const ACCEPTED: u64 = 1;
pub const BAD_PARAMETER: u64 = 2;
pub const NEGATIVE_SEMI_DIAMETER: u64 = 3;
pub const SINGULAR: u64 = 4;
pub const OUTSIDE_DOMAIN: u64 = 5;
pub const MISSED: u64 = 6;
pub const VIGNETTED: u64 = 7;
pub const TOTAL_REFLECTION: u64 = 8;
pub const NOT_FINITE: u64 = 9;
pub const MALFORMED: u64 = 10;
pub const BUFFER_TOO_SHORT: u64 = 11;
pub const STATE_DOES_NOT_FIT: u64 = 12;

pub const RECORD_NUMBERS: usize = 13;
pub const RECORD_STATUS: usize = 0;
pub const RECORD_T: usize = 1;
pub const RECORD_POINT: usize = 2;
pub const RECORD_NORMAL: usize = 5;
pub const RECORD_DIRECTION: usize = 8;
pub const RECORD_FRONT: usize = 11;
pub const RECORD_STEPS: usize = 12;
pub const RECORD_R: usize = 1;
pub const RECORD_LIMIT: usize = 2;

pub const COUNTS: usize = 5;
pub const COUNTS_SURFACE: usize = 0;
pub const COUNTS_PLACE: usize = 1;
pub const COUNTS_PASSES: usize = 2;
pub const COUNTS_STEPS: usize = 3;
pub const COUNTS_OUTCOME: usize = 4;
pub const NUMBERS: usize = 9;
pub const NUMBERS_T: usize = 0;
pub const NUMBERS_ORIGIN: usize = 1;
pub const NUMBERS_DIRECTION: usize = 4;
pub const NUMBERS_INDEX: usize = 7;
pub const NUMBERS_PATH: usize = 8;

pub const KIND_CONIC: u16 = 1;
pub const KIND_EVEN_ASPHERE: u16 = 2;
pub const KIND_BICONIC: u16 = 3;
pub const KIND_TOROID: u16 = 4;
pub const KIND_ODD_ASPHERE: u16 = 5;
pub const KIND_MIRROR: u16 = 256;
pub const MOST_RECORDS: usize = 512;
pub const MOST_RECIPE_BYTES: usize = 65536;
pub const MOST_ROOM: usize = 6656;

pub const STEPS_CONIC: u16 = 1;
pub const STEPS_EVEN_ASPHERE: u16 = 25;
pub const STEPS_BICONIC: u16 = 35;
pub const STEPS_TOROID: u16 = 35;
pub const STEPS_ODD_ASPHERE: u16 = 25;

/// A beam: where it comes from, where it goes, and the refractive index that it is in. A direction of length 1 makes
/// the first t a distance; the path is right for any.
#[derive(Clone, Copy, Debug)]
pub struct Beam {
    pub origin: [f64; 3],
    pub direction: [f64; 3],
    pub index: f64,
}

/// A trace's state. It knows neither its recipe nor its version. For a power cycle copy it with the buffer, after a
/// call has returned.
#[derive(Clone, Copy, Debug, Default)]
pub struct State {
    pub counts: [u64; COUNTS],
    pub numbers: [f64; NUMBERS],
}

/// A surface's record: a point can only be had of a hit.
#[derive(Clone, Copy, Debug, PartialEq)]
pub enum Record {
    Blank,
    Hit { t: f64, point: [f64; 3], normal: [f64; 3], direction: [f64; 3], front: bool, steps: u16 },
    Vignetted { r: f64, limit: f64, steps: u16 },
    Refused { number: u64, steps: u16 },
}

/// What a call is lent. Buffer and state are read when it has returned.
pub struct Trace<'a> {
    pub recipe: &'a [u8],
    pub buffer: &'a mut [f64],
    pub state: &'a mut State,
}

/// The version of the archive.
pub fn version() -> u64 {
    raw::pilingrue_version()
}

/// The record of one surface, from 0, for one that need not wait for the rest. A trace that is under way takes no part.
pub fn reach(recipe: &[u8], beam: &Beam, surface: u64) -> Result<Record, Verdict> {
    let mut record = [0.0; RECORD_NUMBERS];
    raw::reach(recipe, beam, surface, &mut record).accepted().map(|()| Record::of(&record))
}

impl Record {
    pub fn of(record: &[f64; RECORD_NUMBERS]) -> Record {
        let three = |at| std::array::from_fn(|i| record[at + i]);
        let steps = record[RECORD_STEPS] as u16;
        match record[RECORD_STATUS] as u64 {
            BLANK => Record::Blank,
            HIT => Record::Hit {
                t: record[RECORD_T],
                point: three(RECORD_POINT),
                normal: three(RECORD_NORMAL),
                direction: three(RECORD_DIRECTION),
                front: record[RECORD_FRONT] == 1.0,
                steps,
            },
            VIGNETTED => Record::Vignetted { r: record[RECORD_R], limit: record[RECORD_LIMIT], steps },
            number => Record::Refused { number, steps },
        }
    }

    /// The record of a surface, blank where the buffer has none.
    pub fn at(buffer: &[f64], surface: usize) -> Record {
        let record = buffer.chunks_exact(RECORD_NUMBERS).nth(surface);
        record.and_then(|record| record.first_chunk()).map_or(Record::Blank, Record::of)
    }
}

impl Trace<'_> {
    /// Blanks the buffer and starts with this beam. No step is taken.
    pub fn start(&mut self, beam: &Beam) -> Result<(), Verdict> {
        raw::start(self.recipe, beam, self.buffer, self.state).accepted()
    }

    /// Takes up to so many steps, none once the trace has ended. After a refusal: stop, show nothing, start anew.
    pub fn resume(&mut self, allowed: u16) -> Result<(), Verdict> {
        raw::resume(self.recipe, self.buffer, self.state, allowed).accepted()
    }

    /// A start and all steps.
    pub fn whole(&mut self, beam: &Beam) -> Result<(), Verdict> {
        raw::whole(self.recipe, beam, self.buffer, self.state).accepted()
    }
}
