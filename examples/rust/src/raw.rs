//! The archive's functions. All that is not safe stands here.

use super::{ACCEPTED, Beam, COUNTS, NUMBERS, RECORD_NUMBERS, State};

/// 1 or the refusal, and the byte place of the record that was refused, else 0.
#[repr(C)]
#[derive(Clone, Copy, Debug, PartialEq, Eq)]
pub struct Verdict {
    pub number: u64,
    pub place: u64,
}

impl Verdict {
    pub(crate) fn accepted(self) -> Result<(), Verdict> {
        if self.number == ACCEPTED { Ok(()) } else { Err(self) }
    }
}

unsafe extern "C" {
    pub(crate) safe fn pilingrue_version() -> u64;

    fn pilingrue_start(
        recipe: *const u8, recipe_bytes: usize, ox: f64, oy: f64, oz: f64, dx: f64, dy: f64, dz: f64, index: f64,
        buffer: *mut f64, room: usize, counts: &mut [u64; COUNTS], numbers: &mut [f64; NUMBERS],
    ) -> Verdict;

    fn pilingrue_continue(
        recipe: *const u8, recipe_bytes: usize, buffer: *mut f64, room: usize, counts: &mut [u64; COUNTS],
        numbers: &mut [f64; NUMBERS], allowed: u16,
    ) -> Verdict;

    fn pilingrue_whole(
        recipe: *const u8, recipe_bytes: usize, ox: f64, oy: f64, oz: f64, dx: f64, dy: f64, dz: f64, index: f64,
        buffer: *mut f64, room: usize, counts: &mut [u64; COUNTS], numbers: &mut [f64; NUMBERS],
    ) -> Verdict;

    fn pilingrue_reach(
        recipe: *const u8, recipe_bytes: usize, ox: f64, oy: f64, oz: f64, dx: f64, dy: f64, dz: f64, index: f64,
        surface: u64, record: &mut [f64; RECORD_NUMBERS],
    ) -> Verdict;
}

type Begin = unsafe extern "C" fn(
    *const u8,
    usize,
    f64,
    f64,
    f64,
    f64,
    f64,
    f64,
    f64,
    *mut f64,
    usize,
    &mut [u64; COUNTS],
    &mut [f64; NUMBERS],
) -> Verdict;

// Sound, here and below: pointer and length are those of one slice, and `&mut` keeps all that is lent apart.
fn begin(call: Begin, recipe: &[u8], beam: &Beam, buffer: &mut [f64], state: &mut State) -> Verdict {
    let ([ox, oy, oz], [dx, dy, dz]) = (beam.origin, beam.direction);
    let (bytes, room) = (recipe.len(), buffer.len());
    let (counts, numbers) = (&mut state.counts, &mut state.numbers);
    unsafe {
        call(recipe.as_ptr(), bytes, ox, oy, oz, dx, dy, dz, beam.index, buffer.as_mut_ptr(), room, counts, numbers)
    }
}

pub(crate) fn start(recipe: &[u8], beam: &Beam, buffer: &mut [f64], state: &mut State) -> Verdict {
    begin(pilingrue_start, recipe, beam, buffer, state)
}

pub(crate) fn whole(recipe: &[u8], beam: &Beam, buffer: &mut [f64], state: &mut State) -> Verdict {
    begin(pilingrue_whole, recipe, beam, buffer, state)
}

pub(crate) fn resume(recipe: &[u8], buffer: &mut [f64], state: &mut State, allowed: u16) -> Verdict {
    let (bytes, room) = (recipe.len(), buffer.len());
    let (counts, numbers) = (&mut state.counts, &mut state.numbers);
    unsafe { pilingrue_continue(recipe.as_ptr(), bytes, buffer.as_mut_ptr(), room, counts, numbers, allowed) }
}

pub(crate) fn reach(recipe: &[u8], beam: &Beam, surface: u64, record: &mut [f64; RECORD_NUMBERS]) -> Verdict {
    let ([ox, oy, oz], [dx, dy, dz]) = (beam.origin, beam.direction);
    let bytes = recipe.len();
    unsafe { pilingrue_reach(recipe.as_ptr(), bytes, ox, oy, oz, dx, dy, dz, beam.index, surface, record) }
}
