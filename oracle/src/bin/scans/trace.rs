//! The unbroken trace, surface by surface, and what a number of steps leaves of it.

use oracle::error::OpticsError;
use oracle::snell::{reflect, snell_refract};
use oracle::types::{Ray, Vec3};
use oracle::{told, written};

use crate::recipe::Surface;

pub const WIDTH: usize = 13;

#[derive(Clone, Copy)]
pub struct State {
    pub number: u64,
    pub place: u64,
    pub passes: u64,
    pub t: f64,
    pub ray: Ray,
    pub index: f64,
    pub path: f64,
    pub steps: u64,
    pub outcome: u8,
}

/// One surface of the unbroken trace.
pub struct Passage {
    /// With which t each of its steps begins.
    begun: Vec<f64>,
    pub record: [f64; WIDTH],
    after: State,
}

struct Hit {
    t: f64,
    point: Vec3,
    normal: Vec3,
    direction: Vec3,
    path: f64,
}

type Refusal = (u8, Vec<f64>);

pub fn ray(numbers: &[f64]) -> Ray {
    let vector = |n: &[f64]| Vec3::new(n[0], n[1], n[2]);
    Ray { origin: vector(numbers), direction: vector(&numbers[3..]), wavelength_nm: 0.0, energy: 0.0 }
}

fn numbers(v: Vec3) -> [f64; 3] {
    [v.x, v.y, v.z]
}

impl State {
    /// All numbers 0.
    pub fn refused(outcome: u8) -> Self {
        Self { number: 0, place: 0, passes: 0, t: 0.0, ray: ray(&[0.0; 6]), index: 0.0, path: 0.0, steps: 0, outcome }
    }

    pub fn words(&self) -> String {
        let Self { number, place, passes, t, ray, index, path, steps, outcome } = *self;
        let [origin, direction] = [ray.origin, ray.direction].map(|v| written(&numbers(v)));
        let (t, ends) = (written(&[t]), written(&[index, path]));
        format!("{number} {place} {passes}{t}{origin}{direction}{ends} {steps} {outcome}")
    }

    /// Whether none of SCOPE's reasons for a 12 (C5) holds.
    pub fn fits(&self, surfaces: &[Surface], end: usize) -> bool {
        let ended = self.outcome != 0;
        let at = usize::try_from(self.number).ok().and_then(|number| surfaces.get(number));
        let stands = match (self.outcome, at) {
            (1, _) => self.number == surfaces.len() as u64 && self.place == end as u64,
            (0 | 2 | 4..=9, Some(surface)) => {
                self.place == surface.place as u64 && self.passes < surface.limit() as u64
            }
            _ => false,
        };
        stands
            && !(ended && self.passes != 0)
            && self.steps <= surfaces.iter().map(|s| s.limit() as u64).sum()
            && all_finite(&[self.ray.origin, self.ray.direction].map(numbers).concat())
            && self.path.is_finite()
            && self.index.is_finite()
            && self.index > 0.0
    }
}

/// Each surface in turn to its end, from the state's on, up to the first refusal or the recipe's end.
pub fn unbroken(surfaces: &[Surface], end: usize, from: &State) -> Vec<Passage> {
    let mut passages = Vec::new();
    let mut state = *from;
    while state.outcome == 0 {
        let at = state.number as usize;
        let next = surfaces.get(at + 1).map_or(end, |surface| surface.place);
        let passage = passage(&surfaces[at], next, at + 1 == surfaces.len(), &state);
        state = passage.after;
        passages.push(passage);
    }
    passages
}

/// How many surfaces of an unbroken trace have ended after so many steps, and the state then.
pub fn cut(from: &State, passages: &[Passage], steps: u64) -> (usize, State) {
    let mut state = *from;
    let mut left = steps;
    for (ended, passage) in passages.iter().enumerate() {
        let whole = passage.begun.len() as u64;
        if left < whole {
            if left > 0 {
                state = State {
                    passes: state.passes + left,
                    t: passage.begun[left as usize],
                    steps: state.steps + left,
                    ..state
                };
            }
            return (ended, state);
        }
        left -= whole;
        state = passage.after;
    }
    (passages.len(), state)
}

fn passage(surface: &Surface, next: usize, last: bool, state: &State) -> Passage {
    let meeting = surface.meeting(&state.ray, state.passes as usize, state.t);
    let hit = meeting.end.and_then(|(t, point)| turned(surface, state, t, point)).map_err(told).and_then(finite);
    let own_steps = state.passes + meeting.begun.len() as u64;
    let steps = state.steps + meeting.begun.len() as u64;
    let ended = State { passes: 0, t: 0.0, steps, ..*state };
    let after = match &hit {
        Ok(hit) => State {
            number: state.number + 1,
            place: next as u64,
            ray: Ray { origin: hit.point, direction: hit.direction, ..state.ray },
            index: if surface.mirror { state.index } else { surface.index_after },
            path: hit.path,
            outcome: last.into(),
            ..ended
        },
        Err((number, _)) => State { outcome: *number, ..ended },
    };
    Passage { begun: meeting.begun, record: record(hit, state.ray.direction, own_steps), after }
}

fn turned(surface: &Surface, state: &State, t: f64, point: Vec3) -> Result<Hit, OpticsError> {
    let normal = surface.normal(point)?;
    let direction = if surface.mirror {
        reflect(state.ray.direction, normal)?
    } else {
        snell_refract(state.ray.direction, normal, state.index, surface.index_after)?
    };
    Ok(Hit { t, point, normal, direction, path: state.path + share(state, t) })
}

/// Of the path: t counts lengths of the direction, which behind a surface is a unit vector.
fn share(state: &State, t: f64) -> f64 {
    let d = state.ray.direction;
    if state.number == 0 { t * d.dot(&d).sqrt() * state.index } else { t * state.index }
}

fn finite(hit: Hit) -> Result<Hit, Refusal> {
    let vectors = [hit.point, hit.normal, hit.direction].map(numbers).concat();
    if all_finite(&[hit.t, hit.path]) && all_finite(&vectors) { Ok(hit) } else { Err((9, vec![])) }
}

fn all_finite(numbers: &[f64]) -> bool {
    numbers.iter().all(|x| x.is_finite())
}

fn record(hit: Result<Hit, Refusal>, old_direction: Vec3, steps: u64) -> [f64; WIDTH] {
    let mut record = [0.0; WIDTH];
    record[WIDTH - 1] = steps as f64;
    match hit {
        Ok(hit) => {
            record[0] = 1.0;
            record[1] = hit.t;
            record[2..11].copy_from_slice(&[hit.point, hit.normal, hit.direction].map(numbers).concat());
            record[11] = if old_direction.dot(&hit.normal) < 0.0 { 1.0 } else { 0.0 };
        }
        Err((number, values)) => {
            record[0] = number.into();
            record[1..=values.len()].copy_from_slice(&values);
        }
    }
    record
}
