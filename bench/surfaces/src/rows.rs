//! A row of a table: ours beside the Rust text's, in one run on the same rays.
//!
//! A row goes through its rays, origin and direction of each waiting for the last answer, as in a trace; then without
//! waiting. The two sides take turns, PASSES times, and the least time of each counts. Their answers have to be the
//! same bits. Each row has a process of its own, since what one leaves in the processor shows in the next.

use std::hint::black_box;
use std::process::Command;
use std::time::Instant;

use crate::types::{Ray, Vec3};

const PASSES: usize = 400;

pub type Numbers = [f64; 6];

pub type Side<'a> = &'a mut dyn FnMut(&Numbers) -> f64;

/// Of a ray, its direction made a unit vector.
pub fn numbers(origin: Vec3, direction: Vec3) -> Numbers {
    let Ray { origin: o, direction: d, .. } = Ray::new(origin, direction, 587.0, 1.0).unwrap();
    [o.x, o.y, o.z, d.x, d.y, d.z]
}

pub fn ray(r: &Numbers) -> Ray {
    Ray {
        origin: Vec3::new(r[0], r[1], r[2]),
        direction: Vec3::new(r[3], r[4], r[5]),
        wavelength_nm: 587.0,
        energy: 1.0,
    }
}

/// A fixed sequence of numbers from -1 to 1.
pub struct Sequence(u64);

impl Sequence {
    pub fn new() -> Self {
        Self(1)
    }

    pub fn next(&mut self) -> f64 {
        self.0 = self.0.wrapping_mul(6364136223846793005).wrapping_add(1442695040888963407);
        (self.0 >> 11) as f64 / (1u64 << 52) as f64 - 1.0
    }
}

fn waiting(f: Side, rays: &[Numbers]) {
    let mut last = 0.0;
    for r in rays {
        let zero = last * 0.0;
        last = f(&[r[0] + zero, r[1], r[2], r[3] + zero, r[4], r[5]]);
    }
    black_box(last);
}

fn rushing(f: Side, rays: &[Numbers]) {
    for r in rays {
        black_box(f(r));
    }
}

fn seconds(work: impl FnOnce()) -> f64 {
    let from = Instant::now();
    work();
    from.elapsed().as_secs_f64()
}

/// The least seconds of each piece of work, which take turns.
pub fn least<const N: usize>(mut turn: impl FnMut(usize)) -> [f64; N] {
    let mut least = [f64::INFINITY; N];
    for _ in 0..PASSES {
        for (i, time) in least.iter_mut().enumerate() {
            *time = time.min(seconds(|| turn(i)));
        }
    }
    least
}

/// The name of the one row that this process measures; none where it measures all, each in a process of its own.
pub fn wanted() -> Option<String> {
    std::env::args().nth(1)
}

pub fn row(name: &str, rays: &[Numbers], ours: Side, rust: Side) {
    match wanted() {
        None => {
            let program = std::env::current_exe().unwrap();
            assert!(Command::new(program).arg(name).status().unwrap().success(), "{name}: no row");
        }
        Some(wanted) if wanted == name => measure(name, rays, ours, rust),
        Some(_) => {}
    }
}

fn measure(name: &str, rays: &[Numbers], ours: Side, rust: Side) {
    let hits = rays.iter().filter(|r| {
        let answer = ours(r);
        assert_eq!(answer.to_bits(), rust(r).to_bits(), "{name}: other numbers at {r:?}");
        answer != 0.0
    });
    let hits = hits.count();
    let least: [f64; 4] = least(|i| match i {
        0 => waiting(ours, rays),
        1 => waiting(rust, rays),
        2 => rushing(ours, rays),
        _ => rushing(rust, rays),
    });
    let [a, b, c, d] = least.map(|t| t / rays.len() as f64 * 1e9);
    let times = format!("{a:.1} / {b:.1} ns, {c:.1} / {d:.1} ns");
    println!("{name:26} {:5.2} {:5.2}   ({times}; {hits} of {} hit)", a / b, c / d, rays.len());
}
