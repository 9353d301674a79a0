//! Our traces of whole recipes beside a loop over the Rust text's functions; and how the cost of ours grows with
//! records, coefficients and passes. Ours are called by the wrapper in `examples/rust`.
//!
//! The folder that LENSES names has a lens a file, as `bench/lenses` writes them. Its surfaces are made beforehand for
//! the loop, which meets each, takes its normal where the intersection does not hand it out, refracts or reflects, and
//! writes the record and adds its share to the path; ours reads the recipe's bytes. Both sides hand back the sum of the
//! last beam's numbers, the path among them. These sums and all records have to be the same bits, but for the number of
//! steps, which the Rust text does not tell. A word on the command line is the name of the one row wanted.

#[path = "../rows.rs"]
mod rows;

use std::hint::black_box;
use std::path::Path;

use conic::{ConicSurface, intersect_conic};
use error::OpticsError;
use pilingrue::{
    BLANK, Beam, COUNTS, HIT, KIND_CONIC, KIND_EVEN_ASPHERE, KIND_MIRROR, MOST_RECORDS, NUMBERS, RECORD_NUMBERS,
    RECORD_STATUS, RECORD_STEPS, Record, State, Trace, reach,
};
use rows::{Numbers, Sequence, least, numbers, ray, row, wanted};
use snell::{reflect, snell_refract};
use surface::asphere::EvenAsphere;
use types::{Ray, Vec3};

include!(concat!(env!("OUT_DIR"), "/text.rs"));

/// About how many surfaces the rays of a row meet.
const MET: usize = 1 << 14;

/// The sum of a beam's numbers, as the Rust loop has it.
fn sum([_, ox, oy, oz, dx, dy, dz, index, path]: [f64; NUMBERS]) -> f64 {
    path + index + ox + oy + oz + dx + dy + dz
}

/// Ours, from air.
fn ours(recipe: &[u8], [ox, oy, oz, dx, dy, dz]: Numbers, buffer: &mut [f64]) -> f64 {
    let mut state = State::default();
    let beam = Beam { origin: [ox, oy, oz], direction: [dx, dy, dz], index: 1.0 };
    Trace { recipe, buffer, state: &mut state }.whole(&beam).expect("the recipe is accepted");
    sum(state.numbers)
}

/// One scan of ours before the first surface, from air.
fn scan(recipe: &[u8], [ox, oy, oz, dx, dy, dz]: Numbers, buffer: &mut [f64], allowed: u16) -> f64 {
    let mut state = State { counts: [0; COUNTS], numbers: [0.0, ox, oy, oz, dx, dy, dz, 1.0, 0.0] };
    Trace { recipe, buffer, state: &mut state }.resume(allowed).expect("the state is accepted");
    sum(state.numbers)
}

enum Shape {
    Conic(ConicSurface),
    Even(EvenAsphere, f64),
}

struct Optic {
    shape: Shape,
    mirror: bool,
    index: f64,
}

/// The surfaces of a recipe of conics and even aspheres.
fn optics(mut recipe: &[u8]) -> Vec<Optic> {
    let mut read = vec![];
    while let [a, b, c, d, rest @ ..] = recipe {
        let (length, kind) = (u16::from_le_bytes([*a, *b]), u16::from_le_bytes([*c, *d]));
        let (record, behind) = rest.split_at(length as usize - 2);
        let numbers: Vec<f64> = record.as_chunks().0.iter().map(|number| f64::from_le_bytes(*number)).collect();
        let [vertex_z, index, curvature, conic_constant, semi, ref coefficients @ ..] = numbers[..] else {
            panic!("length {length}");
        };
        let shape = match kind % KIND_MIRROR {
            KIND_CONIC => Shape::Conic(ConicSurface { vertex_z, curvature, conic_constant, semi_diam_mm: semi }),
            KIND_EVEN_ASPHERE => {
                let coefficients = coefficients.to_vec();
                Shape::Even(EvenAsphere { curvature, conic_constant, semi_diameter_mm: semi, coefficients }, vertex_z)
            }
            _ => panic!("kind {kind}"),
        };
        read.push(Optic { shape, mirror: kind >= KIND_MIRROR, index });
        recipe = behind;
    }
    read
}

fn met(shape: &Shape, ray: &Ray, number: usize) -> Result<(f64, Vec3, Vec3, bool), OpticsError> {
    match shape {
        Shape::Conic(s) => intersect_conic(ray, s, number).map(|h| (h.t, h.point, h.normal, h.is_front_face)),
        Shape::Even(s, vertex) => {
            let (t, p) = s.intersect_ray(ray, *vertex)?;
            let n = s.normal(p.x, p.y)?;
            Ok((t, p, n, ray.direction.dot(&n) < 0.0))
        }
    }
}

#[inline(never)]
fn by_rust(optics: &[Optic], mut ray: Ray, buf: &mut [f64]) -> Result<f64, OpticsError> {
    let mut index = 1.0;
    let mut path = 0.0;
    for ((number, optic), row) in optics.iter().enumerate().zip(buf.chunks_exact_mut(RECORD_NUMBERS)) {
        let (t, p, n, front) = met(&optic.shape, &ray, number)?;
        let d = if optic.mirror {
            reflect(ray.direction, n)?
        } else {
            snell_refract(ray.direction, n, index, optic.index)?
        };
        let way = if number == 0 { t * ray.direction.dot(&ray.direction).sqrt() } else { t };
        path += way * index;
        let front = if front { 1.0 } else { 0.0 };
        row.copy_from_slice(&[HIT as f64, t, p.x, p.y, p.z, n.x, n.y, n.z, d.x, d.y, d.z, front, 1.0]);
        ray.origin = p;
        ray.direction = d;
        if !optic.mirror {
            index = optic.index;
        }
    }
    let (o, d) = (ray.origin, ray.direction);
    Ok(path + index + o.x + o.y + o.z + d.x + d.y + d.z)
}

/// Rays from z on, so wide and so steep, that the Rust text brings through all surfaces.
fn through(optics: &[Optic], z: f64, wide: f64, steep: f64) -> Vec<Numbers> {
    let mut drawn = Sequence::new();
    let mut next = || drawn.next();
    let mut buf = vec![0.0; RECORD_NUMBERS * optics.len()];
    let drawn_ray = || {
        let origin = Vec3::new(wide * next(), wide * next(), z);
        numbers(origin, Vec3::new(steep * next(), steep * next(), 1.0))
    };
    let is_through = |r: &Numbers| by_rust(optics, ray(r), &mut buf).is_ok();
    std::iter::repeat_with(drawn_ray).filter(is_through).take(MET / optics.len()).collect()
}

fn whole(name: &str, recipe: &[u8], z: f64, wide: f64, steep: f64) {
    let optics = optics(recipe);
    let rays = through(&optics, z, wide, steep);
    let [mut a, mut b] = [(); 2].map(|()| vec![0.0; RECORD_NUMBERS * optics.len()]);
    for r in &rays {
        let (x, y) = (ours(recipe, *r, &mut a), by_rust(&optics, ray(r), &mut b).unwrap());
        assert!(x.to_bits() == y.to_bits(), "{name}: another path or beam behind the last surface at {r:?}");
        for (i, (x, y)) in a.iter().zip(&b).enumerate() {
            let (record, slot) = (i / RECORD_NUMBERS, i % RECORD_NUMBERS);
            let same = slot == RECORD_STEPS || x.to_bits() == y.to_bits();
            assert!(same, "{name}: another number {slot} of record {record} at {r:?}: {x}, and by Rust {y}");
        }
    }
    let mut by_us = |r: &Numbers| ours(recipe, *r, &mut a);
    let mut by_rust = |r: &Numbers| by_rust(black_box(&optics), ray(r), &mut b).unwrap_or(0.0);
    row(name, &rays, &mut by_us, &mut by_rust);
}

/// Prints the time of each of some pieces of work beside that of the first, and what one more of what they are counted
/// by costs.
fn growth<const N: usize>(title: &str, of: [usize; N], calls: [usize; N], mut call: impl FnMut(usize, f64) -> f64) {
    let times: [f64; N] = least(|i| {
        let mut last = 0.0;
        for _ in 0..calls[i] {
            last = call(i, last * 0.0);
        }
        black_box(last);
    });
    let ns: [f64; N] = std::array::from_fn(|i| times[i] / calls[i] as f64 * 1e9);
    println!("\n{title}");
    for (n, here) in of.iter().zip(ns) {
        println!("{n:5} {:20.2}   ({here:.0} ns)", here / ns[0]);
    }
    println!("one more {:18.3}", (ns[N - 1] - ns[0]) / ns[0] / (of[N - 1] - of[0]) as f64);
}

/// One scan that allows a step, on so many conics.
fn by_records(conics: &[u8], length: usize) {
    const RECORDS: [usize; 3] = [1, 64, MOST_RECORDS];
    let mut buf = vec![0.0; RECORD_NUMBERS * MOST_RECORDS];
    growth("one scan that allows a step, by records", RECORDS, RECORDS.map(|n| 4096 / n), |i, zero| {
        scan(&conics[..length * RECORDS[i]], [4.0 + zero, 2.0, -5.0, 0.0, 0.0, 1.0], &mut buf, 1)
    });
}

/// One question for the eighth surface, on conics that go on behind it.
fn by_records_behind(conics: &[u8], length: usize) {
    const RECORDS: [usize; 3] = [8, 64, MOST_RECORDS];
    growth("one question for surface 7, by records", RECORDS, [512; 3], |i, zero| {
        let beam = Beam { origin: [4.0 + zero, 2.0, -5.0], direction: [0.0, 0.0, 1.0], index: 1.0 };
        match reach(&conics[..length * RECORDS[i]], &beam, 7) {
            Ok(Record::Hit { t, .. }) => t,
            other => panic!("the beam hits surface 7, and not {other:?}"),
        }
    });
}

/// A recipe of one even asphere with the first of these coefficients.
fn even(count: usize) -> Vec<u8> {
    const COEFFICIENTS: [f64; 8] = [1e-4, -1e-6, 1e-8, -1e-10, 1e-12, -1e-14, 1e-16, -1e-18];
    let numbers = [&[0.0, 1.5, 0.08, 0.5, 8.0], &COEFFICIENTS[..count]].concat();
    let mut record = ((2 + 8 * numbers.len()) as u16).to_le_bytes().to_vec();
    record.extend(KIND_EVEN_ASPHERE.to_le_bytes());
    record.extend(numbers.iter().flat_map(|x| x.to_le_bytes()));
    record
}

/// A steep ray, whose x waits for a zero.
fn steep(zero: f64) -> Numbers {
    [5.0 + zero, 3.0, -10.0, 0.1, -0.05, 0.99]
}

fn by_coefficients() {
    const COUNTS: [usize; 3] = [0, 4, 8];
    let recipes = COUNTS.map(even);
    let mut buf = [0.0; RECORD_NUMBERS];
    growth("a whole trace of one even asphere, by coefficients", COUNTS, [1024; 3], |i, zero| {
        ours(&recipes[i], steep(zero), &mut buf)
    });
    let steps = recipes.map(|recipe| {
        ours(&recipe, steep(0.0), &mut buf);
        assert!(buf[RECORD_STATUS] == HIT as f64);
        buf[RECORD_STEPS]
    });
    println!("passes {steps:?}");
}

/// One scan, on an even asphere with eight coefficients that it does not come to the end of.
fn by_passes() {
    const PASSES: [usize; 3] = [1, 2, 3];
    let recipe = even(8);
    let mut buf = [0.0; RECORD_NUMBERS];
    growth("one scan of one even asphere with 8 coefficients, by passes allowed", PASSES, [1024; 3], |i, zero| {
        scan(&recipe, steep(zero), &mut buf, PASSES[i] as u16)
    });
    assert!(buf[RECORD_STATUS] == BLANK as f64);
}

fn main() {
    let folder = std::env::var("LENSES").expect("LENSES names the folder with the lenses");
    let lens = |name: &str| std::fs::read(Path::new(&folder).join(name)).unwrap();
    if wanted().is_none() {
        println!("{:26} waiting, rushing", "whole recipes");
    }
    whole("doublet", &lens("doublet"), -20.0, 11.0, 0.02);
    whole("phone lens", &lens("phone"), -1.0, 0.8, 0.3);
    let relay = lens("relay");
    whole("512 conics", &relay, -5.0, 8.0, 0.02);
    if wanted().is_none() {
        by_records(&relay, relay.len() / MOST_RECORDS);
        by_records_behind(&relay, relay.len() / MOST_RECORDS);
        by_coefficients();
        by_passes();
    }
}
