//! Ours beside the Rust text, by kind of surface.
//!
//! Both sides get the ray by its six numbers and hand back the sum of their answer's numbers. A word on the command
//! line is the name of the one row wanted.

mod rows;

use std::hint::black_box;

use conic::{ConicSurface, intersect_conic};
use rows::{Numbers, Sequence, numbers, ray, row, wanted};
use snell::snell_refract;
use surface::asphere::EvenAsphere;
use surface::biconic::{BiconicSurface, ToroidalSurface};
use types::{HitRecord, Vec3};

include!(concat!(env!("OUT_DIR"), "/text.rs"));

const RAYS: usize = 512;

unsafe extern "C" {
    safe fn measured_conic(
        ox: f64, oy: f64, oz: f64, dx: f64, dy: f64, dz: f64, vertex: f64, c: f64, k: f64, semi: f64,
    ) -> f64;
    safe fn measured_even(
        ox: f64, oy: f64, oz: f64, dx: f64, dy: f64, dz: f64, vertex: f64, c: f64, k: f64, semi: f64, a: f64, b: f64,
    ) -> f64;
    safe fn measured_biconic(
        ox: f64, oy: f64, oz: f64, dx: f64, dy: f64, dz: f64, vertex: f64, cx: f64, kx: f64, cy: f64, ky: f64,
        semi: f64,
    ) -> f64;
    safe fn measured_toroid(
        ox: f64, oy: f64, oz: f64, dx: f64, dy: f64, dz: f64, vertex: f64, rx: f64, cy: f64, ky: f64, semi: f64,
    ) -> f64;
    safe fn measured_conic_then(
        ox: f64, oy: f64, oz: f64, dx: f64, dy: f64, dz: f64, vertex: f64, c: f64, k: f64, semi: f64, n1: f64, n2: f64,
    ) -> f64;
    safe fn measured_even_then(
        ox: f64, oy: f64, oz: f64, dx: f64, dy: f64, dz: f64, vertex: f64, c: f64, k: f64, semi: f64, a: f64, b: f64,
        n1: f64, n2: f64,
    ) -> f64;
}

fn sum(v: Vec3) -> f64 {
    v.x + v.y + v.z
}

fn hit(h: HitRecord) -> f64 {
    h.t + h.point.x + h.point.y + h.point.z + h.normal.x + h.normal.y + h.normal.z
}

fn landing(found: Result<(f64, Vec3), error::OpticsError>) -> f64 {
    found.map_or(0.0, |(t, p)| t + p.x + p.y + p.z)
}

/// From air to glass, by indices that the compiler does not know, as ours does not.
fn refracted(direction: Vec3, normal: Vec3) -> Result<Vec3, error::OpticsError> {
    let (n1, n2) = black_box((1.0, 1.5));
    snell_refract(direction, normal, n1, n2)
}

/// Rays from about 10 mm before the vertex, up to 4 mm off the axis and a little oblique.
fn rays() -> Vec<Numbers> {
    let mut drawn = Sequence::new();
    let mut next = || drawn.next();
    (0..RAYS)
        .map(|_| {
            let direction = Vec3::new(0.1 * next(), 0.1 * next(), 1.0);
            numbers(Vec3::new(4.0 * next(), 4.0 * next(), -10.0 + next()), direction)
        })
        .collect()
}

fn main() {
    let rays = rays();
    if wanted().is_none() {
        println!("{:26} waiting, rushing", "ratio to the Rust");
    }
    for (name, c, k) in [("plane", 0.0, 0.0), ("conic", 0.02, -0.5)] {
        let s = ConicSurface { vertex_z: 0.0, curvature: c, conic_constant: k, semi_diam_mm: 8.0 };
        let mut ours = |r: &Numbers| measured_conic(r[0], r[1], r[2], r[3], r[4], r[5], 0.0, c, k, 8.0);
        let mut rust = |r: &Numbers| intersect_conic(&ray(r), black_box(&s), 0).map_or(0.0, hit);
        row(name, &rays, &mut ours, &mut rust);
        let mut ours = |r: &Numbers| measured_conic_then(r[0], r[1], r[2], r[3], r[4], r[5], 0.0, c, k, 8.0, 1.0, 1.5);
        let mut rust = |r: &Numbers| {
            let r = ray(r);
            intersect_conic(&r, black_box(&s), 0).and_then(|h| refracted(r.direction, h.normal)).map_or(0.0, sum)
        };
        row(&format!("{name}, refraction"), &rays, &mut ours, &mut rust);
    }

    let coefficients = vec![1e-4, -1e-6];
    let s = EvenAsphere { curvature: 0.02, conic_constant: -0.5, coefficients, semi_diameter_mm: 8.0 };
    let mut ours = |r: &Numbers| measured_even(r[0], r[1], r[2], r[3], r[4], r[5], 0.0, 0.02, -0.5, 8.0, 1e-4, -1e-6);
    let mut rust = |r: &Numbers| landing(black_box(&s).intersect_ray(&ray(r), 0.0));
    row("even asphere", &rays, &mut ours, &mut rust);
    let mut ours = |r: &Numbers| {
        measured_even_then(r[0], r[1], r[2], r[3], r[4], r[5], 0.0, 0.02, -0.5, 8.0, 1e-4, -1e-6, 1.0, 1.5)
    };
    let mut rust = |r: &Numbers| {
        let (r, s) = (ray(r), black_box(&s));
        let normal = s.intersect_ray(&r, 0.0).and_then(|(_, p)| s.normal(p.x, p.y));
        normal.and_then(|n| refracted(r.direction, n)).map_or(0.0, sum)
    };
    row("even asphere, refraction", &rays, &mut ours, &mut rust);

    let s = BiconicSurface { cx: 0.02, kx: -0.5, cy: 0.01, ky: 0.3, semi_diameter_mm: 8.0 };
    let mut ours = |r: &Numbers| measured_biconic(r[0], r[1], r[2], r[3], r[4], r[5], 0.0, 0.02, -0.5, 0.01, 0.3, 8.0);
    let mut rust = |r: &Numbers| landing(black_box(&s).intersect_ray(&ray(r), 0.0));
    row("biconic", &rays, &mut ours, &mut rust);

    let s = ToroidalSurface { rx_mm: 50.0, cy: 0.01, ky: 0.3, semi_diameter_mm: 8.0 };
    let mut ours = |r: &Numbers| measured_toroid(r[0], r[1], r[2], r[3], r[4], r[5], 0.0, 50.0, 0.01, 0.3, 8.0);
    let mut rust = |r: &Numbers| landing(black_box(&s).intersect_ray(&ray(r), 0.0));
    row("toroid", &rays, &mut ours, &mut rust);
}
