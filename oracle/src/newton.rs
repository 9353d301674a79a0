//! Where a ray meets a surface by Newton's method, and in how many passes.
//!
//! The Rust text's intersections do not tell their passes, so they are made here once more, over the Rust text's own
//! sags and slopes. Of an odd asphere it has no intersection, and hands out no slopes: those are written here from
//! SCOPE, and have to be those of the Rust text's own normal.

use std::iter::successors;
use std::ops::ControlFlow::{self, Break, Continue};

use crate::check;
use crate::error::OpticsError;
use crate::surface::asphere::{EvenAsphere, OddAsphere};
use crate::surface::biconic::{BiconicSurface, ToroidalSurface};
use crate::types::{Ray, Vec3};

/// t and the point.
pub type End = Result<(f64, Vec3), OpticsError>;

pub struct Meeting {
    /// With which t each pass begins; a conic has one pass.
    pub begun: Vec<f64>,
    pub end: End,
}

type AtPoint<'a, T> = Box<dyn Fn(Vec3, f64) -> Result<T, OpticsError> + 'a>;

pub struct Newton<'a> {
    semi: f64,
    /// The most passes.
    pub limit: usize,
    /// Whether a move too small to go on from has to end within the semi-diameter.
    stops_a_last_move: bool,
    /// Of a point and its r.
    sag: AtPoint<'a, f64>,
    slopes: AtPoint<'a, (f64, f64)>,
}

impl<'a> Newton<'a> {
    pub fn of_even(s: &'a EvenAsphere) -> Self {
        Self::of_radius(s.semi_diameter_mm, false, |r| s.sag(r), |p, r| even_slopes(s, p, r))
    }

    pub fn of_odd(s: &'a OddAsphere) -> Self {
        Self::of_radius(s.semi_diameter_mm, true, |r| s.sag(r), |p, r| odd_slopes(s, p, r))
    }

    fn of_radius(
        semi: f64, stops_a_last_move: bool, sag: impl Fn(f64) -> Result<f64, OpticsError> + 'a,
        slopes: impl Fn(Vec3, f64) -> Result<(f64, f64), OpticsError> + 'a,
    ) -> Self {
        Newton { semi, limit: 25, stops_a_last_move, sag: Box::new(move |_, r| sag(r)), slopes: Box::new(slopes) }
    }

    pub fn of_biconic(s: &'a BiconicSurface) -> Self {
        Self::of_meridians(s.semi_diameter_mm, |p| s.sag(p.x, p.y), |p| s.derivatives(p.x, p.y))
    }

    pub fn of_toroid(s: &'a ToroidalSurface) -> Self {
        Self::of_meridians(s.semi_diameter_mm, |p| s.sag(p.x, p.y), |p| s.derivatives(p.x, p.y))
    }

    fn of_meridians(
        semi: f64, sag: impl Fn(Vec3) -> Result<f64, OpticsError> + 'a,
        slopes: impl Fn(Vec3) -> Result<(f64, f64), OpticsError> + 'a,
    ) -> Self {
        Newton {
            semi,
            limit: 35,
            stops_a_last_move: true,
            sag: Box::new(move |p, _| sag(p)),
            slopes: Box::new(move |p, _| slopes(p)),
        }
    }

    pub fn intersection(&self, ray: &Ray, vertex_z: f64) -> End {
        self.meeting(ray, vertex_z, 0, 0.0).end
    }

    /// Once some passes are made, the last of which came to t.
    pub fn meeting(&self, ray: &Ray, vertex_z: f64, made: usize, mut t: f64) -> Meeting {
        if made == 0 {
            if ray.direction.z.abs() < 1e-15 {
                return Meeting { begun: vec![t], end: missed() };
            }
            t = (vertex_z - ray.origin.z) / ray.direction.z;
            if t < 0.0 {
                t = 0.0;
            }
        }
        let mut begun = Vec::new();
        for _ in made..self.limit {
            begun.push(t);
            match self.pass(ray, vertex_z, t) {
                Continue(next) => t = next,
                Break(end) => return Meeting { begun, end },
            }
        }
        Meeting { begun, end: missed() }
    }

    /// The t of the next pass, or the end.
    fn pass(&self, ray: &Ray, vertex_z: f64, t: f64) -> ControlFlow<End, f64> {
        let p = ray.at(t);
        let r = radius(p);
        if r > self.semi * 1.5 {
            return Break(missed());
        }
        let Ok(sag) = (self.sag)(p, r) else { return Break(missed()) };
        let f = (p.z - vertex_z) - sag;
        if f.abs() < 1e-11 {
            return Break(self.stopped(t, p));
        }
        let Ok((dz_dx, dz_dy)) = (self.slopes)(p, r) else { return Break(missed()) };
        let f_prime = ray.direction.z - (dz_dx * ray.direction.x + dz_dy * ray.direction.y);
        if f_prime.abs() < 1e-15 {
            return Break(Err(OpticsError::NumericalSingularity(String::new())));
        }
        let moved = f / f_prime;
        let t = t - moved;
        if moved.abs() < 1e-12 {
            let p = ray.at(t);
            return Break(if self.stops_a_last_move { self.stopped(t, p) } else { Ok((t, p)) });
        }
        Continue(t)
    }

    fn stopped(&self, t: f64, p: Vec3) -> End {
        let (r, max_r) = (radius(p), self.semi);
        if r > max_r { Err(OpticsError::RayVignetted { surface_index: 0, r, max_r }) } else { Ok((t, p)) }
    }
}

fn even_slopes(s: &EvenAsphere, p: Vec3, r: f64) -> Result<(f64, f64), OpticsError> {
    let dz_dr = s.radial_derivative(r)?;
    Ok(if r > 1e-14 { along(dz_dr, p, r) } else { (0.0, 0.0) })
}

fn odd_slopes(s: &OddAsphere, p: Vec3, r: f64) -> Result<(f64, f64), OpticsError> {
    let first = s.odd_coefficients.first().map_or(0.0, |a| a.abs());
    let slopes = match odd_derivative(s, r)? {
        _ if r < 1e-15 && first < 1e-14 => (0.0, 0.0),
        dz_dr if r > 1e-14 => along(dz_dr, p, r),
        dz_dr => (dz_dr, 0.0),
    };
    check(Ok(facing(slopes)), s.normal(p.x, p.y).map(|n| vec![n.x, n.y, n.z]), "an odd asphere's normal");
    Ok(slopes)
}

fn along(dz_dr: f64, p: Vec3, r: f64) -> (f64, f64) {
    (dz_dr * (p.x / r), dz_dr * (p.y / r))
}

fn odd_derivative(s: &OddAsphere, r: f64) -> Result<f64, OpticsError> {
    let (c, r2) = (s.curvature, r * r);
    let radicand = 1.0 - (1.0 + s.conic_constant) * c * c * r2;
    let conic = match () {
        _ if c.abs() < 1e-15 => 0.0,
        _ if radicand < -1e-12 => return Err(OpticsError::GeometryOutsideAperture),
        _ => (c * r) / radicand.max(0.0).sqrt().max(1e-15),
    };
    Ok(conic + derived(&s.even_coefficients, 2.0, r, r2) + derived(&s.odd_coefficients, 1.0, 1.0, r2))
}

/// The sum of exponent · coefficient · power of r, from the left; given are the first exponent and its power.
fn derived(coefficients: &[f64], exponent: f64, power: f64, r2: f64) -> f64 {
    let factors = successors(Some((exponent, power)), |&(exponent, power)| Some((exponent + 2.0, power * r2)));
    coefficients.iter().zip(factors).fold(0.0, |sum, (a, (exponent, power))| sum + exponent * a * power)
}

/// The unit normal of a surface with these slopes.
fn facing((dz_dx, dz_dy): (f64, f64)) -> Vec<f64> {
    let length = (dz_dx * dz_dx + dz_dy * dz_dy + 1.0).sqrt();
    [dz_dx, dz_dy, -1.0].map(|x| x / length).to_vec()
}

fn radius(p: Vec3) -> f64 {
    (p.x * p.x + p.y * p.y).sqrt()
}

fn missed() -> End {
    Err(OpticsError::RayMissedSurface(String::new()))
}
