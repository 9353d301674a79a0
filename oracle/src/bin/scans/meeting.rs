//! Where a ray meets a surface, and in how many passes.
//!
//! Each time Newton's passes are made from the first one on, their end has to be what the Rust text's own intersection
//! answers.

use oracle::check;
use oracle::conic::{ConicSurface, conic_normal, intersect_conic};
use oracle::error::OpticsError;
use oracle::newton::{End, Meeting, Newton};
use oracle::types::{Ray, Vec3};

use crate::recipe::{Kind, Surface};

impl Surface {
    /// The most passes.
    pub fn limit(&self) -> usize {
        self.newton().map_or(1, |newton| newton.limit)
    }

    /// How the ray meets the surface once some passes are made, the last of which came to t.
    pub fn meeting(&self, ray: &Ray, made: usize, t: f64) -> Meeting {
        let Some(newton) = self.newton() else { return Meeting { begun: vec![t], end: self.end(ray) } };
        let meeting = newton.meeting(ray, self.vertex_z, made, t);
        if made == 0 {
            check(meeting.end.clone().map(hit_numbers), self.end(ray).map(hit_numbers), "how a surface is met");
        }
        meeting
    }

    /// None for a conic.
    fn newton(&self) -> Option<Newton<'_>> {
        match &self.kind {
            Kind::Conic(_) => None,
            Kind::Even(s) => Some(Newton::of_even(s)),
            Kind::Biconic(s) => Some(Newton::of_biconic(s)),
            Kind::Toroid(s) => Some(Newton::of_toroid(s)),
            Kind::Odd(s) => Some(Newton::of_odd(s)),
        }
    }

    /// By the Rust text's intersection, but for an odd asphere, of which it has none.
    fn end(&self, ray: &Ray) -> End {
        match &self.kind {
            Kind::Conic(s) => self.conic_end(ray, s),
            Kind::Even(s) => s.intersect_ray(ray, self.vertex_z),
            Kind::Biconic(s) => s.intersect_ray(ray, self.vertex_z),
            Kind::Toroid(s) => s.intersect_ray(ray, self.vertex_z),
            Kind::Odd(s) => Newton::of_odd(s).intersection(ray, self.vertex_z),
        }
    }

    /// The Rust text's, but a t of -0.0 is +0.0: SCOPE's maximum of mixed zeros, whose sign `f64::max` leaves
    /// open.
    fn conic_end(&self, ray: &Ray, s: &ConicSurface) -> End {
        let hit = intersect_conic(ray, s, 0)?;
        let end = (hit.t + 0.0, ray.at(hit.t + 0.0));
        let numbers = |end, n: Vec3| [hit_numbers(end), vec![n.x, n.y, n.z]].concat();
        let rust = numbers((hit.t, hit.point), hit.normal);
        check(self.normal(end.1).map(|n| numbers(end, n)), Ok(rust), "how a conic is met");
        Ok(end)
    }

    pub fn normal(&self, point: Vec3) -> Result<Vec3, OpticsError> {
        match &self.kind {
            Kind::Conic(s) if s.curvature.abs() < 1e-15 => Ok(Vec3::new(0.0, 0.0, -1.0)),
            Kind::Conic(s) => conic_normal(point, s),
            Kind::Even(s) => s.normal(point.x, point.y),
            Kind::Biconic(s) => s.normal(point.x, point.y),
            Kind::Toroid(s) => s.normal(point.x, point.y),
            Kind::Odd(s) => s.normal(point.x, point.y),
        }
    }
}

fn hit_numbers((t, p): (f64, Vec3)) -> Vec<f64> {
    vec![t, p.x, p.y, p.z]
}
