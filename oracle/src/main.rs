//! Answers questions from standard input, one a line, with the functions of the Rust text.
//!
//! Questions and answers are those of the program `answers`, and one more is known: `ray_new` takes an origin and a
//! direction, and answers with the origin and the direction that `Ray::new` makes. An odd asphere's intersection, which
//! the Rust text has not, is that of `newton.rs`.

mod operands;

use operands::Operands;
use oracle::conic::{ConicSurface, conic_normal, conic_sag, intersect_conic};
use oracle::error::OpticsError;
use oracle::newton::Newton;
use oracle::snell::{reflect, snell_refract};
use oracle::surface::asphere::{EvenAsphere, OddAsphere};
use oracle::surface::biconic::{BiconicSurface, ToroidalSurface};
use oracle::types::{Ray, Vec3};

type Answer = Result<Vec<f64>, OpticsError>;

fn one(x: f64) -> Answer {
    Ok(vec![x])
}

fn truth(b: bool) -> f64 {
    if b { 1.0 } else { 0.0 }
}

fn vector(v: Vec3) -> Vec<f64> {
    vec![v.x, v.y, v.z]
}

fn pair((x, y): (f64, f64)) -> Vec<f64> {
    vec![x, y]
}

fn hit((t, point): (f64, Vec3)) -> Vec<f64> {
    [vec![t], vector(point)].concat()
}

fn conic_numbers(s: ConicSurface) -> Vec<f64> {
    vec![s.vertex_z, s.curvature, s.conic_constant, s.semi_diam_mm]
}

fn even_numbers(s: EvenAsphere) -> Vec<f64> {
    [vec![s.curvature, s.conic_constant, s.semi_diameter_mm], s.coefficients].concat()
}

fn odd_numbers(s: OddAsphere) -> Vec<f64> {
    [vec![s.curvature, s.conic_constant, s.semi_diameter_mm], s.even_coefficients, s.odd_coefficients].concat()
}

fn biconic_numbers(s: BiconicSurface) -> Vec<f64> {
    vec![s.cx, s.kx, s.cy, s.ky, s.semi_diameter_mm]
}

fn toroid_numbers(s: ToroidalSurface) -> Vec<f64> {
    vec![s.rx_mm, s.cy, s.ky, s.semi_diameter_mm]
}

/// What a function answers of a surface, which is a question's last operand.
fn asked<'a, T, S>(
    q: &mut Operands<'a>, before: fn(&mut Operands<'a>) -> Option<T>, surface: fn(&mut Operands<'a>) -> Option<S>,
    function: fn(T, S) -> Answer,
) -> Option<Answer> {
    Some(function(before(q)?, surface(q)?))
}

/// None for a line that cannot be read.
fn answer(line: &[u8]) -> Option<Answer> {
    let (operation, mut q) = Operands::of_line(line)?;
    let (number, place, ray_and_vertex) = (Operands::number, Operands::place, Operands::ray_and_vertex);
    let (even, odd, biconic, toroid) = (Operands::even, Operands::odd, Operands::biconic, Operands::toroid);
    let answer = match operation {
        "sqrt" => one(q.number()?.sqrt()),
        "abs" => one(q.number()?.abs()),
        "max" => one(q.number()?.max(q.number()?)),
        "clamp" => one(q.number()?.clamp(0.0, 1.0)),
        "finite" => one(truth(q.number()?.is_finite())),

        "ray_new" => {
            let ray = q.ray()?;
            Ray::new(ray.origin, ray.direction, ray.wavelength_nm, ray.energy)
                .map(|ray| [vector(ray.origin), vector(ray.direction)].concat())
        }
        "reflect" => reflect(q.vector()?, q.vector()?).map(vector),
        "refract" => snell_refract(q.vector()?, q.vector()?, q.number()?, q.number()?).map(vector),

        "conic_from_radius" => ConicSurface::from_radius(q.number()?, q.number()?, q.number()?).map(conic_numbers),
        "conic_from_curvature" => {
            ConicSurface::from_curvature(q.number()?, q.number()?, q.number()?).map(conic_numbers)
        }
        "conic_sphere" => ConicSurface::sphere(q.number()?, q.number()?).map(conic_numbers),
        "conic_plane" => ConicSurface::plane(q.number()?).map(conic_numbers),
        "conic_with_vertex_z" => Ok(conic_numbers(q.conic()?.with_vertex_z(q.number()?))),
        "conic_radius" => one(q.conic()?.radius_mm()),
        "conic_sag" => conic_sag(q.number()?, q.number()?, q.number()?).and_then(one),
        "conic_normal" => conic_normal(q.vector()?, &q.conic()?).map(vector),
        "conic_intersect" => intersect_conic(&q.ray()?, &q.conic()?, 0)
            .map(|h| [hit((h.t, h.point)), vector(h.normal), vec![truth(h.is_front_face)]].concat()),

        "even_new" => {
            let s = q.even()?;
            EvenAsphere::new(s.curvature, s.conic_constant, s.coefficients, s.semi_diameter_mm).map(even_numbers)
        }
        "even_paraxial" => one(q.even()?.paraxial_curvature()),
        "even_sag" => asked(&mut q, number, even, |r, s| s.sag(r).and_then(one))?,
        "even_derivative" => asked(&mut q, number, even, |r, s| s.radial_derivative(r).and_then(one))?,
        "even_normal" => asked(&mut q, place, even, |(x, y), s| s.normal(x, y).map(vector))?,
        "even_intersect" => asked(&mut q, ray_and_vertex, even, |(ray, z), s| s.intersect_ray(&ray, z).map(hit))?,

        "odd_new" => {
            let s = q.odd()?;
            let (even, odd) = (s.even_coefficients, s.odd_coefficients);
            OddAsphere::new(s.curvature, s.conic_constant, even, odd, s.semi_diameter_mm).map(odd_numbers)
        }
        "odd_sag" => asked(&mut q, number, odd, |r, s| s.sag(r).and_then(one))?,
        "odd_normal" => asked(&mut q, place, odd, |(x, y), s| s.normal(x, y).map(vector))?,
        "odd_intersect" => {
            asked(&mut q, ray_and_vertex, odd, |(ray, z), s| Newton::of_odd(&s).intersection(&ray, z).map(hit))?
        }

        "biconic_new" => {
            let s = q.biconic()?;
            BiconicSurface::new(s.cx, s.kx, s.cy, s.ky, s.semi_diameter_mm).map(biconic_numbers)
        }
        "biconic_paraxial" => Ok(pair(q.biconic()?.paraxial_curvatures())),
        "biconic_rx" => one(q.biconic()?.rx_mm()),
        "biconic_ry" => one(q.biconic()?.ry_mm()),
        "biconic_sag" => asked(&mut q, place, biconic, |(x, y), s| s.sag(x, y).and_then(one))?,
        "biconic_derivatives" => asked(&mut q, place, biconic, |(x, y), s| s.derivatives(x, y).map(pair))?,
        "biconic_normal" => asked(&mut q, place, biconic, |(x, y), s| s.normal(x, y).map(vector))?,
        "biconic_intersect" => asked(&mut q, ray_and_vertex, biconic, |(ray, z), s| s.intersect_ray(&ray, z).map(hit))?,

        "toroid_new" => {
            let s = q.toroid()?;
            ToroidalSurface::new(s.rx_mm, s.cy, s.ky, s.semi_diameter_mm).map(toroid_numbers)
        }
        "toroid_ry" => one(q.toroid()?.ry_mm()),
        "toroid_sag" => asked(&mut q, place, toroid, |(x, y), s| s.sag(x, y).and_then(one))?,
        "toroid_derivatives" => asked(&mut q, place, toroid, |(x, y), s| s.derivatives(x, y).map(pair))?,
        "toroid_normal" => asked(&mut q, place, toroid, |(x, y), s| s.normal(x, y).map(vector))?,
        "toroid_intersect" => asked(&mut q, ray_and_vertex, toroid, |(ray, z), s| s.intersect_ray(&ray, z).map(hit))?,
        _ => return None,
    };
    q.end()?;
    Some(answer)
}

fn written(answer: Option<Answer>) -> String {
    let Some(answer) = answer else { return "?\n".to_string() };
    let (number, values) = answer.map_or_else(oracle::told, |values| (1, values));
    format!("{number}{}\n", oracle::written(&values))
}

fn main() -> std::io::Result<()> {
    oracle::answer_lines(|line| written(answer(line)))
}
