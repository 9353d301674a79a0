//! The recipe as SCOPE has it (R1 to R5): records of bytes, one for each surface.

use oracle::conic::ConicSurface;
use oracle::surface::asphere::{EvenAsphere, OddAsphere};
use oracle::surface::biconic::{BiconicSurface, ToroidalSurface};

pub const MOST_RECORDS: usize = 512;
const LAST_END: usize = 65_536;
const MOST_COEFFICIENTS: usize = 8;

pub enum Kind {
    Conic(ConicSurface),
    Even(EvenAsphere),
    Biconic(BiconicSurface),
    Toroid(ToroidalSurface),
    Odd(OddAsphere),
}

pub struct Surface {
    /// Of its record in the recipe.
    pub place: usize,
    pub vertex_z: f64,
    pub index_after: f64,
    pub mirror: bool,
    pub kind: Kind,
}

/// All surfaces, or the number of the first refusal and its record's place.
pub fn surfaces(recipe: &[u8]) -> Result<Vec<Surface>, (u8, usize)> {
    first(recipe, usize::MAX)
}

/// So many of them, or all if there are fewer. Bytes behind these are not read.
pub fn first(recipe: &[u8], count: usize) -> Result<Vec<Surface>, (u8, usize)> {
    let mut surfaces = Vec::new();
    let mut place = 0;
    while place < recipe.len() && surfaces.len() < count {
        let room = surfaces.len() < MOST_RECORDS;
        let (kind, numbers) = shape(&recipe[place..]).filter(|_| room).ok_or((10, place))?;
        let end = place + 4 + 8 * numbers.len();
        let surface = surface(place, kind, &numbers).filter(|_| end <= LAST_END).ok_or((10, place))?;
        if let Some(refusal) = refusal(&surface, &numbers) {
            return Err((refusal, place));
        }
        surfaces.push(surface);
        place = end;
    }
    Ok(surfaces)
}

/// The first record's kind and numbers, if it is whole.
fn shape(bytes: &[u8]) -> Option<(u16, Vec<f64>)> {
    let (length, rest) = bytes.split_first_chunk()?;
    let (kind, body) = rest.get(..u16::from_le_bytes(*length).into())?.split_first_chunk()?;
    let (numbers, []) = body.as_chunks() else { return None };
    Some((u16::from_le_bytes(*kind), numbers.iter().map(|&bytes| f64::from_le_bytes(bytes)).collect()))
}

/// None for a kind that there is not, or too few or too many numbers for it.
fn surface(place: usize, kind: u16, numbers: &[f64]) -> Option<Surface> {
    let mirror = kind >= 256;
    let &[vertex_z, index_after, ref own @ ..] = numbers else { return None };
    let kind = match (if mirror { kind - 256 } else { kind }, own) {
        (1, &[curvature, conic_constant, semi_diam_mm]) => {
            Kind::Conic(ConicSurface { vertex_z, curvature, conic_constant, semi_diam_mm })
        }
        (2, &[curvature, conic_constant, semi_diameter_mm, ref coefficients @ ..])
            if coefficients.len() <= MOST_COEFFICIENTS =>
        {
            let coefficients = coefficients.to_vec();
            Kind::Even(EvenAsphere { curvature, conic_constant, coefficients, semi_diameter_mm })
        }
        (3, &[cx, kx, cy, ky, semi_diameter_mm]) => Kind::Biconic(BiconicSurface { cx, kx, cy, ky, semi_diameter_mm }),
        (4, &[rx_mm, cy, ky, semi_diameter_mm]) => Kind::Toroid(ToroidalSurface { rx_mm, cy, ky, semi_diameter_mm }),
        (5, &[curvature, conic_constant, semi_diameter_mm, ref coefficients @ ..])
            if coefficients.len() == 2 * MOST_COEFFICIENTS =>
        {
            let (even, odd) = coefficients.split_at(MOST_COEFFICIENTS);
            let (even_coefficients, odd_coefficients) = (even.to_vec(), odd.to_vec());
            Kind::Odd(OddAsphere { curvature, conic_constant, even_coefficients, odd_coefficients, semi_diameter_mm })
        }
        _ => return None,
    };
    Some(Surface { place, vertex_z, index_after, mirror, kind })
}

fn refusal(surface: &Surface, numbers: &[f64]) -> Option<u8> {
    let (semi, negative) = match &surface.kind {
        Kind::Conic(s) => (s.semi_diam_mm, 3),
        Kind::Even(s) => (s.semi_diameter_mm, 2),
        Kind::Biconic(s) => (s.semi_diameter_mm, 2),
        Kind::Toroid(s) => (s.semi_diameter_mm, 2),
        Kind::Odd(s) => (s.semi_diameter_mm, 2),
    };
    match () {
        _ if !numbers.iter().all(|x| x.is_finite()) => Some(2),
        _ if semi < 0.0 => Some(negative),
        _ if surface.index_after <= 0.0 => Some(4),
        _ => None,
    }
}
