//! Reads a question's words. Every reader answers None where the line cannot be read.

use oracle::conic::ConicSurface;
use oracle::surface::asphere::{EvenAsphere, OddAsphere};
use oracle::surface::biconic::{BiconicSurface, ToroidalSurface};
use oracle::types::{Ray, Vec3};
use oracle::{digits, number, words};

const MOST_OPERANDS: usize = 64;

/// The operands that are left to read.
pub struct Operands<'a>(std::vec::IntoIter<&'a str>);

impl<'a> Operands<'a> {
    /// The operation's name, and its operands.
    pub fn of_line(line: &'a [u8]) -> Option<(&'a str, Self)> {
        let mut words = words(line)?.into_iter();
        let operation = words.next()?;
        (words.len() <= MOST_OPERANDS).then_some((operation, Self(words)))
    }

    pub fn end(&mut self) -> Option<()> {
        self.0.next().is_none().then_some(())
    }

    pub fn number(&mut self) -> Option<f64> {
        number(self.0.next()?)
    }

    fn numbers<const N: usize>(&mut self) -> Option<[f64; N]> {
        let mut numbers = [0.0; N];
        for slot in &mut numbers {
            *slot = self.number()?;
        }
        Some(numbers)
    }

    /// A point's x and y.
    pub fn place(&mut self) -> Option<(f64, f64)> {
        self.numbers().map(|[x, y]| (x, y))
    }

    pub fn vector(&mut self) -> Option<Vec3> {
        self.numbers().map(|[x, y, z]| Vec3::new(x, y, z))
    }

    /// With the direction as it is: `Ray::new` is not asked.
    pub fn ray(&mut self) -> Option<Ray> {
        Some(Ray { origin: self.vector()?, direction: self.vector()?, wavelength_nm: 0.0, energy: 0.0 })
    }

    pub fn ray_and_vertex(&mut self) -> Option<(Ray, f64)> {
        Some((self.ray()?, self.number()?))
    }

    pub fn conic(&mut self) -> Option<ConicSurface> {
        let [vertex_z, curvature, conic_constant, semi_diam_mm] = self.numbers()?;
        Some(ConicSurface { vertex_z, curvature, conic_constant, semi_diam_mm })
    }

    pub fn even(&mut self) -> Option<EvenAsphere> {
        let [curvature, conic_constant, semi_diameter_mm] = self.numbers()?;
        Some(EvenAsphere { curvature, conic_constant, semi_diameter_mm, coefficients: self.rest()? })
    }

    pub fn odd(&mut self) -> Option<OddAsphere> {
        let [curvature, conic_constant, semi_diameter_mm] = self.numbers()?;
        let (even_coefficients, odd_coefficients) = (self.counted()?, self.rest()?);
        Some(OddAsphere { curvature, conic_constant, semi_diameter_mm, even_coefficients, odd_coefficients })
    }

    pub fn biconic(&mut self) -> Option<BiconicSurface> {
        let [cx, kx, cy, ky, semi_diameter_mm] = self.numbers()?;
        Some(BiconicSurface { cx, kx, cy, ky, semi_diameter_mm })
    }

    pub fn toroid(&mut self) -> Option<ToroidalSurface> {
        let [rx_mm, cy, ky, semi_diameter_mm] = self.numbers()?;
        Some(ToroidalSurface { rx_mm, cy, ky, semi_diameter_mm })
    }

    /// `#n` and then n numbers.
    fn counted(&mut self) -> Option<Vec<f64>> {
        let count: usize = digits(self.0.next()?.strip_prefix('#')?, 10)?.try_into().ok()?;
        (count <= self.0.len()).then_some(())?;
        self.0.by_ref().take(count).map(number).collect()
    }

    fn rest(&mut self) -> Option<Vec<f64>> {
        self.0.by_ref().map(number).collect()
    }
}
