//! A sample of what the format is for: a spectrum waterfall, time downward
//! and frequency across, through the reversible 5/3 transform to a pyramid.

use super::Chance;
use crate::lifting::transform;
use crate::size::Shape;

/// The brightest grey.
const BRIGHTEST: i64 = 255;
/// Levels are reckoned in sixteenths of a grey until the picture is whole.
const FRACTION: i64 = 16;

/// The pyramid of a waterfall.
pub fn pyramid(chance: &mut Chance, shape: Shape) -> Vec<i32> {
    let mut picture = picture(chance, shape.width() as usize, shape.height() as usize);
    transform(&mut picture, shape);
    picture
}

/// A waterfall in greys from 0 to 255: a noise floor that slopes over the
/// band, steady carriers, keyed ones, drifting lines, and pulses that fill
/// the band for a moment.
pub fn picture(chance: &mut Chance, width: usize, height: usize) -> Vec<i32> {
    let mut scene = Scene::with_noise_floor(chance, width, height);
    for _ in 0..2 + width / 48 {
        scene.add_carrier(chance);
    }
    for _ in 0..1 + width / 128 {
        scene.add_drifting_line(chance);
    }
    for _ in 0..1 + height / 96 {
        scene.add_pulse(chance);
    }
    scene.greys()
}

struct Scene {
    width: usize,
    height: usize,
    levels: Vec<i64>,
}

impl Scene {
    fn with_noise_floor(chance: &mut Chance, width: usize, height: usize) -> Scene {
        let floor = chance.between(40, 70) * FRACTION;
        let slope = chance.between(-20, 20) * FRACTION;
        let noise = chance.between(3 * FRACTION / 2, 4 * FRACTION);
        let levels = (0..width * height)
            .map(|at| floor + slope * (at % width) as i64 / width as i64 + chance.bell(noise))
            .collect();
        Scene {
            width,
            height,
            levels,
        }
    }

    /// Raises one cell, if it lies in the picture.
    fn raise(&mut self, row: usize, column: i64, by: i64) {
        if row < self.height && column >= 0 && (column as usize) < self.width {
            self.levels[row * self.width + column as usize] += by;
        }
    }

    /// A line through one row, with the skirts that a spectrum's window has.
    fn raise_line(&mut self, row: usize, column: i64, strength: i64) {
        self.raise(row, column, strength);
        for (distance, share) in [(1, 3), (2, 8), (3, 24)] {
            self.raise(row, column - distance, strength / share);
            self.raise(row, column + distance, strength / share);
        }
    }

    /// Steady, or keyed on and off, fading a little from row to row.
    fn add_carrier(&mut self, chance: &mut Chance) {
        let column = chance.below(self.width) as i64;
        let strength = chance.between(20, 140) * FRACTION;
        let keyed = chance.once_in(3);
        let period = chance.between(4, 40) as usize;
        let mut fading = 0;
        for row in 0..self.height {
            fading = (fading + chance.bell(6)) * 15 / 16;
            if !keyed || row / period % 2 == 0 {
                self.raise_line(row, column, strength + fading);
            }
        }
    }

    fn add_drifting_line(&mut self, chance: &mut Chance) {
        let strength = chance.between(25, 110) * FRACTION;
        // Position and drift in 1/256 of a column.
        let mut position = chance.below(self.width) as i64 * 256;
        let mut drift = chance.between(-180, 180);
        for row in 0..self.height {
            drift += chance.between(-6, 6);
            position += drift;
            self.raise_line(row, position >> 8, strength);
        }
    }

    /// All of the band, or a stretch of it, for a few rows.
    fn add_pulse(&mut self, chance: &mut Chance) {
        let first = chance.below(self.height);
        let rows = 1 + chance.below(3);
        let from = chance.below(self.width) / 2;
        let to = self.width - chance.below(self.width / 2 + 1) / 2;
        let strength = chance.between(15, 90) * FRACTION;
        for row in first..first + rows {
            for column in from..to {
                let ripple = chance.bell(2 * FRACTION);
                self.raise(row, column as i64, strength + ripple);
            }
        }
    }

    fn greys(&self) -> Vec<i32> {
        self.levels
            .iter()
            .map(|level| (level / FRACTION).clamp(0, BRIGHTEST) as i32)
            .collect()
    }
}
