//! The reversible 5/3 integer lifting of JPEG 2000 part 1: from a picture's
//! numbers to a pyramid in the rules' layout, and back, exactly.
//!
//! Both sides of a legal size can be halved N times and are even each time, so
//! no line of odd length ever occurs. Halves and quarters are rounded toward
//! minus infinity, which is what `>>` does with a signed number.

use crate::size::Shape;

/// N times, columns then rows. What a turn leaves at the top left is taken up
/// by the next.
pub fn transform(picture: &mut [i32], shape: Shape) {
    let width = shape.width() as usize;
    for turn in 0..shape.decompositions() {
        let rows = (shape.height() >> turn) as usize;
        let columns = (shape.width() >> turn) as usize;
        for column in 0..columns {
            through_line(picture, column, width, rows, analyse);
        }
        for row in 0..rows {
            through_line(picture, row * width, 1, columns, analyse);
        }
    }
}

/// The way back: turns in reverse, rows then columns.
pub fn transform_back(pyramid: &mut [i32], shape: Shape) {
    let width = shape.width() as usize;
    for turn in (0..shape.decompositions()).rev() {
        let rows = (shape.height() >> turn) as usize;
        let columns = (shape.width() >> turn) as usize;
        for row in 0..rows {
            through_line(pyramid, row * width, 1, columns, synthesise);
        }
        for column in 0..columns {
            through_line(pyramid, column, width, rows, synthesise);
        }
    }
}

/// The pyramid of the picture halved so many times, fewer than N: the top left
/// block, with the decompositions that are left, which give the LL band that so
/// many turns made.
pub fn halved(pyramid: &[i32], shape: Shape, times: u32) -> (Vec<i32>, Shape) {
    let (w, h) = (shape.width() >> times, shape.height() >> times);
    let left = shape.decompositions() - times;
    let smaller = Shape::judge(w.into(), h.into(), left.into()).expect("times is under N");
    let block = pyramid
        .chunks(shape.width() as usize)
        .take(h as usize)
        .flat_map(|row| &row[..w as usize])
        .copied()
        .collect();
    (block, smaller)
}

/// Takes a row or column out, changes it, puts it back.
fn through_line(
    cells: &mut [i32],
    first: usize,
    step: usize,
    count: usize,
    change: fn(&[i32]) -> Vec<i32>,
) {
    let line: Vec<i32> = (0..count).map(|at| cells[first + at * step]).collect();
    for (at, value) in change(&line).into_iter().enumerate() {
        cells[first + at * step] = value;
    }
}

/// A line of even length to its low half followed by its high half.
fn analyse(line: &[i32]) -> Vec<i32> {
    let mut low: Vec<i32> = line.iter().step_by(2).copied().collect();
    let mut high: Vec<i32> = line.iter().skip(1).step_by(2).copied().collect();
    for (at, odd) in high.iter_mut().enumerate() {
        *odd -= prediction(&low, at);
    }
    for (at, even) in low.iter_mut().enumerate() {
        *even += update(&high, at);
    }
    low.extend(high);
    low
}

fn synthesise(line: &[i32]) -> Vec<i32> {
    let (low, high) = line.split_at(line.len() / 2);
    let (mut low, mut high) = (low.to_vec(), high.to_vec());
    for (at, even) in low.iter_mut().enumerate() {
        *even -= update(&high, at);
    }
    for (at, odd) in high.iter_mut().enumerate() {
        *odd += prediction(&low, at);
    }
    low.into_iter()
        .zip(high)
        .flat_map(|(even, odd)| [even, odd])
        .collect()
}

/// Half the even neighbours' sum; the last has its left one twice.
fn prediction(low: &[i32], at: usize) -> i32 {
    let right = low.get(at + 1).unwrap_or(&low[at]);
    (low[at] + right) >> 1
}

/// A quarter of the odd neighbours' sum, rounded; the first has its right one
/// twice.
fn update(high: &[i32], at: usize) -> i32 {
    let left = high[at.saturating_sub(1)];
    (left + high[at] + 2) >> 2
}
