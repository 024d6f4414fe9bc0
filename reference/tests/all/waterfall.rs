//! The sample waterfall.

use crate::helpers::{coded, decoded, shape};
use reference::generate::waterfall::{picture, pyramid};
use reference::generate::Chance;
use std::process::Command;

#[test]
fn the_sample_is_a_waterfall() {
    let size = 512;
    let greys = picture(&mut Chance::new(1), size, size);
    let mean = |cells: &mut dyn Iterator<Item = i32>| {
        let all: Vec<i32> = cells.collect();
        f64::from(all.iter().sum::<i32>()) / all.len() as f64
    };
    let floor = mean(&mut greys.iter().copied());
    let brightest_column = (0..size)
        .map(|column| mean(&mut (0..size).map(|row| greys[row * size + column])))
        .fold(0.0, f64::max);
    let brightest_row = (0..size)
        .map(|row| mean(&mut greys[row * size..(row + 1) * size].iter().copied()))
        .fold(0.0, f64::max);
    // A noise floor, carriers well above it, and pulses.
    assert!((30.0..120.0).contains(&floor), "{floor}");
    assert!(brightest_column > floor + 30.0, "{brightest_column}");
    assert!(brightest_row > floor + 8.0, "{brightest_row}");
}

#[test]
fn the_sample_codes_smaller_than_its_picture() {
    let shape = shape(512, 512, 5);
    let pyramid = pyramid(&mut Chance::new(1), shape);
    let record = coded(&pyramid, shape);
    assert!(record.len() < shape.area(), "{} bytes", record.len());
    assert_eq!(decoded(&record).1, pyramid);
}

/// The program's grey file is the picture of its pyramid.
#[test]
fn the_sample_as_a_grey_file() {
    let run = |arguments: &[&str]| {
        Command::new(env!("CARGO_BIN_EXE_waterfall"))
            .args(arguments)
            .output()
            .expect("the program runs")
    };
    let file = run(&["64", "32", "6"]).stdout;
    assert_eq!(file.len(), "P5\n64 32\n255\n".len() + 64 * 32);
    let (mut made, mut work) = ([0; 64 * 32], [0; 4 * 64 * 32]);
    assert_eq!(reference::grey_in(&file, 3, &mut made, &mut work).number, 0);
    let bytes: Vec<u8> = made.iter().flat_map(|value| value.to_le_bytes()).collect();
    assert!(run(&["64", "32", "3", "6"]).stdout == bytes);
    for wrong in [
        &["64", "32"][..],
        &["62", "32", "6"],
        &["64", "32", "5", "6"],
    ] {
        assert_eq!(run(wrong).status.code(), Some(2));
    }
}

#[test]
fn the_shipped_picture_is_made_here() {
    let shipped = include_bytes!("../../../host/sample/waterfall.pgm");
    let made = Command::new(env!("CARGO_BIN_EXE_waterfall"))
        .args(["64", "64", "6"])
        .output()
        .expect("the program runs");
    assert!(
        made.stdout == shipped,
        "waterfall 64 64 6 gives another picture"
    );
}

#[test]
fn the_shipped_sample_is_made_here() {
    let shipped = include_bytes!("../../../host/sample/waterfall.pyramid");
    let made = pyramid(&mut Chance::new(6), shape(64, 64, 3));
    let bytes: Vec<u8> = made.iter().flat_map(|value| value.to_le_bytes()).collect();
    assert!(
        bytes == shipped,
        "waterfall 64 64 3 6 gives another pyramid"
    );
}
