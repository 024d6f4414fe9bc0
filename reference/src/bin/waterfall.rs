//! A sample waterfall on standard output. `waterfall W H SEED`: as a grey file.
//! `waterfall W H N SEED`: its pyramid, as 32-bit numbers, lowest byte first.

use reference::generate::{waterfall, Chance};
use reference::netpbm;
use reference::size::Shape;
use std::io::{self, Write};

fn main() -> io::Result<()> {
    let arguments: Vec<String> = std::env::args().skip(1).collect();
    let bytes = sample(&arguments).unwrap_or_else(|| {
        eprintln!("usage: waterfall W H [N] SEED");
        std::process::exit(2);
    });
    io::stdout().lock().write_all(&bytes)
}

/// Nothing where the arguments make no sense.
fn sample(arguments: &[String]) -> Option<Vec<u8>> {
    match arguments {
        [w, h, seed] => {
            // Every legal side is one for a single decomposition.
            let shape = Shape::judge(w.parse().ok()?, h.parse().ok()?, 1).ok()?;
            Some(grey_file(shape, seed.parse().ok()?))
        }
        [w, h, n, seed] => {
            let shape = Shape::judge(w.parse().ok()?, h.parse().ok()?, n.parse().ok()?).ok()?;
            let pyramid = waterfall::pyramid(&mut Chance::new(seed.parse().ok()?), shape);
            let bytes = pyramid.iter().flat_map(|value| value.to_le_bytes());
            Some(bytes.collect())
        }
        _ => None,
    }
}

fn grey_file(shape: Shape, seed: u64) -> Vec<u8> {
    let (w, h) = (shape.width(), shape.height());
    let greys = waterfall::picture(&mut Chance::new(seed), w as usize, h as usize);
    let pixels: Vec<u8> = greys.into_iter().map(|grey| grey as u8).collect();
    netpbm::file(w, h, &pixels)
}
