//! Legal shapes, by decomposition count and size class.

use super::Chance;
use crate::size::{Shape, MOST_DECOMPOSITIONS};

/// By the longer side.
#[derive(Clone, Copy, Debug, PartialEq, Eq, PartialOrd, Ord)]
pub enum SizeClass {
    To16,
    To64,
    To256,
    To512,
}

impl SizeClass {
    pub const ALL: [SizeClass; 4] = [
        SizeClass::To16,
        SizeClass::To64,
        SizeClass::To256,
        SizeClass::To512,
    ];

    pub fn of(shape: Shape) -> SizeClass {
        let longer = shape.width().max(shape.height());
        *SizeClass::ALL
            .iter()
            .find(|class| longer <= class.longest())
            .expect("the last class holds the longest side")
    }

    pub fn longest(self) -> u32 {
        match self {
            SizeClass::To16 => 16,
            SizeClass::To64 => 64,
            SizeClass::To256 => 256,
            SizeClass::To512 => 512,
        }
    }

    /// The longest side of the class before, to be exceeded.
    fn shortest(self) -> u32 {
        match self {
            SizeClass::To16 => 0,
            SizeClass::To64 => 16,
            SizeClass::To256 => 64,
            SizeClass::To512 => 256,
        }
    }

    pub fn name(self) -> &'static str {
        match self {
            SizeClass::To16 => "to 16",
            SizeClass::To64 => "to 64",
            SizeClass::To256 => "to 256",
            SizeClass::To512 => "to 512",
        }
    }
}

/// Any legal shape, small ones much more often than large ones: all of the
/// format's turns are taken in small pyramids too, and large ones cost time.
pub fn any_shape(chance: &mut Chance) -> Shape {
    let n = 1 + chance.below(MOST_DECOMPOSITIONS as usize) as u32;
    let class = SizeClass::ALL[chance.weighted(&[1100, 800, 90, 10])];
    shape_of(chance, n, class)
}

/// The shape for one of many cases: any, but every 25th takes its turn through
/// all pairs of N and class, so that a run has each of them whatever its seed.
pub fn shape_of_case(chance: &mut Chance, case: u64) -> Shape {
    if case % 25 != 0 {
        return any_shape(chance);
    }
    // Five counts and four classes: going through both at once meets all pairs.
    let turn = (case / 25) as usize;
    let n = 1 + turn % MOST_DECOMPOSITIONS as usize;
    let class = SizeClass::ALL[turn % SizeClass::ALL.len()];
    shape_of(chance, n as u32, class)
}

/// A legal shape with this N, in this class or, where N is too large for it,
/// in the next that has one. The longer side tells the class, the other is any.
pub fn shape_of(chance: &mut Chance, n: u32, class: SizeClass) -> Shape {
    let unit = 2 << n;
    let (shortest, longest) = SizeClass::ALL
        .iter()
        .filter(|&&other| other >= class)
        .map(|&class| (class.shortest() / unit + 1, class.longest() / unit))
        .find(|(shortest, longest)| shortest <= longest)
        .expect("every N has shapes in the last class");
    let units = |chance: &mut Chance, least: u32| {
        let units = chance.between(least.into(), longest.into());
        units as u64 * u64::from(unit)
    };
    let long = units(chance, shortest);
    let any = units(chance, 1);
    let (w, h) = if chance.once_in(2) {
        (any, long)
    } else {
        (long, any)
    };
    Shape::judge(w, h, n.into()).expect("a legal shape")
}
