//! Sizes, levels, families and planes.

use crate::helpers::{level_at, shape};
use reference::family::{Node, Set};
use reference::generate::shapes::{any_shape, shape_of, SizeClass};
use reference::generate::Chance;
use reference::size::{earlier_planes_of, planes_of, Level, Shape};
use std::collections::HashSet;

fn offspring(shape: Shape, row: u32, column: u32) -> Vec<(u32, u32)> {
    let level = shape.level_of(row, column);
    let node = Node { row, column, level };
    match node.offspring(shape) {
        None => Vec::new(),
        Some(block) => block
            .members()
            .iter()
            .map(|member| (member.row, member.column))
            .collect(),
    }
}

fn block(row: u32, column: u32) -> Vec<(u32, u32)> {
    vec![
        (row, column),
        (row, column + 1),
        (row + 1, column),
        (row + 1, column + 1),
    ]
}

#[test]
fn p12_offspring_in_8_by_8() {
    let shape = shape(8, 8, 2);
    assert_eq!(offspring(shape, 0, 1), block(0, 2));
    assert_eq!(offspring(shape, 1, 2), block(2, 4));
}

#[test]
fn all_offspring_in_8_by_8() {
    let shape = shape(8, 8, 2);
    assert_eq!(offspring(shape, 0, 0), []);
    assert_eq!(offspring(shape, 1, 0), block(2, 0));
    assert_eq!(offspring(shape, 1, 1), block(2, 2));
    assert_eq!(offspring(shape, 3, 3), block(6, 6));
    assert_eq!(offspring(shape, 2, 0), block(4, 0));
    assert_eq!(offspring(shape, 0, 4), []);
    assert_eq!(offspring(shape, 7, 7), []);
}

#[test]
fn offspring_of_a_wide_pyramid() {
    // The LL band has 2 rows and 6 columns.
    let shape = shape(24, 8, 2);
    assert_eq!(offspring(shape, 0, 5), block(0, 10));
    assert_eq!(offspring(shape, 1, 4), block(2, 4));
    assert_eq!(offspring(shape, 1, 3), block(2, 8));
    assert_eq!(offspring(shape, 0, 6), block(0, 12));
}

#[test]
fn every_coefficient_outside_the_ll_band_has_one_parent() {
    let mut chance = Chance::new(11);
    for n in 1..=5 {
        for class in [SizeClass::To16, SizeClass::To64, SizeClass::To256] {
            let shape = shape_of(&mut chance, n, class);
            let mut children = HashSet::new();
            for row in 0..shape.height() {
                for column in 0..shape.width() {
                    let level = level_at(shape, row, column);
                    for child in offspring(shape, row, column) {
                        assert_eq!(level_at(shape, child.0, child.1) + 1, level);
                        assert!(children.insert(child), "{child:?} has two parents");
                    }
                }
            }
            let outside = shape.area() - shape.count(shape.coarsest());
            assert_eq!(children.len(), outside);
        }
    }
}

#[test]
fn levels_are_where_the_rules_put_them() {
    let mut chance = Chance::new(12);
    for _ in 0..40 {
        let shape = any_shape(&mut chance);
        let mut counts = [0; 7];
        for row in 0..shape.height() {
            for column in 0..shape.width() {
                let level = level_at(shape, row, column);
                assert_eq!(shape.level_of(row, column), Level(level));
                counts[level as usize] += 1;
            }
        }
        for level in shape.levels_downward() {
            assert_eq!(shape.count(level), counts[level.0 as usize]);
        }
    }
}

#[test]
fn plane_counts() {
    for (largest, planes, earlier) in [
        (0, 0, 0),
        (1, 1, 1),
        (2, 2, 2),
        (3, 2, 3),
        (4, 3, 3),
        (5, 3, 4),
        (6, 3, 4),
        (7, 3, 4),
        (8, 4, 4),
        (9, 4, 5),
        (32_768, 16, 16),
        (32_769, 16, 17),
        (65_535, 16, 17),
    ] {
        assert_eq!(planes_of(largest), planes, "M = {largest}");
        assert_eq!(earlier_planes_of(largest), earlier, "M = {largest}");
    }
}

#[test]
fn plane_counts_round_down_and_once_rounded_up() {
    for largest in 1..=65_535u32 {
        let n_max = planes_of(largest) - 1;
        assert!(1 << n_max <= largest && largest < 1 << (n_max + 1));
        let n_max = earlier_planes_of(largest) - 1;
        assert!(largest <= 1 << n_max);
        assert!(n_max == 0 || largest > 1 << (n_max - 1));
    }
}

#[test]
fn exactly_the_legal_sizes() {
    for n in 0..=8u64 {
        for side in 0..=600u64 {
            let legal = (1..=5).contains(&n)
                && (4..=512).contains(&side)
                && side % 2u64.pow(n as u32 + 1) == 0;
            assert_eq!(Shape::judge(side, 256, n).is_ok(), legal, "{side} {n}");
            assert_eq!(Shape::judge(256, side, n).is_ok(), legal, "{side} {n}");
        }
    }
}

#[test]
fn sizes_are_judged_at_full_width() {
    for huge in [1 << 32, 1 << 33, 1 << 63] {
        for (w, h, n) in [(4, 4, 1), (64, 64, 5)] {
            assert!(Shape::judge(w, h, n).is_ok());
            assert!(Shape::judge(w + huge, h, n).is_err());
            assert!(Shape::judge(w, h + huge, n).is_err());
            assert!(Shape::judge(w, h, n + huge).is_err());
        }
    }
    assert!(Shape::judge(u64::MAX, u64::MAX, u64::MAX).is_err());
}

#[test]
fn sets_come_back_from_the_workspace() {
    let shape = shape(512, 512, 5);
    for (row, column) in [(0, 1), (15, 15), (16, 0), (255, 255), (511, 511), (300, 2)] {
        let level = shape.level_of(row, column);
        let node = Node { row, column, level };
        for set in [Set::d(node), Set::l(node)] {
            assert_eq!(Set::unpacked(set.packed()), set);
        }
    }
}

#[test]
fn members_of_a_set_in_a_level() {
    let node = |level| Node {
        row: 1,
        column: 1,
        level: Level(level),
    };
    for level in 2..=6 {
        for wanted in 1..=6 {
            let d = Set::d(node(level)).has_member_in(Level(wanted));
            let l = Set::l(node(level)).has_member_in(Level(wanted));
            assert_eq!(d, wanted < level, "D of level {level} in {wanted}");
            assert_eq!(l, wanted + 1 < level, "L of level {level} in {wanted}");
        }
    }
}
