//! Serving for (r1, p1) and the result for (r2, p2) is serving once for the
//! larger level and the larger plane, of every record that serving accepts.

use crate::helpers::*;
use reference::generate::pyramids::any_pyramid;
use reference::generate::records::{any_record, any_whole, invented};
use reference::generate::shapes::{any_shape, shape_of, SizeClass};
use reference::generate::Chance;
use reference::reading::Walk;

type Request = (u64, u64);

/// The requests that are legal for a record.
fn legal(record: &[u8]) -> (u64, u64) {
    let header = Walk::begin(record).expect("a legal header").header();
    (header.shape.coarsest().0.into(), header.planes.into())
}

fn all_requests((levels, planes): (u64, u64)) -> Vec<Request> {
    (1..=levels)
        .flat_map(|level| (0..=planes).map(move |plane| (level, plane)))
        .collect()
}

fn is_accepted(record: &[u8]) -> bool {
    serve_into(record, 1, 0, record.len()).0.number == 0
}

/// Both ways, with room for just the bytes, for more, and for one byte less.
fn both_ways(record: &[u8], (r1, p1): Request, (r2, p2): Request) {
    let tail = serve_into(record, r1, p1, record.len()).0.tail;
    let first = served(record, r1, p1);
    let bytes = served(&first, r2, p2);
    for room in [bytes.len(), record.len() + 3, bytes.len() - 1] {
        let (twice, out) = serve_into(&first, r2, p2, room);
        let (once, same) = serve_into(record, r1.max(r2), p1.max(p2), room);
        assert!(out == same, "{r1} {p1} then {r2} {p2}");
        assert_eq!((twice.number, twice.place), (once.number, once.place));
        assert_eq!(twice.length, once.length);
        let is_room = room >= bytes.len();
        assert_eq!(twice.number, if is_room { 0 } else { 5 });
        assert_eq!((twice.tail, once.tail), (0, if is_room { tail } else { 0 }));
    }
}

/// What isn't legal for the record isn't legal for what was served of it.
fn not_asked(record: &[u8], (r1, p1): Request) {
    let (levels, planes) = legal(record);
    let first = served(record, r1, p1);
    for (r2, p2) in [(0, 0), (levels + 1, 0), (1, planes + 1)] {
        assert_eq!(serve_into(&first, r2, p2, record.len()).0.number, 11);
        assert_eq!(serve_into(record, r2, p2, record.len()).0.number, 11);
    }
}

#[test]
fn the_example_for_all_pairs_with_a_tail_and_without() {
    for length in [30, 29, 21, 6, 5] {
        let record = &EXAMPLE[..length];
        let requests = all_requests(legal(record));
        assert_eq!(requests.len(), 8);
        for &first in &requests {
            not_asked(record, first);
            for &second in &requests {
                both_ways(record, first, second);
            }
        }
    }
}

#[test]
fn small_records_of_every_kind_for_all_pairs() {
    let mut chance = Chance::new(71);
    let mut accepted = 0;
    for round in 0..60 {
        let shape = shape_of(&mut chance, 1 + round % 2, SizeClass::To16);
        let whole = any_whole(&mut chance, shape).bytes;
        let record = any_record(&mut chance, &whole);
        if !is_accepted(&record) {
            continue;
        }
        accepted += 1;
        let requests = all_requests(legal(&record));
        for &first in &requests {
            for &second in &requests {
                both_ways(&record, first, second);
            }
        }
    }
    assert!(accepted > 20, "{accepted} accepted");
}

#[test]
fn records_of_any_size_for_drawn_pairs() {
    let mut chance = Chance::new(72);
    for round in 0..150 {
        let shape = any_shape(&mut chance);
        let whole = if round % 3 == 0 {
            invented(&mut chance, shape)
        } else {
            let pyramid = any_pyramid(&mut chance, shape);
            coded(&pyramid, shape)
        };
        let record = any_record(&mut chance, &whole);
        for record in [whole, record] {
            if is_accepted(&record) {
                let requests = all_requests(legal(&record));
                for _ in 0..8 {
                    let (first, second) = (*chance.pick(&requests), *chance.pick(&requests));
                    both_ways(&record, first, second);
                    not_asked(&record, first);
                }
            }
        }
    }
}
