//! The published steps and the rules for reading, word for word, on
//! coordinates and plain lists, with every set written out. Slow, and as close
//! to the text as can be: what the coder's records and the decoder's answers
//! are held against.

use std::collections::{HashSet, VecDeque};

type Place = (usize, usize);

#[derive(Clone, Copy, PartialEq)]
enum Type {
    A,
    B,
}

struct Literal {
    pyramid: Vec<i32>,
    w: usize,
    h: usize,
    n: usize,
    lip: Vec<Vec<Place>>,
    lis: Vec<Vec<(Place, Type)>>,
    /// With the plane in which an entry came in.
    lsp: Vec<Vec<(Place, u32)>>,
    /// The part's bits: written so far, or still to be read.
    bits: VecDeque<bool>,
    reads: bool,
}

/// A bit was to be read and none was left.
struct RanOut;
type Step = Result<(), RanOut>;

/// The record of a pyramid.
pub fn record(pyramid: &[i32], w: usize, h: usize, n: usize) -> Vec<u8> {
    let largest = pyramid.iter().map(|c| c.unsigned_abs()).max().unwrap();
    record_in(pyramid, w, h, n, planes(largest))
}

/// For so many planes.
pub fn record_in(pyramid: &[i32], w: usize, h: usize, n: usize, planes: u32) -> Vec<u8> {
    let mut literal = Literal::start(pyramid.to_vec(), w, h, n);
    let mut record = Vec::new();
    for value in [1, w, h, n, planes as usize] {
        record.extend(number(value));
    }
    for plane in (0..planes).rev() {
        for level in (1..=n + 1).rev() {
            literal.bits.clear();
            assert!(literal.part(level, plane).is_ok());
            for value in [plane as usize, level, literal.bits.len()] {
                record.extend(number(value));
            }
            record.extend(packed(literal.bits.make_contiguous()));
        }
    }
    record
}

/// The least number with M < 2^planes: log2 M rounded down, and one.
fn planes(largest: u32) -> u32 {
    (0..).find(|&planes| largest < 1 << planes).unwrap()
}

/// The count before it: the least n with M <= 2^n, and one.
pub fn earlier_planes(largest: u32) -> u32 {
    if largest == 0 {
        return 0;
    }
    (0..).find(|&n| largest <= 1 << n).unwrap() + 1
}

fn number(value: usize) -> Vec<u8> {
    if value < 128 {
        return vec![value as u8];
    }
    let mut bytes = vec![(value % 128) as u8 + 128];
    bytes.extend(number(value / 128));
    bytes
}

fn packed(bits: &[bool]) -> Vec<u8> {
    bits.chunks(8)
        .map(|chunk| {
            (0..8).fold(0, |byte, at| {
                byte * 2 + u8::from(chunk.get(at) == Some(&true))
            })
        })
        .collect()
}

impl Literal {
    fn start(pyramid: Vec<i32>, w: usize, h: usize, n: usize) -> Literal {
        let mut literal = Literal {
            pyramid,
            w,
            h,
            n,
            lip: vec![Vec::new(); n + 2],
            lis: vec![Vec::new(); n + 2],
            lsp: vec![Vec::new(); n + 2],
            bits: VecDeque::new(),
            reads: false,
        };
        for i in 0..h >> n {
            for j in 0..w >> n {
                literal.lip[n + 1].push((i, j));
                if !literal.offspring((i, j)).is_empty() {
                    literal.lis[n + 1].push(((i, j), Type::A));
                }
            }
        }
        literal
    }

    fn part(&mut self, level: usize, plane: u32) -> Step {
        self.sort_lip(level, plane)?;
        self.sort_lis(level, plane)?;
        self.refine_lsp(level, plane)
    }

    /// Writes the bit that is true of the pyramid, or reads one.
    fn bit(&mut self, truth: bool) -> Result<bool, RanOut> {
        if self.reads {
            return self.bits.pop_front().ok_or(RanOut);
        }
        self.bits.push_back(truth);
        Ok(truth)
    }

    fn level(&self, (i, j): Place) -> usize {
        let within = |k: usize| i < self.h >> (k - 1) && j < self.w >> (k - 1);
        (1..=self.n + 1).rev().find(|&k| within(k)).unwrap()
    }

    fn offspring(&self, (i, j): Place) -> Vec<Place> {
        let (h, w) = (self.h >> self.n, self.w >> self.n);
        let (i0, j0) = (i / 2 * 2, j / 2 * 2);
        let (top, left) = match self.level((i, j)) {
            1 => return Vec::new(),
            k if k <= self.n => (2 * i, 2 * j),
            _ => match (i % 2 == 0, j % 2 == 0) {
                (true, true) => return Vec::new(),
                (true, false) => (i0, w + j0),
                (false, true) => (h + i0, j0),
                (false, false) => (h + i0, w + j0),
            },
        };
        vec![
            (top, left),
            (top, left + 1),
            (top + 1, left),
            (top + 1, left + 1),
        ]
    }

    /// D: the offspring, theirs, and so on.
    fn descendants(&self, place: Place) -> Vec<Place> {
        let mut all = self.offspring(place);
        let mut at = 0;
        while at < all.len() {
            all.extend(self.offspring(all[at]));
            at += 1;
        }
        all
    }

    /// L: D less the offspring.
    fn leaves(&self, place: Place) -> Vec<Place> {
        let offspring = self.offspring(place);
        let mut all = self.descendants(place);
        all.retain(|member| !offspring.contains(member));
        all
    }

    fn coefficient(&self, (i, j): Place) -> i32 {
        self.pyramid[i * self.w + j]
    }

    fn is_significant(&self, places: &[Place], plane: u32) -> bool {
        places
            .iter()
            .map(|&place| self.coefficient(place).unsigned_abs())
            .max()
            .map_or(false, |largest| largest >= 1 << plane)
    }

    fn sort_lip(&mut self, level: usize, plane: u32) -> Step {
        for place in std::mem::take(&mut self.lip[level]) {
            self.test_coefficient(place, level, plane)?;
        }
        Ok(())
    }

    /// Significance bit; sign bit and LSP, or LIP.
    fn test_coefficient(&mut self, place: Place, level: usize, plane: u32) -> Step {
        let truth = self.is_significant(&[place], plane);
        if self.bit(truth)? {
            let negative = self.bit(self.coefficient(place) < 0)?;
            if self.reads {
                let (i, j) = place;
                self.pyramid[i * self.w + j] = if negative { -1 } else { 1 } << plane;
            }
            self.lsp[level].push((place, plane));
        } else {
            self.lip[level].push(place);
        }
        Ok(())
    }

    fn sort_lis(&mut self, level: usize, plane: u32) -> Step {
        let mut to_visit: VecDeque<_> = std::mem::take(&mut self.lis[level]).into();
        let mut stayed = Vec::new();
        while let Some((place, kind)) = to_visit.pop_front() {
            let members = match kind {
                Type::A => self.descendants(place),
                Type::B => self.leaves(place),
            };
            if members.iter().all(|&member| self.level(member) != level) {
                self.lis[level - 1].push((place, kind));
                continue;
            }
            let truth = self.is_significant(&members, plane);
            if !self.bit(truth)? {
                stayed.push((place, kind));
                continue;
            }
            let offspring = self.offspring(place);
            if kind == Type::A {
                for member in offspring {
                    self.test_coefficient(member, level, plane)?;
                }
                if !self.leaves(place).is_empty() {
                    to_visit.push_back((place, Type::B));
                }
            } else {
                to_visit.extend(offspring.into_iter().map(|member| (member, Type::A)));
            }
        }
        self.lis[level] = stayed;
        Ok(())
    }

    fn refine_lsp(&mut self, level: usize, plane: u32) -> Step {
        for ((i, j), came_in) in self.lsp[level].clone() {
            if came_in > plane {
                let value = self.coefficient((i, j));
                let bit = self.bit(value.unsigned_abs() >> plane & 1 == 1)?;
                if self.reads && bit {
                    let magnitude = value.abs() + (1 << plane);
                    self.pyramid[i * self.w + j] = if value < 0 { -magnitude } else { magnitude };
                }
            }
        }
        Ok(())
    }
}

/// What decoding should answer, output and workspace being right.
#[derive(Debug, Default, PartialEq)]
pub struct Outcome {
    pub number: u64,
    pub place: u64,
    pub tail: u64,
    pub reached: [u64; 6],
    pub skipped: [u64; 6],
    pub pyramid: Option<Vec<i32>>,
}

enum Fault {
    TooManyBytes,
    LongForm,
    CutOff,
}

/// A number's value and where it ends.
fn number_at(bytes: &[u8], at: usize) -> Result<(usize, usize), Fault> {
    let four: Vec<usize> = bytes[at..].iter().take(4).map(|&b| b.into()).collect();
    match four.iter().position(|&byte| byte < 128) {
        None if four.len() == 4 => Err(Fault::TooManyBytes),
        None => Err(Fault::CutOff),
        Some(last) if last > 0 && four[last] == 0 => Err(Fault::LongForm),
        Some(last) => {
            let groups = four[..=last].iter().rev();
            let value = groups.fold(0, |value, byte| value * 128 + byte % 128);
            Ok((value, at + last + 1))
        }
    }
}

/// A part's three numbers and where they end; the first fault decides.
fn head_at(bytes: &[u8], at: usize) -> Result<([usize; 3], usize), Fault> {
    let (plane, at) = number_at(bytes, at)?;
    let (level, at) = number_at(bytes, at)?;
    let (bits, at) = number_at(bytes, at)?;
    Ok(([plane, level, bits], at))
}

fn is_legal(w: usize, h: usize, n: usize, planes: usize) -> bool {
    let side = |s: usize| (4..=512).contains(&s) && s % 2usize.pow(n as u32 + 1) == 0;
    (1..=5).contains(&n) && side(w) && side(h) && planes <= 17
}

fn bits_of(bytes: &[u8]) -> VecDeque<bool> {
    bytes
        .iter()
        .flat_map(|byte| (0..8).rev().map(move |bit| byte >> bit & 1 == 1))
        .collect()
}

/// Decodes any bytes.
pub fn decode(record: &[u8]) -> Outcome {
    let refused = |number, place: usize| Outcome {
        number,
        place: place as u64,
        ..Outcome::default()
    };
    let mut at = 0;
    let mut header = [0; 5];
    for which in 0..5 {
        match number_at(record, at) {
            Ok((value, next)) => {
                header[which] = value;
                at = next;
            }
            Err(Fault::LongForm) => return refused(12, at),
            Err(_) => return refused(6, at),
        }
        if header[0] != 1 {
            return refused(7, 0);
        }
    }
    let [_, w, h, n, planes] = header;
    if !is_legal(w, h, n, planes) {
        return refused(1, 0);
    }

    let mut literal = Literal::start(vec![0; w * h], w, h, n);
    literal.reads = true;
    let mut present = HashSet::new();
    let mut usable = HashSet::new();
    let mut before = None;
    let mut tail = 0;
    while at < record.len() {
        let offset = at;
        let ([plane, level, count], next) = match head_at(record, at) {
            Ok(head) => head,
            Err(Fault::TooManyBytes) => return refused(8, offset),
            Err(Fault::LongForm) => return refused(12, offset),
            Err(Fault::CutOff) => {
                tail = record.len() - offset;
                break;
            }
        };
        // Planes downward, levels downward: smaller pairs come later.
        let in_order = before.map_or(true, |before| (plane, level) < before);
        let named = plane < planes && (1..=n + 1).contains(&level);
        if !named || !in_order || count > 4 * w * h {
            return refused(8, offset);
        }
        at = next + (count + 7) / 8;
        let is_usable = (plane..planes).all(|p| {
            (level..=n + 1).all(|k| (p, k) == (plane, level) || present.contains(&(p, k)))
        });
        if at > record.len() {
            tail = record.len() - offset;
            if is_usable {
                literal.bits = bits_of(&record[next..]);
                let ended = literal.part(level, plane as u32);
                if ended.is_ok() && !literal.bits.is_empty() {
                    return refused(10, offset);
                }
            }
            break;
        }
        let mut bits = bits_of(&record[next..at]);
        if bits.split_off(count).contains(&true) {
            return refused(9, offset);
        }
        before = Some((plane, level));
        present.insert((plane, level));
        if is_usable {
            usable.insert((plane, level));
            literal.bits = bits;
            let ended = literal.part(level, plane as u32);
            if ended.is_err() || !literal.bits.is_empty() {
                return refused(10, offset);
            }
        }
    }

    let mut reached = [0; 6];
    let mut skipped = [0; 6];
    for level in 1..=n + 1 {
        let lowest = (0..planes).find(|&plane| usable.contains(&(plane, level)));
        reached[level - 1] = lowest.unwrap_or(planes) as u64;
    }
    for &(_, level) in present.difference(&usable) {
        skipped[level - 1] += 1;
    }
    Outcome {
        tail: tail as u64,
        reached,
        skipped,
        pyramid: Some(literal.pyramid),
        ..Outcome::default()
    }
}
