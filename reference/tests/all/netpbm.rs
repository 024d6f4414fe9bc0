//! Grey files: the grammar held against a literal rendering of it, every cause
//! of 13, numbers beyond all bounds, and the form that is written.

use reference::generate::grey_files::{any_header, harmed, GreyHarm, GreyPieces};
use reference::generate::Chance;
use reference::netpbm::{file, header, read};
use reference::refusal::{Cause, Refusal};

const SIXTEEN: [u8; 16] = *b"0123456789abcdef";

/// The sides that are read of a header with so many bytes behind it.
fn sides(header: &[u8], behind: usize) -> Option<(u64, u64)> {
    let bytes = [header, &SIXTEEN[..behind]].concat();
    match read(&bytes) {
        Ok(grey) => {
            assert_eq!(grey.pixels.len() as u64, grey.width * grey.height);
            assert_eq!(grey.pixels, &SIXTEEN[..grey.pixels.len()]);
            Some((grey.width, grey.height))
        }
        Err(refusal) => {
            assert_eq!(refusal, Refusal::new(Cause::Grey));
            assert_eq!((refusal.number(), refusal.place()), (13, 0));
            None
        }
    }
}

#[test]
fn headers_of_a_picture() {
    for header in [
        &b"P5\n4 4\n255\n"[..],
        b"P5 # c\n4\t4 0255\r",
        b"P5#\n#12 12\n4 4\n255 ",
        b"P5\r\n4 4\r\n255\r",
        // A comment that touches a number, or ends the maxval.
        b"P5\n4#c\n4\n255\n",
        b"P5\n4 4\n255#c\n",
        b"P5\n4 4\n255#\r",
        b"P5#c\r4#\n#\n\r4#x\n255\t",
    ] {
        let text = String::from_utf8_lossy(header);
        assert_eq!(sides(header, 16), Some((4, 4)), "{text:?}");
        assert_eq!(sides(header, 15), None, "{text:?}");
    }
}

#[test]
fn headers_of_none() {
    for header in [
        &b"P2\n4 4\n255\n"[..],
        b"P6\n4 4\n255\n",
        b"P4\n4 4\n",
        b"p5\n4 4\n255\n",
        b"P54 4 255\n",
        b"P5\n4 4\n254\n",
        b"P5\n4 4\n65535\n",
        b"P5\n4 -4\n255\n",
        b"P5\n+4 4\n255\n",
        b"P5\n4\x0b4\n255\n",
        b"P5\n4\x0c4\n255\n",
        b"P5\n4x4\n255\n",
        b"P5\n4 4\n255x",
        b"P5\n4 4 # never ends",
        b" P5\n4 4\n255\n",
        b"P 5\n4 4\n255\n",
        b"#c\nP5\n4 4\n255\n",
    ] {
        let text = String::from_utf8_lossy(header);
        assert_eq!(sides(header, 16), None, "{text:?}");
    }
    for cut in [&b"P5\n4 4\n255"[..], b"", b"P", b"P5", b"P5\n", b"P5\n#"] {
        assert_eq!(sides(cut, 0), None);
    }
}

#[test]
fn sizes_are_not_judged_here() {
    assert_eq!(sides(b"P5\n5 5\n255\n", 16), None);
    assert_eq!(sides(b"P5\n3 5\n255\n", 16), Some((3, 5)));
    assert_eq!(sides(b"P5\n3 5\n255\n", 14), None);
    assert_eq!(sides(b"P5\n0 5\n255\n", 0), Some((0, 5)));
    assert_eq!(sides(b"P5\n5 0\n255\n", 0), Some((5, 0)));
}

/// The byte behind the maxval's blank is a pixel, whatever it is.
#[test]
fn one_blank_and_no_more() {
    for (header, first) in [(&b"P5 1 1 255 "[..], b'#'), (b"P5 1 1 255\r", b'\n')] {
        let bytes = [header, &[first]].concat();
        assert_eq!(read(&bytes).map(|grey| grey.pixels), Ok(&[first][..]));
    }
}

#[test]
fn numbers_of_any_length() {
    let wide = "12345678901234567890123";
    let told = |width: &str, height: &str| {
        let header = format!("P5\n{width} {height}\n255\n");
        sides(header.as_bytes(), 16)
    };
    assert_eq!(told(wide, "4"), None);
    assert_eq!(told(wide, "0"), Some((u64::MAX, 0)));
    assert_eq!(told("0", wide), Some((0, u64::MAX)));
    assert_eq!(told(wide, wide), None);
    assert_eq!(told("18446744073709551615", "0"), Some((u64::MAX, 0)));
    assert_eq!(told("18446744073709551614", "0"), Some((u64::MAX - 1, 0)));
    assert_eq!(told("18446744073709551616", "0"), Some((u64::MAX, 0)));
    assert_eq!(told("9223372036854775808", "0"), Some((1 << 63, 0)));
    // Products that would come round to 16 or to 0.
    assert_eq!(told("4294967296", "4294967296"), None);
    assert_eq!(told("9223372036854775816", "2"), None);
    assert_eq!(
        told(&format!("{:0>30}", 4), &format!("{:0>30}", 4)),
        Some((4, 4))
    );
    let maxval = format!("P5\n4 4\n{:0>30}\n", 255);
    assert_eq!(sides(maxval.as_bytes(), 16), Some((4, 4)));
    // 2^64 + 255.
    assert_eq!(sides(b"P5\n4 4\n18446744073709551871\n", 16), None);
}

#[test]
fn what_is_written() {
    assert_eq!(header(4, 4), b"P5\n4 4\n255\n");
    assert_eq!(header(512, 64), b"P5\n512 64\n255\n");
    assert_eq!((header(4, 8).len(), header(512, 512).len()), (11, 15));
    for width in 1..=512 {
        let height = 1 + width * 7 % 512;
        let pixels = vec![width as u8; (width * height) as usize];
        let written = file(width, height, &pixels);
        let grey = read(&written).expect("a grey file");
        assert_eq!((grey.width, grey.height), (width.into(), height.into()));
        assert!(grey.pixels == pixels);
    }
}

/// The grammar, rule by rule: at which places a rule can end that begins at
/// `at`.
struct Grammar<'f> {
    bytes: &'f [u8],
}

/// What a rule found: digits and where it ended.
type Ends = Vec<usize>;

impl Grammar<'_> {
    fn one_of(&self, at: usize, wanted: &[u8]) -> Ends {
        match self.bytes.get(at) {
            Some(byte) if wanted.contains(byte) => vec![at + 1],
            _ => Vec::new(),
        }
    }

    /// Up to the next LF or CR, which isn't part of it.
    fn comment(&self, at: usize) -> Ends {
        let mut end = at + 1;
        if self.bytes.get(at) != Some(&b'#') {
            return Vec::new();
        }
        loop {
            match self.bytes.get(end) {
                Some(10 | 13) => return vec![end],
                Some(_) => end += 1,
                None => return Vec::new(),
            }
        }
    }

    fn blank(&self, at: usize) -> Ends {
        self.one_of(at, &[32, 9, 10, 13])
    }

    /// One or more of: a blank; a comment.
    fn gap(&self, at: usize) -> Ends {
        let first = [self.blank(at), self.comment(at)].concat();
        let more = first.iter().flat_map(|&end| self.gap(end));
        let mut all: Ends = more.collect();
        all.extend(first);
        all
    }

    fn number(&self, at: usize) -> Ends {
        let first = self.one_of(at, b"0123456789");
        let more = first.iter().flat_map(|&end| self.number(end));
        let mut all: Ends = more.collect();
        all.extend(first);
        all
    }

    /// One blank; or a comment and then the line end that ended it.
    fn end(&self, at: usize) -> Ends {
        let line_ends = self.comment(at).into_iter();
        let mut all: Ends = line_ends
            .flat_map(|end| self.one_of(end, &[10, 13]))
            .collect();
        all.extend(self.blank(at));
        all
    }

    /// Each way to read so many numbers from here, each with a gap before it:
    /// their values, and where they end.
    fn numbers(&self, at: usize, count: usize) -> Vec<(Vec<Option<u128>>, usize)> {
        if count == 0 {
            return vec![(Vec::new(), at)];
        }
        let mut all = Vec::new();
        for begin in self.gap(at) {
            for end in self.number(begin) {
                for (values, last) in self.numbers(end, count - 1) {
                    let first = vec![value(&self.bytes[begin..end])];
                    all.push(([first, values].concat(), last));
                }
            }
        }
        all
    }

    /// The sides and where the pixels begin, where there are as many as wanted.
    fn picture(&self) -> Option<(u64, u64, usize)> {
        let mut found = Vec::new();
        if self.bytes.starts_with(b"P5") {
            for (values, last) in self.numbers(2, 3) {
                for pixels in self.end(last) {
                    found.push((values.clone(), pixels));
                }
            }
        }
        assert!(found.len() < 2, "the grammar reads a file in one way");
        let (values, at) = found.pop()?;
        let there = (self.bytes.len() - at) as u128;
        let enough = match (values[0], values[1]) {
            (Some(0), _) | (_, Some(0)) => true,
            (Some(w), Some(h)) => w.checked_mul(h).map_or(false, |wanted| wanted <= there),
            _ => false,
        };
        let told = |value: Option<u128>| value.unwrap_or(u128::MAX).min(u64::MAX.into()) as u64;
        Some((told(values[0]), told(values[1]), at)).filter(|_| enough && values[2] == Some(255))
    }
}

/// Nothing where 128 bits are too few.
fn value(digits: &[u8]) -> Option<u128> {
    let digits = std::str::from_utf8(digits).expect("digits");
    digits.trim_start_matches('0').parse().ok().or_else(|| {
        let zero = digits.bytes().all(|digit| digit == b'0');
        Some(0).filter(|_| zero)
    })
}

/// Whether it is a picture; the reader says what the grammar says.
fn is_read_as_the_grammar_says(bytes: &[u8]) -> bool {
    let want = Grammar { bytes }.picture();
    let got = read(bytes).ok();
    let text = String::from_utf8_lossy(bytes);
    let sides = got.map(|grey| (grey.width, grey.height));
    assert_eq!(sides, want.map(|(w, h, _)| (w, h)), "{text:?}");
    if let (Some(grey), Some((w, h, at))) = (got, want) {
        assert!(grey.pixels == &bytes[at..at + (w * h) as usize], "{text:?}");
    }
    got.is_some()
}

#[test]
fn good_headers_are_as_the_grammar_says() {
    let mut chance = Chance::new(91);
    let mut lengths = [0; 31];
    for _ in 0..6_000 {
        let pieces = any_header(&mut chance);
        for number in &pieces.numbers {
            lengths[number.digits.len()] += 1;
        }
        is_read_as_the_grammar_says(&pieces.together());
    }
    assert!(lengths[1..].iter().all(|&count| count > 0), "{lengths:?}");
}

#[test]
fn harmed_headers_are_as_the_grammar_says() {
    let mut chance = Chance::new(92);
    for harm in GreyHarm::ALL {
        let mut refused = 0;
        for _ in 0..1_000 {
            let pieces = any_header(&mut chance);
            let bytes = harmed(&mut chance, pieces, harm);
            refused += u32::from(!is_read_as_the_grammar_says(&bytes));
        }
        assert!(refused > 300, "{harm:?}: {refused}");
    }
}

/// Headers of few bytes, with comments and without.
fn short_headers() -> Vec<GreyPieces> {
    let mut chance = Chance::new(93);
    let mut headers = Vec::new();
    while headers.len() < 12 {
        let pixels = chance.bytes(2);
        let pieces = GreyPieces::any_writing(&mut chance, "2", "1", pixels);
        if pieces.header().len() < 40 {
            headers.push(pieces);
        }
    }
    headers
}

#[test]
fn every_byte_of_a_header_made_any_other() {
    for pieces in short_headers() {
        let whole = pieces.together();
        for at in 0..pieces.header().len() {
            let mut bytes = whole.clone();
            for byte in 0..=255 {
                bytes[at] = byte;
                is_read_as_the_grammar_says(&bytes);
            }
        }
    }
}

#[test]
fn cut_at_every_byte() {
    for pieces in short_headers() {
        let whole = pieces.together();
        let needed = whole.len() - pieces.rest.len();
        for cut in 0..=whole.len() {
            let is_picture = is_read_as_the_grammar_says(&whole[..cut]);
            assert_eq!(is_picture, cut >= needed);
        }
    }
}
