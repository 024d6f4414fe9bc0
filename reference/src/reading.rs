//! Reading a record: its header, then a walk over its parts. Serving,
//! decoding and the part list read by this one walk, so that all of them
//! refuse alike.

use crate::layout::{body_length, padding_is_clear, read_number, Header, Number, VERSION};
use crate::refusal::{Cause, Refusal};
use crate::size::{Level, Plane, Shape, MOST_PLANES};

/// One whole part, held as portions of the caller's record.
#[derive(Clone, Copy, Debug, PartialEq, Eq)]
pub struct Part<'r> {
    pub offset: usize,
    pub plane: Plane,
    pub level: Level,
    pub bits: usize,
    pub body: &'r [u8],
    /// Head and body together.
    pub whole: &'r [u8],
}

/// A part whose head is whole and legal and whose body isn't all there.
#[derive(Clone, Copy, Debug, PartialEq, Eq)]
pub struct CutPart<'r> {
    pub offset: usize,
    pub plane: Plane,
    pub level: Level,
    /// The body's bytes that are there, at least one fewer than it has.
    pub there: &'r [u8],
}

/// A part's head, read but not yet judged.
struct Head {
    plane: u32,
    level: u32,
    bits: u32,
    /// Where the body begins.
    next: usize,
}

/// What came of reading a head's three numbers.
enum HeadRead {
    Whole(Head),
    Refused(Cause),
    CutOff,
}

/// The walk over a record's parts.
pub struct Walk<'r> {
    record: &'r [u8],
    header: Header,
    header_length: usize,
    at: usize,
    /// The place in the order of the last whole part.
    before: Option<(Plane, Level)>,
    tail: usize,
    cut: Option<CutPart<'r>>,
}

impl<'r> Walk<'r> {
    /// Reads the header. The version comes first and is judged at once, as
    /// what follows means nothing in another version; then the four other
    /// numbers, and only then whether they are legal.
    pub fn begin(record: &'r [u8]) -> Result<Walk<'r>, Refusal> {
        let mut at = 0;
        if header_number(record, &mut at)? != VERSION {
            return Err(Refusal::new(Cause::Version));
        }
        let width = header_number(record, &mut at)?;
        let height = header_number(record, &mut at)?;
        let decompositions = header_number(record, &mut at)?;
        let planes = header_number(record, &mut at)?;
        let shape = Shape::judge(width.into(), height.into(), decompositions.into())?;
        if planes > MOST_PLANES {
            return Err(Refusal::new(Cause::Size));
        }
        Ok(Walk {
            record,
            header: Header { shape, planes },
            header_length: at,
            at,
            before: None,
            tail: 0,
            cut: None,
        })
    }

    pub fn header(&self) -> Header {
        self.header
    }

    pub fn header_bytes(&self) -> &'r [u8] {
        &self.record[..self.header_length]
    }

    /// The length of the tail, known once the walk is over.
    pub fn tail(&self) -> usize {
        self.tail
    }

    /// The part that the tail is of, known once the walk is over: none where
    /// there is no tail, or where it is less than a head.
    pub fn cut(&self) -> Option<CutPart<'r>> {
        self.cut
    }

    /// The next whole part, or none where the record or its whole parts end.
    pub fn next_part(&mut self) -> Result<Option<Part<'r>>, Refusal> {
        let offset = self.at;
        if offset == self.record.len() {
            return Ok(None);
        }
        let head = match self.read_head() {
            HeadRead::Whole(head) => head,
            HeadRead::Refused(cause) => return Err(Refusal::at(cause, offset)),
            HeadRead::CutOff => return Ok(self.end_in_tail()),
        };
        if !self.is_legal(&head) {
            return Err(Refusal::at(Cause::Part, offset));
        }
        let (plane, level) = (Plane(head.plane), Level(head.level));
        let bits = head.bits as usize;
        let end = head.next + body_length(bits);
        let body = match self.record.get(head.next..end) {
            Some(body) => body,
            None => {
                self.cut = Some(CutPart {
                    offset,
                    plane,
                    level,
                    there: &self.record[head.next..],
                });
                return Ok(self.end_in_tail());
            }
        };
        if !padding_is_clear(body, bits) {
            return Err(Refusal::at(Cause::Pad, offset));
        }
        self.before = Some((plane, level));
        self.at = end;
        Ok(Some(Part {
            offset,
            plane,
            level,
            bits,
            body,
            whole: &self.record[offset..end],
        }))
    }

    /// The three numbers in turn; the first that isn't a value decides, and
    /// no value is judged before all three are there.
    fn read_head(&self) -> HeadRead {
        let mut next = self.at;
        let mut numbers = [0; 3];
        for number in &mut numbers {
            match read_number(self.record, next) {
                Number::Value { value, next: after } => {
                    *number = value;
                    next = after;
                }
                Number::TooManyBytes => return HeadRead::Refused(Cause::Part),
                Number::LongForm => return HeadRead::Refused(Cause::LongForm),
                Number::CutOff => return HeadRead::CutOff,
            }
        }
        let [plane, level, bits] = numbers;
        HeadRead::Whole(Head {
            plane,
            level,
            bits,
            next,
        })
    }

    fn is_legal(&self, head: &Head) -> bool {
        let Header { shape, planes } = self.header;
        head.plane < planes
            && (1..=shape.coarsest().0).contains(&head.level)
            && head.bits as usize <= shape.workspace()
            && self.comes_after(Plane(head.plane), Level(head.level))
    }

    /// Planes go downward, and levels downward in a plane. The part before is
    /// the last whole one, whether or not anyone has a use for it.
    fn comes_after(&self, plane: Plane, level: Level) -> bool {
        match self.before {
            None => true,
            Some((last_plane, last_level)) => {
                plane < last_plane || (plane == last_plane && level < last_level)
            }
        }
    }

    fn end_in_tail(&mut self) -> Option<Part<'r>> {
        self.tail = self.record.len() - self.at;
        self.at = self.record.len();
        None
    }
}

/// The part that a record is cut in the body of, where reading comes to one.
pub fn cut_part(record: &[u8]) -> Option<CutPart<'_>> {
    let mut walk = Walk::begin(record).ok()?;
    while walk.next_part().ok()?.is_some() {}
    walk.cut()
}

/// A number of the header; one that has no value is refused at its offset,
/// which is the record's length where the bytes end between two numbers.
fn header_number(record: &[u8], at: &mut usize) -> Result<u32, Refusal> {
    match read_number(record, *at) {
        Number::Value { value, next } => {
            *at = next;
            Ok(value)
        }
        Number::TooManyBytes | Number::CutOff => Err(Refusal::at(Cause::Head, *at)),
        Number::LongForm => Err(Refusal::at(Cause::LongForm, *at)),
    }
}
