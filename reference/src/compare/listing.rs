//! Cases of the part list program.

use super::{header_of, malformed, Case, Compared};
use crate::generate::records::{any_record, Whole};
use crate::generate::Chance;
use crate::partlist::LONGEST_INPUT;
use std::io::Write;
use std::path::Path;
use std::process::{Command, Stdio};

pub fn compare_partlist(chance: &mut Chance, base: &Whole, program: &Path) -> Compared {
    let mut record = any_record(chance, &base.bytes);
    if record.len() > LONGEST_INPUT && chance.percent(80) {
        record.truncate(LONGEST_INPUT - chance.below(2) * chance.below(LONGEST_INPUT));
    }
    let want = crate::partlist(&record);
    let got = printed(program, &record)
        .map_err(|error| format!("{} doesn't run: {error}", program.display()))?;
    if got != want.as_bytes() {
        let got = String::from_utf8_lossy(&got);
        return Err(format!("printed\n{got}expected\n{want}"));
    }
    let shape = header_of(&record).map(|header| header.shape);
    let (number, place) = listed_refusal(&want);
    let mut sorts = malformed::sorts_of(&record, number, place);
    sorts.push(base.count.name());
    Ok(Case::new(number, shape).sorted(sorts))
}

/// What a program prints for this input.
fn printed(program: &Path, input: &[u8]) -> std::io::Result<Vec<u8>> {
    let mut child = Command::new(program)
        .stdin(Stdio::piped())
        .stdout(Stdio::piped())
        .stderr(Stdio::null())
        .spawn()?;
    let mut stdin = child.stdin.take().expect("the input is a pipe");
    // A program that has read enough may close its input early. It prints
    // less than a pipe holds, so that it never waits for its reader.
    let _ = stdin.write_all(input);
    drop(stdin);
    Ok(child.wait_with_output()?.stdout)
}

/// Number and place in `refused NUMBER PLACE`, 0 and 0 for a list.
fn listed_refusal(list: &str) -> (u64, u64) {
    list.strip_prefix("refused ")
        .and_then(|rest| rest.trim_end().split_once(' '))
        .map_or((0, 0), |(number, place)| {
            let parsed = |text: &str| text.parse().expect("a number");
            (parsed(number), parsed(place))
        })
}
