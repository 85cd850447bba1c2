//! Many checks in one run: records of three texts from one input, an answer for each.

use std::io::{self, BufRead, Error, ErrorKind, Read, Write};

use crate::{answer, written};

/// Reads records `DLEN PLEN QLEN` or `DLEN PLEN QLEN PART` and LF, each followed by the bytes of
/// domain, problem and plan, and writes for each what `--state` writes, then a line `--`. PART
/// says how the plan would be fed in parts; whole texts are read here, so it changes nothing.
pub fn answer_records(input: &mut dyn BufRead, output: &mut dyn Write) -> io::Result<()> {
    for record in 1u64.. {
        let Some(case) = read_record(input, record)? else {
            break;
        };
        let written = written(&answer(&case.domain, &case.problem, &case.plan));
        writeln!(output, "{written}--")?;
    }
    output.flush()
}

/// The texts of a record, and how many bytes of the plan would be fed at a time.
pub(crate) struct Record {
    pub domain: Vec<u8>,
    pub problem: Vec<u8>,
    pub plan: Vec<u8>,
    pub part: usize,
}

/// The next record, none if the input ends before it.
pub(crate) fn read_record(input: &mut dyn BufRead, record: u64) -> io::Result<Option<Record>> {
    let mut header = Vec::new();
    input.read_until(b'\n', &mut header)?;
    if header.is_empty() {
        return Ok(None);
    }
    let (lengths, part) = lengths(&header).ok_or_else(|| malformed(record, "its header"))?;
    let mut texts = [Vec::new(), Vec::new(), Vec::new()];
    for (text, length) in texts.iter_mut().zip(lengths) {
        let read = (&mut *input).take(length).read_to_end(text)?;
        if read as u64 != length {
            return Err(malformed(record, "fewer bytes than its header says"));
        }
    }
    let [domain, problem, plan] = texts;
    let part = part.map_or(plan.len(), |part| part as usize).max(1);
    Ok(Some(Record {
        domain,
        problem,
        plan,
        part,
    }))
}

/// The three lengths of a header line and its PART, none if it is malformed.
fn lengths(header: &[u8]) -> Option<([u64; 3], Option<u64>)> {
    let line = std::str::from_utf8(header.strip_suffix(b"\n")?).ok()?;
    let decimal = |field: &str| {
        let digits = !field.is_empty() && field.bytes().all(|byte| byte.is_ascii_digit());
        digits.then(|| field.parse::<u64>().ok()).flatten()
    };
    let fields: Option<Vec<u64>> = line.split(' ').map(decimal).collect();
    match fields?[..] {
        [domain, problem, plan] => Some(([domain, problem, plan], None)),
        [domain, problem, plan, part] => Some(([domain, problem, plan], Some(part))),
        _ => None,
    }
}

fn malformed(record: u64, what: &str) -> Error {
    Error::new(
        ErrorKind::InvalidData,
        format!("record {record} is malformed: {what}"),
    )
}
