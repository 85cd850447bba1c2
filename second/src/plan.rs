//! Reads the plan text line by line into steps. Every line is judged before anything is executed:
//! a plan refusal "outranks every verdict".

use crate::domain::Domain;
use crate::problem::Problem;
use crate::reading::{read_arguments, resolve_object};
use crate::text::{Kind, Reader, Refusal};

/// One step of the plan: a line that is neither blank nor a comment.
pub struct Step {
    /// from 1, blank lines counted
    pub line: usize,
    pub start: i64,
    pub action: usize,
    pub objects: Vec<usize>,
    /// of a durative action only
    pub duration: Option<i64>,
}

impl Step {
    /// The time of the second point of a durative line.
    pub fn end(&self) -> Option<i64> {
        self.duration.map(|duration| self.start + duration)
    }
}

pub struct PlanRefusal {
    pub number: u32,
    pub line: usize,
    pub column: usize,
}

const MOST_LINES: usize = 1_000_000;
const MOST_WAITING_POINTS: usize = 64;

pub fn read_plan(
    domain: &Domain,
    problem: &Problem,
    text: &[u8],
) -> Result<Vec<Step>, PlanRefusal> {
    let lines = LineReader { domain, problem };
    let mut steps = Vec::new();
    let mut waiting = Waiting::default();
    let mut line = 0;
    let mut unread = Some(text);
    while let Some(text) = unread {
        line += 1;
        let refused = |refusal: Refusal| PlanRefusal {
            number: refusal.number,
            line,
            column: refusal.place + 1,
        };
        if line > MOST_LINES && !text.is_empty() {
            // "byte after the millionth LF, before all else there"
            let (number, place) = (15, 0);
            return Err(refused(Refusal { number, place }));
        }
        let (bytes, behind) = split_line(text);
        if let Some(step) = lines.step(bytes, line, waiting.start).map_err(refused)? {
            waiting.add(&step);
            if waiting.times.len() > MOST_WAITING_POINTS {
                return Err(refused(Reader::plan_line(bytes).end_refused(18)));
            }
            steps.push(step);
        }
        unread = behind;
    }
    Ok(steps)
}

/// The first line, and what stands after its LF if it has one.
fn split_line(text: &[u8]) -> (&[u8], Option<&[u8]>) {
    match text.iter().position(|&byte| byte == b'\n') {
        Some(length) => (&text[..length], Some(&text[length + 1..])),
        None => (text, None),
    }
}

/// "After a line is read, the points of all lines so far whose time is not below that line's
/// start are waiting." Starts never fall, so a point once below stays below and is dropped.
#[derive(Default)]
struct Waiting {
    /// the previous step's start
    start: i64,
    times: Vec<i64>,
}

impl Waiting {
    fn add(&mut self, step: &Step) {
        self.start = step.start;
        self.times.retain(|&time| time >= step.start);
        self.times.push(step.start);
        self.times.extend(step.end());
    }
}

struct LineReader<'p> {
    domain: &'p Domain,
    problem: &'p Problem,
}

impl LineReader<'_> {
    /// Reads `start: (action objects) [duration]`, or nothing if the line is blank.
    fn step(
        &self,
        bytes: &[u8],
        line: usize,
        previous_start: i64,
    ) -> Result<Option<Step>, Refusal> {
        let reader = &mut Reader::plan_line(bytes);
        let Some(first) = reader.token_or_end()? else {
            return Ok(None);
        };
        let start = first.due_number()?;
        if start < previous_start {
            return Err(first.refused(16));
        }
        reader.due(Kind::Colon)?;
        reader.due(Kind::Open)?;
        let name = reader.due(Kind::Name)?;
        let index = self.domain.actions.find_declared(&name)?;
        let action = self.domain.actions.value(index);
        let vocabulary = &self.problem.vocabulary;
        let objects = read_arguments(reader, &vocabulary.types, &action.parameters, |token| {
            resolve_object(&vocabulary.objects, token)
        })?;
        Ok(Some(Step {
            line,
            start,
            action: index,
            objects,
            duration: read_duration(reader, action.durative.is_some())?,
        }))
    }
}

/// "17: bracket missing, not wanted, or holding 0: line end, `[`, the number". Reads to the
/// line's end.
fn read_duration(reader: &mut Reader, durative: bool) -> Result<Option<i64>, Refusal> {
    let Some(bracket) = reader.token_or_end()? else {
        return if durative {
            Err(reader.end_refused(17))
        } else {
            Ok(None)
        };
    };
    bracket.due(Kind::SquareOpen)?;
    if !durative {
        return Err(bracket.refused(17));
    }
    let number = reader.token()?;
    let duration = number.due_number()?;
    if duration == 0 {
        return Err(number.refused(17));
    }
    reader.due(Kind::SquareClose)?;
    reader.due_end()?;
    Ok(Some(duration))
}
