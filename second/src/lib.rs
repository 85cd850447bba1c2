//! The second program: answers every case on its own, written from the rules (docs/RULES.md) and
//! the decided readings (docs/DECISIONS.md) alone, to be held beside the first.

pub mod batch;
pub mod generate;
pub mod survey;

mod actions;
mod domain;
mod forms;
mod happening;
mod interference;
mod names;
mod plan;
mod problem;
mod reading;
mod state;
mod text;
mod verdict;

use domain::Domain;
use happening::Word;
use problem::Problem;
use text::Refusal;

/// What is written for one check.
pub struct Answer {
    /// the line written, with its LF
    pub line: String,
    /// the final facts and numbers in the order of their indexes; none if refused
    pub state: Option<(Vec<bool>, Vec<Option<i64>>)>,
}

/// "−1,000,000,000,001 if undefined"
const UNDEFINED: i64 = -1_000_000_000_001;

/// Answers for three whole texts; a plan is judged if both others load.
pub fn answer(domain: &[u8], problem: &[u8], plan: &[u8]) -> Answer {
    let (domain, problem) = match load(domain, problem) {
        Ok(loaded) => loaded,
        Err((text, refusal)) => return refused(text, refusal.number, refusal.place, 0),
    };
    let steps = match plan::read_plan(&domain, &problem, plan) {
        Ok(steps) => steps,
        Err(refusal) => return refused("plan", refusal.number, refusal.line, refusal.column),
    };
    let verdict = verdict::judge(&domain, &problem, &steps);
    Answer {
        line: format!(
            "{} {}.{:03} {} {}\n",
            word_written(verdict.word),
            verdict.time / 1000,
            verdict.time % 1000,
            verdict.line,
            verdict.second_line
        ),
        state: Some((verdict.state.facts, verdict.state.numbers)),
    }
}

/// Which text is refused, and how.
pub(crate) type Refused = (&'static str, Refusal);

/// Loads two texts: "The domain's refusals come before the problem's".
pub(crate) fn load(domain: &[u8], problem: &[u8]) -> Result<(Domain, Problem), Refused> {
    let domain = domain::read_domain(domain).map_err(|refusal| ("domain", refusal))?;
    let problem =
        problem::read_problem(&domain, problem).map_err(|refusal| ("problem", refusal))?;
    Ok((domain, problem))
}

fn refused(text: &str, number: u32, place: usize, column: usize) -> Answer {
    Answer {
        line: format!("refused {text} {number} {place} {column}\n"),
        state: None,
    }
}

fn word_written(word: Word) -> &'static str {
    match word {
        Word::Valid => "valid",
        Word::Duration => "duration",
        Word::Condition => "condition",
        Word::Undefined => "undefined",
        Word::Range => "range",
        Word::Itself => "itself",
        Word::Conflict => "conflict",
        Word::Invariant => "invariant",
        Word::Goal => "goal",
    }
}

/// The line and, unless refused, one line of facts and one of numbers, each perhaps empty.
pub fn written(answer: &Answer) -> String {
    let Some((facts, numbers)) = &answer.state else {
        return answer.line.clone();
    };
    let facts: String = facts
        .iter()
        .map(|&fact| if fact { '1' } else { '0' })
        .collect();
    let numbers: Vec<String> = numbers
        .iter()
        .map(|number| number.unwrap_or(UNDEFINED).to_string())
        .collect();
    format!("{}{}\n{}\n", answer.line, facts, numbers.join(" "))
}
