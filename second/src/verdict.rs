//! The verdict: all points of the plan laid out by time and line, executed happening by happening,
//! the `over all` conditions after each, and the goal at last.

use crate::domain::Domain;
use crate::happening::{execute, failure_of, Failure, Point, Word};
use crate::plan::Step;
use crate::problem::Problem;
use crate::state::{Binding, State};

/// "The earliest failure is given, by time, then step, then the orders above."
pub struct Verdict {
    pub word: Word,
    pub time: i64,
    pub line: usize,
    /// 0 but for `conflict`
    pub second_line: usize,
    /// final facts and numbers
    pub state: State,
}

pub fn judge(domain: &Domain, problem: &Problem, steps: &[Step]) -> Verdict {
    judge_telling(domain, problem, steps, |_, _, _| {})
}

/// The same, and tells of each happening: its points, the lines under way after it (of one that
/// fails in steps 1 to 4: before it), and whether it passed.
pub fn judge_telling(
    domain: &Domain,
    problem: &Problem,
    steps: &[Step],
    mut tell: impl FnMut(&[Point], &[Point], bool),
) -> Verdict {
    let points = all_points(domain, problem, steps);
    let mut state = problem.initial.clone();
    let mut under_way = Vec::new();
    let mut time = 0;
    for happening in points.chunk_by(|one, other| one.time == other.time) {
        time = happening[0].time;
        // A failure leaves the state as it was before in steps 1 to 4, as it is after in step 5:
        // "those before the failing happening; after it, if step 5 failed".
        let outcome = execute(happening, &mut state).and_then(|()| {
            start_and_end(&mut under_way, happening);
            over_all_hold(&under_way, &state)
        });
        tell(happening, &under_way, outcome.is_ok());
        if let Err(failure) = outcome {
            return Verdict {
                word: failure.word,
                time,
                line: failure.line,
                second_line: failure.second_line,
                state,
            };
        }
    }
    Verdict {
        word: goal_word(problem, &state),
        time,
        line: 0,
        second_line: 0,
        state,
    }
}

/// "A durative line gives two points, at start and start plus duration; a simple line one." Steps
/// stand in the order of their lines, so a stable sort by time leaves each time in that order.
fn all_points<'p>(domain: &'p Domain, problem: &'p Problem, steps: &'p [Step]) -> Vec<Point<'p>> {
    let mut points = Vec::with_capacity(steps.len());
    for step in steps {
        let start = Point {
            time: step.start,
            step,
            action: domain.actions.value(step.action),
            is_end: false,
            binding: Binding {
                layout: &problem.layout,
                objects: &step.objects,
            },
        };
        points.push(start);
        points.extend(step.end().map(|time| Point {
            time,
            is_end: true,
            ..start
        }));
    }
    points.sort_by_key(|point| point.time);
    points
}

/// Keeps the list of durative lines "with start at or before, and end after, this time", by line
/// number: lines start in the order of their numbers, so a new one goes to the back.
fn start_and_end<'p>(under_way: &mut Vec<Point<'p>>, happening: &[Point<'p>]) {
    let time = happening[0].time;
    under_way.retain(|start| start.step.end() > Some(time));
    let starts = |point: &&Point| point.durative_start().is_some();
    under_way.extend(happening.iter().filter(starts));
}

/// Step 5, in the new state.
fn over_all_hold(under_way: &[Point], state: &State) -> Result<(), Failure> {
    for point in under_way {
        let Some(rules) = point.durative_start() else {
            continue;
        };
        let line = point.step.line;
        match point.binding.all_hold(&rules.over_all, state) {
            Ok(true) => {}
            Ok(false) => return Err(failure_of(line, Word::Invariant)),
            Err(no_value) => return Err(failure_of(line, no_value)),
        }
    }
    Ok(())
}

/// "The last state of all meets the goal", or what it comes to instead.
fn goal_word(problem: &Problem, state: &State) -> Word {
    let binding = Binding {
        layout: &problem.layout,
        objects: &[],
    };
    match binding.all_hold(&problem.goal, state) {
        Ok(true) => Word::Valid,
        Ok(false) => Word::Goal,
        Err(no_value) => no_value.into(),
    }
}
