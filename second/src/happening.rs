//! One happening of the rules, steps 1 to 4: all points of one time, seen in the state before it.

use std::collections::BTreeMap;

use crate::forms::{Action, DurativeRules, Effect, PointRules, Write};
use crate::interference::Footprint;
use crate::plan::Step;
use crate::state::{in_range, Binding, NoValue, State};

/// One point of a plan line, with its action looked up.
#[derive(Clone, Copy)]
pub struct Point<'p> {
    pub time: i64,
    pub step: &'p Step,
    pub action: &'p Action,
    pub is_end: bool,
    pub binding: Binding<'p>,
}

impl<'p> Point<'p> {
    /// The conditions and effects of this point.
    pub fn rules(&self) -> &'p PointRules {
        match &self.action.durative {
            Some(durative) if self.is_end => &durative.end,
            _ => &self.action.start,
        }
    }

    /// What a durative action has beside its start, if this point is one's start.
    pub fn durative_start(&self) -> Option<&'p DurativeRules> {
        self.action.durative.as_ref().filter(|_| !self.is_end)
    }
}

/// The verdict words of failures and of success.
#[derive(Clone, Copy, Debug, PartialEq, Eq)]
pub enum Word {
    Valid,
    Duration,
    Condition,
    Undefined,
    Range,
    Itself,
    Conflict,
    Invariant,
    Goal,
}

impl From<NoValue> for Word {
    fn from(no_value: NoValue) -> Self {
        match no_value {
            NoValue::Undefined => Word::Undefined,
            NoValue::Range => Word::Range,
        }
    }
}

/// A failure within a happening: the line named, and the second line of a conflict (else 0).
pub struct Failure {
    pub word: Word,
    pub line: usize,
    pub second_line: usize,
}

/// A failure of one line.
pub fn failure_of(line: usize, word: impl Into<Word>) -> Failure {
    Failure {
        word: word.into(),
        line,
        second_line: 0,
    }
}

/// Takes steps 1 to 4 in turn, each over all points by line number. The state changes only if
/// nothing fails.
pub fn execute(points: &[Point], state: &mut State) -> Result<(), Failure> {
    for point in points {
        meets_conditions(point, state).map_err(|word| failure_of(point.step.line, word))?;
    }
    let footprints: Vec<Footprint> = points.iter().map(Footprint::of).collect();
    for (point, footprint) in points.iter().zip(&footprints) {
        if footprint.writes_against_itself() {
            return Err(failure_of(point.step.line, Word::Itself));
        }
    }
    no_interference(points, &footprints)?;
    let changes = Changes::of(points, &footprints, state)?;
    changes.apply(state);
    Ok(())
}

/// Step 1: "for a start, the duration rule; then its conditions as written, up to the first that
/// doesn't hold."
fn meets_conditions(point: &Point, state: &State) -> Result<(), Word> {
    if let Some(rules) = point.durative_start() {
        let duration = point.binding.value(&rules.duration, state)?;
        if point.step.duration != Some(duration) {
            return Err(Word::Duration);
        }
    }
    if !point.binding.all_hold(&point.rules().conditions, state)? {
        return Err(Word::Condition);
    }
    Ok(())
}

/// Step 3: "Per pair, ordered by the lower line, then the higher".
fn no_interference(points: &[Point], footprints: &[Footprint]) -> Result<(), Failure> {
    for (lower, one) in footprints.iter().enumerate() {
        for (higher, other) in footprints.iter().enumerate().skip(lower + 1) {
            if one.interferes_with(other) {
                return Err(Failure {
                    word: Word::Conflict,
                    line: points[lower].step.line,
                    second_line: points[higher].step.line,
                });
            }
        }
    }
    Ok(())
}

/// Step 4: what all points together do to the state.
#[derive(Default)]
struct Changes {
    added: Vec<usize>,
    deleted: Vec<usize>,
    numbers: BTreeMap<usize, i64>,
}

impl Changes {
    fn of(points: &[Point], footprints: &[Footprint], state: &State) -> Result<Self, Failure> {
        let mut changes = Changes::default();
        for point in points {
            changes
                .take_effects(point, state)
                .map_err(|no_value| failure_of(point.step.line, no_value))?;
        }
        // "`range` then names the lowest line that writes any number that ends outside."
        for (point, footprint) in points.iter().zip(footprints) {
            let ends_outside = |number: &usize| !in_range(changes.numbers[number]);
            if footprint.written().any(ends_outside) {
                return Err(failure_of(point.step.line, NoValue::Range));
            }
        }
        Ok(changes)
    }

    /// "effects as written: the right side evaluates, then a number to be raised or lowered must
    /// be defined." No number is both assigned and raised, steps 2 and 3 saw to that, so summing
    /// up from the old value gives "old plus the exact sum of rises and falls".
    fn take_effects(&mut self, point: &Point, state: &State) -> Result<(), NoValue> {
        let binding = &point.binding;
        for effect in &point.rules().effects {
            match effect {
                Effect::Add(atom) => self.added.push(binding.fact(atom)),
                Effect::Delete(atom) => self.deleted.push(binding.fact(atom)),
                Effect::Number(write, function, right_side) => {
                    let value = binding.value(right_side, state)?;
                    let number = binding.number(function);
                    if *write == Write::Assign {
                        self.numbers.insert(number, value);
                        continue;
                    }
                    let old = state.numbers[number].ok_or(NoValue::Undefined)?;
                    let raised = self.numbers.entry(number).or_insert(old);
                    *raised += if *write == Write::Increase {
                        value
                    } else {
                        -value
                    };
                }
            }
        }
        Ok(())
    }

    /// "facts become (old without deleted) with added"
    fn apply(self, state: &mut State) {
        for fact in self.deleted {
            state.facts[fact] = false;
        }
        for fact in self.added {
            state.facts[fact] = true;
        }
        for (number, value) in self.numbers {
            state.numbers[number] = Some(value);
        }
    }
}
