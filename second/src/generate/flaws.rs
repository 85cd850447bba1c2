//! A sound plan of many points, broken at one place: by a step that meets another, by one that
//! breaks an `over all` condition of a line under way, or by any.

use super::gather::{Gathering, Line, Said};
use super::random::Random;
use crate::happening::{Point, Word};
use crate::interference::{Footprint, Touch};
use crate::survey::crossed;
use crate::verdict::judge_telling;

/// How often a step is tried.
const TRIES: usize = 30;

/// Breaks the plan, or leaves it as it is, as the weights say: left, two points that meet, a broken
/// `over all` condition, anything. Whether it may be broken.
pub fn flaw(gathering: &mut Gathering, weights: &[usize; 4], random: &mut Random) -> bool {
    let flawed = match random.weighted(weights) {
        0 => false,
        1 => gathering.meet(random),
        2 => gathering.break_a_watch(random),
        _ => gathering.disturb(random),
    };
    if flawed && random.chance(15) {
        gathering.disturb(random);
    }
    flawed
}

/// How an `over all` condition is broken.
#[derive(Clone, Copy, PartialEq)]
enum Way {
    Any,
    /// by what the happening adds, deletes, assigns, raises or lowers, and in no other way
    By(Touch),
    /// by what the end points of other lines write
    ByAnEnd,
    /// that of a line before which many others are under way
    OfALateLine,
}

const WAYS: &[Way] = &[
    Way::Any,
    Way::By(Touch::ADDED),
    Way::By(Touch::DELETED),
    Way::By(Touch::ASSIGNED),
    Way::By(Touch::SHIFTED),
    Way::ByAnEnd,
    Way::OfALateLine,
];

impl Way {
    /// Whether the condition of the line named is broken in this way, and not at its own start.
    fn is_that_of(self, line: usize, points: &[Point], under_way: &[Point]) -> bool {
        let place = under_way.iter().position(|point| point.step.line == line);
        let Some(place) = place.filter(|place| under_way[*place].time < points[0].time) else {
            return false;
        };
        let watched = Footprint::over_all(&under_way[place]);
        let touch = |ends: bool| {
            let points = points.iter().filter(|point| point.is_end || !ends);
            let touches = points.map(|point| Footprint::of(point).touch(&watched));
            touches.fold(Touch::NONE, Touch::and)
        };
        match self {
            Way::Any => true,
            Way::By(wanted) => touch(false) == wanted,
            Way::ByAnEnd => touch(true) != Touch::NONE,
            Way::OfALateLine => place > 3 && 2 * place >= under_way.len(),
        }
    }
}

impl Gathering<'_> {
    /// Puts in a step with which the plan passes the test.
    fn put_in(
        &mut self,
        throw: fn(&mut Self, &mut Random) -> Option<usize>,
        test: impl Fn(&Self) -> bool,
        random: &mut Random,
    ) -> bool {
        for _ in 0..TRIES {
            if let Some(place) = throw(self, random) {
                if test(self) {
                    return true;
                }
                self.lines.remove(place);
            }
        }
        false
    }

    /// A step at a time at which something happens.
    fn join(&mut self, random: &mut Random) -> Option<usize> {
        let time = self.time(random);
        self.throw_in(time, random)
    }

    /// A step that writes what a line watches, at any time or at one at which something happens.
    fn tamper(&mut self, random: &mut Random) -> Option<usize> {
        let time = self.time(random);
        self.touch(random.chance(40).then_some(time), random)
    }

    /// Breaks an `over all` condition in some way, or in any if that is not found.
    fn break_a_watch(&mut self, random: &mut Random) -> bool {
        let way = *random.pick(WAYS);
        let any = |plan: &Self| plan.word() == Some(Word::Invariant);
        self.put_in(Self::tamper, |plan| plan.is_broken(way), random)
            || self.put_in(Self::tamper, any, random)
            || self.put_in(Self::join, any, random)
    }

    fn is_broken(&self, way: Way) -> bool {
        let Said::Failed {
            word: Word::Invariant,
            line,
            ..
        } = self.ask()
        else {
            return false;
        };
        let steps = self.steps().ok().unwrap_or_default();
        let mut found = false;
        judge_telling(
            &self.domain,
            &self.problem,
            &steps,
            |points, lines, passed| {
                found = !passed && way.is_that_of(line, points, lines);
            },
        );
        found
    }

    /// Lets two points interfere, and often further ones at the same instant.
    fn meet(&mut self, random: &mut Random) -> bool {
        let met = |plan: &Self| plan.word() == Some(Word::Conflict);
        if !self.put_in(Self::join, met, random) {
            return false;
        }
        if random.chance(35) {
            self.hide();
            return true;
        }
        for _ in 0..random.below(6) {
            let Said::Failed { time, .. } = self.ask() else {
                break;
            };
            if let Some(place) = self.throw_in(time, random) {
                if !met(self) {
                    self.lines.remove(place);
                }
            }
        }
        for _ in 0..random.below(12) {
            if self.crosses() {
                break;
            }
            self.reorder(random);
        }
        true
    }

    /// Puts the two lines that meet last among those of their starts.
    fn hide(&mut self) {
        let Said::Failed { line, second, .. } = self.ask() else {
            return;
        };
        for place in [second, line] {
            if let Some(place) = place.checked_sub(1) {
                let start = self.lines[place].step.start;
                let behind = self.lines.partition_point(|line| line.step.start <= start);
                self.lines[place..behind].rotate_left(1);
            }
        }
    }

    /// Whether the pair to be named is not the first one that is met.
    fn crosses(&self) -> bool {
        let steps = self.steps().ok().unwrap_or_default();
        let mut found = false;
        judge_telling(&self.domain, &self.problem, &steps, |points, _, passed| {
            let footprints: Vec<Footprint> = points.iter().map(Footprint::of).collect();
            found = !passed && crossed(&footprints);
        });
        found
    }

    /// Shuffles lines of equal start, as long as points interfere.
    fn reorder(&mut self, random: &mut Random) {
        let kept = self.lines.clone();
        let same = |one: &Line, other: &Line| one.step.start == other.step.start;
        for lines in self.lines.chunk_by_mut(same) {
            random.shuffle(lines);
        }
        if self.word() != Some(Word::Conflict) {
            self.lines = kept;
        }
    }

    /// Puts in steps that nobody asks about, some with a duration that is not the rule's.
    fn disturb(&mut self, random: &mut Random) -> bool {
        for _ in 0..random.between(1, 3) {
            let time = self.time(random);
            if let Some(mut step) = self.step_at(time, random) {
                let wrong = random.chance(20);
                step.duration = step.duration.map(|own| own + i64::from(wrong));
                self.insert(step, random);
            }
        }
        true
    }
}
