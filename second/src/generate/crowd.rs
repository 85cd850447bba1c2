//! Plans with about as many waiting points, or lines, as there may be, and long plans.

use super::bench::{crowd, HOLD, LOCKS, NOTE, OFF, ZERO};
use super::layout::{plain, LINE};
use super::random::Random;
use super::steps::{draft, Step};
use super::{write, Draft};

/// The most points that may wait.
const WAITING: usize = 64;
/// The most lines of a plan.
const LINES: usize = 1_000_000;

/// How many points wait after the last step.
fn waiting(steps: &[Step]) -> usize {
    let Some(last) = steps.last() else {
        return 0;
    };
    let points = |step: &Step| {
        let start = usize::from(step.start >= last.start);
        let end = usize::from(step.duration.is_some() && step.end() >= last.start);
        start + end
    };
    steps.iter().map(points).sum()
}

/// How the steps on the crowd's bench are chosen.
struct Habit {
    /// Durations are those of the rule.
    honest: bool,
    /// Only the first so many pumps are used.
    pumps: usize,
    /// How many steps in a hundred disturb others.
    disturbing: usize,
}

impl Habit {
    fn any(pumps: usize, random: &mut Random) -> Self {
        Habit {
            honest: random.chance(75),
            pumps,
            disturbing: *random.pick(&[0, 0, 1, 4]),
        }
    }

    fn step(&self, start: i64, random: &mut Random) -> Step {
        let pump = random.below(self.pumps);
        let action = match random.chance(self.disturbing) {
            true => *random.pick(&[OFF, ZERO]),
            false => *random.pick(&[HOLD, HOLD, HOLD, NOTE]),
        };
        let lock = match self.honest {
            true => LOCKS[pump],
            false => *random.pick(LOCKS),
        };
        Step {
            start,
            action,
            objects: vec![pump],
            duration: (action == HOLD).then_some(lock),
        }
    }
}

/// A plan that comes to the greatest number of waiting points, perhaps past it, now and then with
/// a comment that makes the last line too long.
pub fn waiting_points(random: &mut Random) -> Draft {
    let world = crowd();
    let habit = Habit::any(LOCKS.len(), random);
    let passed = random.chance(45);
    let gap = *random.pick(&[0, 1, 40, 100]);
    let mut steps: Vec<Step> = Vec::new();
    let mut start = 0;
    for _ in 0..random.between(70, 260) {
        start += if random.chance(30) { gap } else { 0 };
        steps.push(habit.step(start, random));
        let count = waiting(&steps);
        if count > WAITING {
            if passed && random.chance(30) {
                break;
            }
            steps.pop();
            start = random.pick(&steps).end().max(start) + random.below(2) as i64;
        } else if count == WAITING && random.chance(5) {
            break;
        }
    }
    let mut draft = draft(&world, &steps, random);
    if random.chance(8) {
        if let Some(last) = draft.plan.last_mut() {
            last.push(";".repeat(LINE));
        }
    }
    draft
}

/// A long plan.
pub fn long_plan(random: &mut Random) -> Draft {
    let world = crowd();
    let habit = Habit {
        honest: random.chance(90),
        pumps: 5,
        disturbing: usize::from(random.chance(40)),
    };
    let (mut steps, mut start) = (Vec::new(), 0);
    for _ in 0..random.between(200, 1500) {
        start += random.below(1200) as i64;
        steps.push(habit.step(start, random));
    }
    draft(&world, &steps, random)
}

/// A plan of as many lines as there may be, nearly all empty, perhaps with bytes after them.
pub fn million(random: &mut Random) -> (Draft, Vec<u8>) {
    let world = crowd();
    let ends = LINES - usize::from(random.chance(25));
    let mut places: Vec<usize> = (0..random.below(6)).map(|_| random.below(ends)).collect();
    places.sort_unstable();
    if random.chance(50) {
        places.push(ends - 1);
    }
    let habit = Habit::any(LOCKS.len(), random);
    let mut plan = Vec::new();
    let mut lines = 0;
    for (index, place) in places.into_iter().enumerate() {
        let step = habit.step(700 * index as i64, random);
        let blank = place.saturating_sub(lines);
        plan.resize(plan.len() + blank, b'\n');
        plan.extend(plain(&write::step(&world, &step, random)));
        plan.push(b'\n');
        lines += blank + 1;
    }
    plan.resize(plan.len() + ends.saturating_sub(lines), b'\n');
    let behind = ["", "", "\n", " ", "x", "\x7f", ";", "\r", "99999: (note a)"];
    plan.extend(random.pick(&behind).bytes());
    (draft(&world, &[], random), plan)
}
