//! Plans for a world: steps found by asking the checker, so that a plan is valid or fails late,
//! and a goal that the last state meets, or nearly.

use super::acts::binding;
use super::layout::plain;
use super::phrase::Scope;
use super::random::Random;
use super::world::{Condition, World, LARGEST};
use super::{write, Draft};

#[derive(Clone)]
pub struct Step {
    pub start: i64,
    pub action: usize,
    pub objects: Vec<usize>,
    pub duration: Option<i64>,
}

impl Step {
    pub fn end(&self) -> i64 {
        self.start + self.duration.unwrap_or(0)
    }
}

/// The verdicts to look for.
const WANTED: &[&str] = &[
    "valid",
    "duration",
    "condition",
    "undefined",
    "range",
    "itself",
    "conflict",
    "invariant",
];
/// How often each is looked for, and how often among numbers near the ends of the range.
const WEIGHTS: &[usize] = &[50, 5, 4, 7, 2, 11, 9, 12];
const EDGE_WEIGHTS: &[usize] = &[32, 2, 3, 22, 34, 3, 2, 2];

/// How often a new step is tried in search of the wanted verdict.
const TRIES: usize = 24;

/// A draft of the world with a plan and a goal that fit it.
pub fn told(mut world: World, edge: bool, random: &mut Random) -> Draft {
    let wanted = WANTED[random.weighted(if edge { EDGE_WEIGHTS } else { WEIGHTS })];
    let mut steps = search(&world, wanted, random);
    aim(&mut world, &steps, wanted == "valid", edge, random);
    if wanted != "valid" || random.chance(15) {
        pile(&world, &mut steps, random);
    }
    draft(&world, &steps, random)
}

/// Further steps that nobody has asked about, half the time all at the instant of the last one.
fn pile(world: &World, steps: &mut Vec<Step>, random: &mut Random) {
    let instant = steps
        .last()
        .map(|step| step.start)
        .filter(|_| random.chance(50));
    for _ in 0..random.below(5) {
        let Some(mut step) = propose(world, steps, random) else {
            return;
        };
        step.start = instant.unwrap_or(step.start);
        steps.push(step);
    }
}

pub fn draft(world: &World, steps: &[Step], random: &mut Random) -> Draft {
    Draft {
        domain: write::domain(world, random),
        problem: write::problem(world, random),
        plan: steps
            .iter()
            .map(|step| write::step(world, step, random))
            .collect(),
    }
}

/// Steps that pass one after the other, the last one perhaps failing as wanted.
fn search(world: &World, wanted: &str, random: &mut Random) -> Vec<Step> {
    let domain = plain(&write::domain(world, random));
    let problem = plain(&write::problem(world, random));
    let (mut steps, mut text) = (Vec::new(), Vec::new());
    let least = random.below(if wanted == "valid" { 10 } else { 6 });
    for tried in 0..TRIES {
        let Some(step) = propose(world, &steps, random) else {
            break;
        };
        let kept = text.len();
        text.extend(plain(&write::step(world, &step, random)));
        text.push(b'\n');
        steps.push(step);
        let word = verdict(&domain, &problem, &text);
        let late = steps.len() > least || (wanted != "valid" && tried > TRIES / 3);
        if (word == wanted && late) || word == "refused" {
            break;
        }
        if word != "valid" {
            text.truncate(kept);
            steps.pop();
        }
    }
    steps
}

/// The first word of the checker's answer.
fn verdict(domain: &[u8], problem: &[u8], plan: &[u8]) -> String {
    let line = crate::answer(domain, problem, plan).line;
    line.split(' ').next().unwrap_or_default().to_string()
}

/// A further step at or after the last one's start; none if no action can be used.
pub fn propose(world: &World, steps: &[Step], random: &mut Random) -> Option<Step> {
    for _ in 0..6 {
        let action = random.below(world.actions.len());
        let form = world.actions.get(action)?;
        let Some(objects) = binding(world, &form.parameters, random) else {
            continue;
        };
        let duration = form.duration.as_ref().map(|rule| {
            let value = world.value(rule, &objects);
            let usable = value.filter(|value| (1..=LARGEST).contains(value));
            match usable {
                Some(value) if random.chance(94) => value,
                _ => 500 * random.between(1, 12) as i64,
            }
        });
        let start = start(steps, random);
        return Some(Step {
            start,
            action,
            objects,
            duration,
        });
    }
    None
}

/// The last start, a little later, or at, just before or just after an end still to come.
fn start(steps: &[Step], random: &mut Random) -> i64 {
    let Some(last) = steps.last().map(|step| step.start) else {
        return *random.pick(&[0, 0, 0, 0, 1, 1000, 12_500, LARGEST - 3000]);
    };
    let start = match random.weighted(&[32, 10, 30, 28]) {
        0 => last,
        1 => last + 1,
        2 => random.pick(steps).end() + *random.pick(&[0, 0, 0, 0, -1, 1]),
        _ => last + 500 * random.between(1, 6) as i64,
    };
    start.clamp(last, LARGEST)
}

/// Sets a goal if there is none; if `met`, condition by condition one that holds in the end, with
/// few exceptions.
pub fn aim(world: &mut World, steps: &[Step], met: bool, edge: bool, random: &mut Random) {
    if !world.goal.is_empty() {
        return;
    }
    let domain = plain(&write::domain(world, random));
    let mut text = Vec::new();
    for step in steps {
        text.extend(plain(&write::step(world, step, random)));
        text.push(b'\n');
    }
    for _ in 0..random.weighted(&[15, 30, 25, 15, 10, 5]) {
        let condition = Scope::of_problem(world, edge).condition(2, random);
        world.goal.push(condition.clone());
        if !met {
            continue;
        }
        let problem = plain(&write::problem(world, random));
        match &verdict(&domain, &problem, &text)[..] {
            "valid" => {}
            _ if random.chance(10) => return,
            "goal" => {
                world.goal.pop();
                world.goal.extend(opposite(condition));
            }
            _ => {
                world.goal.pop();
            }
        }
    }
}

/// The negation of a condition; none for an `and`.
fn opposite(condition: Condition) -> Option<Condition> {
    match condition {
        Condition::All(_) => None,
        Condition::Not(part) => Some(*part),
        single => Some(Condition::Not(Box::new(single))),
    }
}
