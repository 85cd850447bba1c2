//! Faults of plan lines: starts out of order, wrong brackets or arguments, lines that break off.

use super::damage;
use super::pool::PLAN;
use super::random::Random;
use super::steps::Step;
use super::world::World;
use super::{write, Draft};

/// Spoils one line of the plan.
pub fn spoil(draft: &mut Draft, random: &mut Random) {
    if draft.plan.is_empty() {
        draft.plan.push(vec![random.phrase(PLAN).to_string()]);
    }
    let index = random.below(draft.plan.len());
    if random.chance(12) {
        return across(&mut draft.plan, index, random);
    }
    let line = &mut draft.plan[index];
    if random.chance(8) && !line.is_empty() {
        line[0] = "0".to_string();
    }
    match random.weighted(&[27, 10, 24, 19, 10, 7, 7]) {
        0 => damage::token(line, PLAN, random),
        1 => damage::alike(line, random),
        2 => damage::worsened(line, random),
        3 => bracket(line, random),
        4 => line.truncate(random.below(line.len() + 1)),
        5 => line.extend(words(random.phrase(PLAN))),
        _ => {
            let other = draft.domain.get(random.below(draft.domain.len()));
            let place = random.below(line.len());
            line.splice(place..line.len().min(place + 1), other.cloned());
        }
    }
}

fn words(phrase: &str) -> impl Iterator<Item = String> + '_ {
    phrase.split_whitespace().map(String::from)
}

/// Changes what stands after the step's round brackets.
fn bracket(line: &mut Vec<String>, random: &mut Random) {
    const BRACKETS: &str = "\
        ; [ 0 ]; [ 0.000 ]; [ 000000000.0 ]; [ ]; [ 5; [; [ 5 5 ]; [ 5 ] [ 5 ]; [ -5 ]; [ a ]; 5; \
        ] 5 [; ( 5 ); [ ( 5 ) ]; [ 5 ] x; [ 0; [ 5. ]; [ : ]; [ 5 ); [ 0.0001 ]; [ 1234567890 ]; \
        [ 0 0 ]; [ [ 5 ] ]; [ 5 : ]; [ ?x ]; [ 0 x; [ -0 ]; [ 0.001 ]; [ 999999999.999 ]; [ 1 ]";
    let closed = line.iter().position(|token| token == ")");
    line.truncate(closed.map_or(line.len(), |place| place + 1));
    line.extend(words(random.phrase(BRACKETS)));
}

/// Faults that take two lines: order of starts, one step over two lines, two on one, one twice.
fn across(plan: &mut Vec<Vec<String>>, index: usize, random: &mut Random) {
    let other = random.below(plan.len());
    match random.below(4) {
        0 => plan.swap(index, other),
        1 => {
            let place = random.below(plan[index].len() + 1);
            let rest = plan[index].split_off(place);
            plan.insert(index + 1, rest);
        }
        2 => {
            let copy = plan[other].clone();
            plan[index].extend(copy);
        }
        _ => plan.insert(index, plan[other].clone()),
    }
}

/// The steps' lines, one of them changed so that it keeps its form but breaks a rule of steps.
pub fn misstep(world: &World, steps: &[Step], random: &mut Random) -> Vec<Vec<String>> {
    let index = random.below(steps.len());
    let mut steps = steps.to_vec();
    let previous = index.checked_sub(1).map_or(0, |place| steps[place].start);
    if let Some(step) = steps.get_mut(index) {
        match random.weighted(&[30, 25, 25, 20]) {
            0 => step.start = *random.pick(&[previous - 1, previous - 1, previous / 2, 0]),
            1 => step.duration = step.duration.map_or(Some(5000), |_| None),
            2 => misfit(world, step, random),
            _ => miscount(world, step, random),
        }
        step.start = step.start.max(0);
    }
    steps
        .iter()
        .map(|step| write::step(world, step, random))
        .collect()
}

/// Another object for one parameter, one that does not fit if there is one.
fn misfit(world: &World, step: &mut Step, random: &mut Random) {
    let place = random.below(step.objects.len());
    let Some(object) = step.objects.get_mut(place) else {
        return;
    };
    let fitting = world.fitting(world.actions[step.action].parameters[place].kind);
    let unfit = |object: &usize| !fitting.contains(object);
    let others: Vec<usize> = (0..world.objects.len()).filter(unfit).collect();
    *object = *random.pick(if others.is_empty() { &fitting } else { &others });
}

/// One object less or more.
fn miscount(world: &World, step: &mut Step, random: &mut Random) {
    let place = random.below(step.objects.len() + 1);
    if place < step.objects.len() && random.chance(50) {
        step.objects.remove(place);
    } else if !world.objects.is_empty() {
        let object = random.below(world.objects.len());
        step.objects.insert(place, object);
    }
}
