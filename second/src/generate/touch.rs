//! Steps that write what the `over all` conditions of another step read.

use super::acts::binding;
use super::random::Random;
use super::steps::Step;
use super::world::{Action, Atom, Condition, Effect, Expression, Term, When, World, LARGEST};

/// A fact or a number, ground or with parameters.
#[derive(Clone, PartialEq)]
enum Place {
    Fact(Atom),
    Number(Atom),
}

fn places_of(condition: &Condition, out: &mut Vec<Place>) {
    match condition {
        Condition::All(parts) => parts.iter().for_each(|part| places_of(part, out)),
        Condition::Not(part) => places_of(part, out),
        Condition::Fact(atom) => out.push(Place::Fact(atom.clone())),
        Condition::Same(..) => {}
        Condition::Compare(_, left, right) => {
            numbers_of(left, out);
            numbers_of(right, out);
        }
    }
}

fn numbers_of(expression: &Expression, out: &mut Vec<Place>) {
    match expression {
        Expression::Value(atom) => out.push(Place::Number(atom.clone())),
        Expression::Plus(left, right) | Expression::Minus(left, right) => {
            numbers_of(left, out);
            numbers_of(right, out);
        }
        Expression::Negative(part) => numbers_of(part, out),
        Expression::Number(_) | Expression::Raw(_) => {}
    }
}

fn written_by(effect: &Effect, out: &mut Vec<Place>) {
    match effect {
        Effect::All(parts) => parts.iter().for_each(|part| written_by(part, out)),
        Effect::Add(atom) | Effect::Delete(atom) => out.push(Place::Fact(atom.clone())),
        Effect::Change(_, atom, _) => out.push(Place::Number(atom.clone())),
    }
}

/// What the `over all` conditions of a step read.
fn watched(world: &World, step: &Step) -> Vec<Place> {
    let mut places = Vec::new();
    for (when, condition) in &world.actions[step.action].conditions {
        if *when == When::Through {
            places_of(condition, &mut places);
        }
    }
    let ground = |place| match place {
        Place::Fact(atom) => Place::Fact(world.ground(&atom, &step.objects)),
        Place::Number(atom) => Place::Number(world.ground(&atom, &step.objects)),
    };
    places.into_iter().map(ground).collect()
}

/// A step that writes at this time something that the other step watches.
pub fn touching(world: &World, other: &Step, time: i64, random: &mut Random) -> Option<Step> {
    let places = watched(world, other);
    let place = places.get(random.below(places.len()))?;
    let mut ways = Vec::new();
    for (index, action) in world.actions.iter().enumerate() {
        for (when, effect) in &action.effects {
            let mut written = Vec::new();
            written_by(effect, &mut written);
            let meets = |pattern: &Place| bound_so(world, action, pattern, place, random);
            let bound = written.iter().find_map(meets);
            ways.extend(bound.map(|objects| (index, *when, objects)));
        }
    }
    let (action, when, objects) = ways.get(random.below(ways.len()))?.clone();
    let rule = world.actions[action].duration.as_ref();
    let duration = rule.map(|rule| {
        let value = world.value(rule, &objects).unwrap_or(0);
        value.clamp(1, LARGEST)
    });
    let before = match when {
        When::End => duration.unwrap_or(0),
        _ => 0,
    };
    let start = time.checked_sub(before).filter(|start| *start >= 0)?;
    Some(Step {
        start,
        action,
        objects,
        duration,
    })
}

/// Objects for the action with which the pattern is that place.
fn bound_so(
    world: &World,
    action: &Action,
    pattern: &Place,
    place: &Place,
    random: &mut Random,
) -> Option<Vec<usize>> {
    let (pattern, ground) = match (pattern, place) {
        (Place::Fact(pattern), Place::Fact(ground)) => (pattern, ground),
        (Place::Number(pattern), Place::Number(ground)) => (pattern, ground),
        _ => return None,
    };
    let mut bound = binding(world, &action.parameters, random)?;
    for (term, object) in pattern.terms.iter().zip(&ground.terms) {
        if let (Term::Parameter(index), Term::Object(object)) = (term, object) {
            bound[*index] = *object;
        }
    }
    let fits = |(index, object): (usize, &usize)| {
        world.fits(world.objects[*object].kind, action.parameters[index].kind)
    };
    let fit = bound.iter().enumerate().all(fits) && world.ground(pattern, &bound) == *ground;
    fit.then_some(bound)
}
