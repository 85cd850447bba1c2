//! Random actions for a world whose initial state is known.

use super::invent::Shape;
use super::names::{fresh, fresh_variable};
use super::phrase::Scope;
use super::random::Random;
use super::world::{Action, Condition, Effect, Expression, Named, When, World, LARGEST};

/// Adds actions until there are so many.
pub fn add(world: &mut World, shape: &Shape, count: usize, random: &mut Random) {
    while world.actions.len() < count {
        let action = action(world, shape, random);
        world.actions.push(action);
    }
}

fn action(world: &World, shape: &Shape, random: &mut Random) -> Action {
    let name = fresh(random, &world.actions);
    let parameters = parameters(world, shape, random);
    let bound = binding(world, &parameters, random).unwrap_or_default();
    let scope = Scope {
        world,
        parameters: &parameters,
        objects: world.constants,
        bound: &bound,
        edge: shape.edge,
    };
    let duration = random.chance(55).then(|| duration(&scope, random));
    let conditions = conditions(&scope, shape.parts, duration.is_some(), random);
    let effects = effects(&scope, shape.parts, random);
    Action {
        name,
        duration,
        conditions,
        effects,
        parameters,
    }
}

fn parameters(world: &World, shape: &Shape, random: &mut Random) -> Vec<Named> {
    let mut list = Vec::new();
    for _ in 0..random.below(shape.parameters + 1) {
        let name = fresh_variable(random, &list);
        let any = world.objects.is_empty() || random.chance(20);
        let kind = match any {
            true => random.below(world.types.len()),
            false => random.pick(&world.objects).kind,
        };
        list.push(Named { name, kind });
    }
    list
}

/// At most so many conditions, and often one more over a durative action's whole time.
fn conditions(
    scope: &Scope,
    most: usize,
    durative: bool,
    random: &mut Random,
) -> Vec<(When, Condition)> {
    use When::{End, Start, Through};
    let mut list = Vec::new();
    for _ in 0..random.below(most + 1) {
        let when = *random.pick(&[Start, Start, Through, Through, End]);
        list.push((when, scope.condition(2, random)));
    }
    if durative && random.chance(35) {
        let watched = scope.watch(random);
        list.extend(watched.map(|condition| (Through, condition)));
    }
    list
}

/// At most so many effects, and now and then one more change of a number.
fn effects(scope: &Scope, most: usize, random: &mut Random) -> Vec<(When, Effect)> {
    let mut list = Vec::new();
    for _ in 0..random.below(most + 1) {
        let when = *random.pick(&[When::Start, When::End]);
        list.push((when, scope.effect(2, random)));
    }
    if random.chance(12) {
        let mut changes = list.iter();
        let again = changes.find_map(|(when, part)| Some((*when, scope.again(part, random)?)));
        list.extend(again);
    }
    list
}

/// Fitting objects for the parameters; none if a parameter has none.
pub fn binding(world: &World, parameters: &[Named], random: &mut Random) -> Option<Vec<usize>> {
    let mut bound = Vec::new();
    for parameter in parameters {
        let fitting = world.fitting(parameter.kind);
        if fitting.is_empty() {
            return None;
        }
        bound.push(*random.pick(&fitting));
    }
    Some(bound)
}

/// A duration rule's right side, mostly one that a plan line can meet.
fn duration(scope: &Scope, random: &mut Random) -> Expression {
    let depth = random.weighted(&[60, 25, 15]);
    let rule = scope.expression(depth, random);
    let value = scope.world.value(&rule, scope.bound);
    let usable = value.is_some_and(|value| (1..=LARGEST).contains(&value));
    if usable || random.chance(15) {
        rule
    } else {
        Expression::Number(500 * random.between(1, 8) as i64)
    }
}
