//! Worlds whose actions, expressions, brackets, names or goal stand at their limit or just past it.

use super::acts;
use super::names::{fresh, fresh_variable, long};
use super::phrase::{joined, Scope};
use super::random::Random;
use super::sizes::{surplus, Growth, SMALL};
use super::world::{
    Action, Atom, Condition, Effect, Expression, Head, Named, When, World, UNDECLARED,
};

/// Sizes that grow after the actions are made.
pub const AFTER: &[Growth] = &[
    names, actions, parameters, conditions, effects, goal, expression, expression, depth, depth,
];

const WHENS: &[When] = &[When::Start, When::Through, When::End];

/// An atom of a head without arguments, which is added if there is none.
fn bare(heads: &mut Vec<Head>, random: &mut Random) -> Atom {
    let known = heads.iter().position(|head| head.wants.is_empty());
    let head = known.unwrap_or_else(|| {
        let name = fresh(random, heads);
        let wants = Vec::new();
        heads.push(Head { name, wants });
        heads.len() - 1
    });
    let terms = Vec::new();
    Atom { head, terms }
}

fn scope<'a>(world: &'a World, action: &'a Action) -> Scope<'a> {
    Scope {
        world,
        parameters: &action.parameters,
        objects: world.constants,
        bound: &[],
        edge: false,
    }
}

fn names(world: &mut World, over: usize, random: &mut Random) {
    let mut names = world.names();
    let place = random.below(names.len());
    *names[place] = long(random, 32 + over.min(1));
}

fn actions(world: &mut World, over: usize, random: &mut Random) {
    acts::add(world, &SMALL, 32 + over, random);
    let given = world.actions[0].name.clone();
    if let Some(extra) = world.actions.get_mut(32) {
        surplus(&mut extra.name, &given, random);
        if random.chance(25) {
            extra.effects.push((When::Start, Effect::Add(UNDECLARED)));
        }
    }
}

fn any_action(world: &World, random: &mut Random) -> usize {
    random.below(world.actions.len())
}

fn parameters(world: &mut World, over: usize, random: &mut Random) {
    let index = any_action(world, random);
    let list = &mut world.actions[index].parameters;
    while list.len() < 4 + over {
        let name = fresh_variable(random, list);
        list.push(Named { name, kind: 0 });
    }
    let given = list[0].name.clone();
    if let Some(extra) = list.get_mut(4) {
        if random.chance(20) {
            extra.name = given;
        }
    }
}

fn leaves(condition: &Condition) -> usize {
    match condition {
        Condition::All(parts) => parts.iter().map(leaves).sum(),
        _ => 1,
    }
}

/// Single conditions that hold, so many and `over` more, some under `and`; the first one over may
/// have an undeclared name for its head or after it.
fn fillers(count: usize, over: usize, random: &mut Random) -> Vec<Condition> {
    let number = Expression::Number;
    let mut list: Vec<Condition> = Vec::new();
    for index in 0..count + over {
        let filler = match random.below(4) {
            _ if index == count && random.chance(25) => Condition::Fact(UNDECLARED),
            _ if index == count && random.chance(25) => {
                Condition::Compare("<", Expression::Value(UNDECLARED), number(1))
            }
            0 => Condition::Compare("<", number(0), number(1)),
            1 => Condition::Compare("=", number(-500), number(-500)),
            2 => Condition::Compare(">=", number(7), number(7)),
            _ => Condition::Not(Box::new(Condition::Compare(
                ">",
                number(1000),
                number(1000),
            ))),
        };
        list.push(filler);
        if random.chance(10) {
            let tail = list.split_off(random.below(list.len()));
            list.push(Condition::All(tail));
        }
    }
    list
}

fn conditions(world: &mut World, over: usize, random: &mut Random) {
    let index = any_action(world, random);
    let list = &mut world.actions[index].conditions;
    let present: usize = list.iter().map(|(_, part)| leaves(part)).sum();
    let more = fillers(32 - present, over, random);
    list.extend(more.into_iter().map(|part| (*random.pick(WHENS), part)));
}

fn goal(world: &mut World, over: usize, random: &mut Random) {
    world.goal = fillers(64, over, random);
}

fn writes(effect: &Effect) -> usize {
    match effect {
        Effect::All(parts) => parts.iter().map(writes).sum(),
        _ => 1,
    }
}

fn effects(world: &mut World, over: usize, random: &mut Random) {
    let index = any_action(world, random);
    let mark = bare(&mut world.predicates, random);
    let mut list = world.actions[index].effects.clone();
    let present: usize = list.iter().map(|(_, part)| writes(part)).sum();
    for place in present..16 + over {
        let effect = match scope(world, &world.actions[index]).effect(0, random) {
            _ if place == 16 && random.chance(30) => Effect::Delete(UNDECLARED),
            _ if place == 16 && random.chance(50) => {
                Effect::Change("increase", UNDECLARED, Expression::Number(1))
            }
            Effect::All(_) | Effect::Change("assign", ..) => Effect::Add(mark.clone()),
            other => other,
        };
        list.push((*random.pick(&[When::Start, When::End]), effect));
    }
    world.actions[index].effects = list;
}

/// An expression of exactly so many operators and operands.
fn tree(scope: &Scope, nodes: usize, random: &mut Random) -> Expression {
    match nodes {
        0 | 1 => scope.expression(0, random),
        2 => Expression::Negative(Box::new(tree(scope, 1, random))),
        _ if random.chance(20) => Expression::Negative(Box::new(tree(scope, nodes - 1, random))),
        _ => {
            let first = random.between(1, nodes - 2);
            let left = tree(scope, first, random);
            let right = tree(scope, nodes - 1 - first, random);
            joined(left, right, random)
        }
    }
}

/// The operand written last.
fn last(expression: &mut Expression) -> &mut Expression {
    match expression {
        Expression::Plus(_, part) | Expression::Minus(_, part) => last(part),
        Expression::Negative(part) => last(part),
        operand => operand,
    }
}

fn expression(world: &mut World, over: usize, random: &mut Random) {
    let index = any_action(world, random);
    let level = bare(&mut world.functions, random);
    let mut large = tree(&scope(world, &world.actions[index]), 16 + over, random);
    match random.below(10) {
        0 | 1 => *last(&mut large) = Expression::Value(UNDECLARED),
        2 | 3 => *last(&mut large) = Expression::Raw("5 5"),
        _ => {}
    }
    let action = &mut world.actions[index];
    let other = Expression::Number(9_000_000);
    match random.below(4) {
        0 if action.duration.is_some() => action.duration = Some(large),
        1 => action
            .effects
            .push((When::End, Effect::Change("increase", level, large))),
        2 => {
            let condition = Condition::Compare("<=", large, other);
            action.conditions.push((*random.pick(WHENS), condition));
        }
        _ => {
            let condition = Condition::Compare(">=", other, large);
            action.conditions.push((*random.pick(WHENS), condition));
        }
    }
}

/// Brackets near their greatest depth, in an action or in the goal.
fn depth(world: &mut World, _over: usize, random: &mut Random) {
    let index = any_action(world, random);
    let mark = bare(&mut world.predicates, random);
    let times = random.between(9, 15);
    match random.below(3) {
        0 => world.goal.push(deep(mark, times, random)),
        1 => {
            let part = (*random.pick(WHENS), deep(mark, times, random));
            world.actions[index].conditions.push(part);
        }
        _ => {
            let wrap = |part, _| Effect::All(vec![part]);
            let effect = (0..times).fold(Effect::Add(mark), wrap);
            world.actions[index].effects.push((When::End, effect));
        }
    }
}

/// A condition of so many brackets around a fact, an empty `and` or, counting its signs, a number.
fn deep(mark: Atom, times: usize, random: &mut Random) -> Condition {
    let wrap = |part, _| Condition::All(vec![part]);
    let signed = |part, _| Expression::Negative(Box::new(part));
    match random.below(3) {
        0 => (0..times).fold(Condition::All(Vec::new()), wrap),
        1 => (0..times).fold(Condition::Not(Box::new(Condition::Fact(mark))), wrap),
        _ => {
            let signs = random.below(times.min(13));
            let number = (0..signs).fold(Expression::Number(0), signed);
            let single = Condition::Compare("=", number, Expression::Number(0));
            (signs..times).fold(single, wrap)
        }
    }
}
