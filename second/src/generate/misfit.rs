//! Worlds that break one rule of declared names: given twice, undeclared, miscounted or ill-typed.

use super::pool::LISTED;
use super::random::Random;
use super::world::{names_of, Atom, Condition, Effect, Expression, Term, When, World, UNDECLARED};

/// Breaks one rule. Afterwards the world is fit for writing only.
pub fn misfit(world: &mut World, random: &mut Random) {
    match random.weighted(&[13, 4, 5, 12, 40, 26]) {
        0 => twice(world, random),
        1 => late_parent(world, random),
        2 => number_twice(world, random),
        3 => misnamed(world, random),
        4 => of_actions(world, random),
        _ => of_problem(world, random),
    }
}

/// Gives two things of one sort the same name; the second may have a further fault after it.
fn twice(world: &mut World, random: &mut Random) {
    let action = random.below(world.actions.len());
    match random.below(6) {
        0 => rename(names_of(&mut world.types), random),
        1 => rename(names_of(&mut world.objects), random),
        2 => rename(names_of(&mut world.predicates), random),
        3 => rename(names_of(&mut world.functions), random),
        4 => rename(names_of(&mut world.actions), random),
        _ => match world.actions.get_mut(action) {
            Some(action) => rename(names_of(&mut action.parameters), random),
            None => return,
        },
    }
    if random.chance(25) {
        overload(world);
    }
}

/// Gives a later one the name of an earlier one.
fn rename(mut names: Vec<&mut String>, random: &mut Random) {
    let (first, second) = (random.below(names.len()), random.below(names.len()));
    if first != second {
        *names[first.max(second)] = names[first.min(second)].clone();
    }
}

/// A fault in the last predicate, the last function and the last action.
fn overload(world: &mut World) {
    for heads in [&mut world.predicates, &mut world.functions] {
        if let Some(head) = heads.last_mut() {
            head.wants.extend([0; 4]);
        }
    }
    if let Some(action) = world.actions.last_mut() {
        action.effects.push((When::Start, Effect::Add(UNDECLARED)));
    }
}

/// Gives a thing a name that is a word of the language.
fn misnamed(world: &mut World, random: &mut Random) {
    let mut names = world.names();
    let place = random.below(names.len());
    *names[place] = random.word(LISTED).to_string();
}

/// A type below itself or below one that comes later.
fn late_parent(world: &mut World, random: &mut Random) {
    let count = world.types.len();
    if count > 1 {
        let child = random.between(1, count - 1);
        world.types[child].kind = random.between(child, count - 1);
    }
}

fn number_twice(world: &mut World, random: &mut Random) {
    if !world.numbers.is_empty() {
        let again = random.pick(&world.numbers).clone();
        world.numbers.push(again);
    }
}

fn of_actions(world: &mut World, random: &mut Random) {
    let index = random.below(world.actions.len());
    let constants = world.constants;
    let Some(action) = world.actions.get_mut(index) else {
        return;
    };
    let parameters = action.parameters.len();
    let mut atoms = Vec::new();
    if let Some(rule) = &mut action.duration {
        in_expression(rule, &mut atoms);
    }
    for (_, condition) in &mut action.conditions {
        in_condition(condition, &mut atoms);
    }
    for (_, effect) in &mut action.effects {
        in_effect(effect, &mut atoms);
    }
    spoil(atoms, constants, parameters, random);
}

fn of_problem(world: &mut World, random: &mut Random) {
    let mut atoms = Vec::new();
    atoms.extend(world.facts.iter_mut());
    atoms.extend(world.numbers.iter_mut().map(|(atom, _)| atom));
    for condition in &mut world.goal {
        in_condition(condition, &mut atoms);
    }
    spoil(atoms, world.objects.len(), 0, random);
}

/// Changes one of the atoms, where so many objects and parameters may be named.
fn spoil(mut atoms: Vec<&mut Atom>, objects: usize, parameters: usize, random: &mut Random) {
    let mut terms: Vec<Term> = (0..objects).map(Term::Object).collect();
    terms.extend((0..parameters).map(Term::Parameter));
    if terms.is_empty() || random.chance(15) {
        terms = vec![Term::Object(objects), Term::Parameter(parameters)];
    }
    let term = *random.pick(&terms);
    let change = random.weighted(&[7, 10, 18, 14, 51]);
    if change > 2 {
        atoms.retain(|atom| !atom.terms.is_empty());
    }
    let index = random.below(atoms.len());
    let Some(atom) = atoms.get_mut(index) else {
        return;
    };
    let place = random.below(atom.terms.len());
    match change {
        0 => atom.head = usize::MAX,
        1 => atom.head = random.below(5),
        2 => atom.terms.insert(place, term),
        3 => {
            atom.terms.remove(place);
        }
        _ => atom.terms[place] = term,
    }
}

fn in_condition<'a>(condition: &'a mut Condition, atoms: &mut Vec<&'a mut Atom>) {
    match condition {
        Condition::All(parts) => parts.iter_mut().for_each(|part| in_condition(part, atoms)),
        Condition::Not(part) => in_condition(part, atoms),
        Condition::Fact(atom) => atoms.push(atom),
        Condition::Same(..) => {}
        Condition::Compare(_, left, right) => {
            in_expression(left, atoms);
            in_expression(right, atoms);
        }
    }
}

fn in_effect<'a>(effect: &'a mut Effect, atoms: &mut Vec<&'a mut Atom>) {
    match effect {
        Effect::All(parts) => parts.iter_mut().for_each(|part| in_effect(part, atoms)),
        Effect::Add(atom) | Effect::Delete(atom) => atoms.push(atom),
        Effect::Change(_, atom, right) => {
            atoms.push(atom);
            in_expression(right, atoms);
        }
    }
}

fn in_expression<'a>(expression: &'a mut Expression, atoms: &mut Vec<&'a mut Atom>) {
    match expression {
        Expression::Number(_) | Expression::Raw(_) => {}
        Expression::Value(atom) => atoms.push(atom),
        Expression::Plus(left, right) | Expression::Minus(left, right) => {
            in_expression(left, atoms);
            in_expression(right, atoms);
        }
        Expression::Negative(part) => in_expression(part, atoms),
    }
}
