//! Random terms, expressions, conditions and effects for one action or for the goal.

use super::names::amount;
use super::random::Random;
use super::world::{Atom, Condition, Effect, Expression, Head, Named, Term, World, LARGEST};

/// What a phrase may speak of, and one binding for which conditions are made to hold at first.
pub struct Scope<'a> {
    pub world: &'a World,
    pub parameters: &'a [Named],
    /// Only the first so many objects may be named.
    pub objects: usize,
    pub bound: &'a [usize],
    pub edge: bool,
}

impl<'a> Scope<'a> {
    /// All objects and no parameters, as in init and goal.
    pub fn of_problem(world: &'a World, edge: bool) -> Self {
        Scope {
            world,
            parameters: &[],
            objects: world.objects.len(),
            bound: &[],
            edge,
        }
    }

    /// A term of the wanted kind, a parameter rather than an object.
    fn term(&self, wanted: usize, random: &mut Random) -> Option<Term> {
        let fits = |named: &Named| self.world.fits(named.kind, wanted);
        let mut terms = Vec::new();
        for (index, parameter) in self.parameters.iter().enumerate() {
            if fits(parameter) {
                terms.push(Term::Parameter(index));
            }
        }
        if terms.is_empty() || random.chance(15) {
            let objects = self.world.objects[..self.objects].iter().enumerate();
            terms.extend(
                objects
                    .filter(|(_, object)| fits(object))
                    .map(|(index, _)| Term::Object(index)),
            );
        }
        (!terms.is_empty()).then(|| *random.pick(&terms))
    }

    /// One of the heads with fitting terms, if one is found.
    fn atom(&self, heads: &[Head], random: &mut Random) -> Option<Atom> {
        for _ in 0..4 {
            let head = random.below(heads.len());
            let wants = &heads.get(head)?.wants;
            let terms = wants.iter().map(|kind| self.term(*kind, random));
            if let Some(terms) = terms.collect::<Option<_>>() {
                return Some(Atom { head, terms });
            }
        }
        None
    }

    pub fn expression(&self, depth: usize, random: &mut Random) -> Expression {
        let part = |random: &mut Random| self.expression(depth - 1, random);
        let compound = if depth == 0 { 0 } else { 15 };
        let (limit, fault) = if self.edge { (12, compound) } else { (0, 0) };
        match random.weighted(&[40, 45, 2 * compound, compound, limit, fault]) {
            1 => match self.atom(&self.world.functions, random) {
                Some(atom) => Expression::Value(atom),
                None => Expression::Number(amount(random, self.edge)),
            },
            2 => joined(part(random), part(random), random),
            3 => Expression::Negative(Box::new(part(random))),
            4 => limit_sum(random),
            5 => joined(self.faulty(random), self.faulty(random), random),
            _ => Expression::Number(amount(random, self.edge)),
        }
    }

    /// A number that is undefined at first, if one is found.
    fn undefined(&self, random: &mut Random) -> Option<Atom> {
        for _ in 0..4 {
            let atom = self.atom(&self.world.functions, random)?;
            let value = Expression::Value(atom.clone());
            if self.world.value(&value, self.bound).is_none() {
                return Some(atom);
            }
        }
        None
    }

    /// An expression that is undefined at first, or one that leaves the range.
    fn faulty(&self, random: &mut Random) -> Expression {
        match self.undefined(random).filter(|_| random.chance(60)) {
            Some(atom) => Expression::Value(atom),
            None => Expression::Plus(
                Box::new(Expression::Number(LARGEST)),
                Box::new(Expression::Number(2)),
            ),
        }
    }

    /// A condition of at most two parts a level, mostly made to hold at first for the binding.
    pub fn condition(&self, depth: usize, random: &mut Random) -> Condition {
        let nested = if depth == 0 { 0 } else { 14 };
        let condition = match random.weighted(&[36, 27, 7, 20, nested]) {
            0 => self
                .atom(&self.world.predicates, random)
                .map(Condition::Fact),
            1 => Some(self.comparison(random)),
            2 => self.equality(random),
            3 => self.guard(random),
            _ => {
                let count = random.below(3);
                return Condition::All(
                    (0..count)
                        .map(|_| self.condition(depth - 1, random))
                        .collect(),
                );
            }
        };
        let condition = condition.unwrap_or_else(|| self.comparison(random));
        self.leaning(condition, random)
    }

    /// A condition that mostly holds at first, on what an action known so far writes.
    pub fn watch(&self, random: &mut Random) -> Option<Condition> {
        let guard = self.guard(random)?;
        Some(self.leaning(guard, random))
    }

    fn guard(&self, random: &mut Random) -> Option<Condition> {
        let actions = &self.world.actions;
        let effects = &actions.get(random.below(actions.len()))?.effects;
        match &effects.get(random.below(effects.len()))?.1 {
            Effect::All(_) => None,
            Effect::Add(atom) | Effect::Delete(atom) => Some(Condition::Fact(self.like(
                &self.world.predicates,
                atom,
                random,
            )?)),
            Effect::Change(_, atom, _) => {
                let number = self.like(&self.world.functions, atom, random)?;
                Some(self.compared(Expression::Value(number), random))
            }
        }
    }

    /// An atom of the same head.
    fn like(&self, heads: &[Head], atom: &Atom, random: &mut Random) -> Option<Atom> {
        let head = atom.head;
        let wants = heads.get(head)?.wants.iter();
        let terms = wants
            .map(|kind| self.term(*kind, random))
            .collect::<Option<_>>()?;
        Some(Atom { head, terms })
    }

    /// The condition or its negation: mostly that which holds at first.
    fn leaning(&self, condition: Condition, random: &mut Random) -> Condition {
        let wrong = match self.world.holds(&condition, self.bound) {
            Some(holds) => !holds,
            None if !self.edge && random.chance(60) => return Condition::All(Vec::new()),
            None => false,
        };
        if wrong != random.chance(10) {
            Condition::Not(Box::new(condition))
        } else {
            condition
        }
    }

    fn equality(&self, random: &mut Random) -> Option<Condition> {
        Some(Condition::Same(
            self.term(0, random)?,
            self.term(0, random)?,
        ))
    }

    fn comparison(&self, random: &mut Random) -> Condition {
        // Near the ends of the range an operand may be a sum of its own: one level less.
        let deepest = if self.edge { 2 } else { 3 };
        let depth = random.weighted(&[55, 25, 15, 5]).min(deepest);
        self.compared(self.expression(depth, random), random)
    }

    /// The expression compared, often with just the value that it has at first.
    fn compared(&self, left: Expression, random: &mut Random) -> Condition {
        let operator = random.word("= < <= > >=");
        let depth = random.weighted(&[70, 20, 10]);
        let known = self
            .world
            .value(&left, self.bound)
            .filter(|value| value.abs() <= LARGEST);
        match known {
            Some(value) if random.chance(40) => {
                Condition::Compare(operator, left, Expression::Number(value))
            }
            _ => Condition::Compare(operator, left, self.expression(depth, random)),
        }
    }

    /// An effect of at most two parts a level.
    pub fn effect(&self, depth: usize, random: &mut Random) -> Effect {
        let nested = match (depth, self.edge) {
            (0, _) => 0,
            (_, false) => 12,
            (_, true) => 24,
        };
        match random.weighted(&[28, 24, 40, nested]) {
            3 if self.edge && random.chance(70) => {
                Effect::All((0..2).filter_map(|_| self.change(random)).collect())
            }
            3 => {
                let count = random.below(3);
                Effect::All((0..count).map(|_| self.effect(depth - 1, random)).collect())
            }
            2 => self.change(random).unwrap_or(Effect::All(Vec::new())),
            kind => match self.atom(&self.world.predicates, random) {
                Some(atom) if kind == 0 => Effect::Add(atom),
                Some(atom) => Effect::Delete(atom),
                None => self.change(random).unwrap_or(Effect::All(Vec::new())),
            },
        }
    }

    /// For a change of a number one more of the same function, perhaps of the same number.
    pub fn again(&self, effect: &Effect, random: &mut Random) -> Option<Effect> {
        let Effect::Change(_, atom, _) = effect else {
            return None;
        };
        let other = match random.chance(60) {
            true => self.like(&self.world.functions, atom, random)?,
            false => atom.clone(),
        };
        let word = random.word("assign increase decrease");
        Some(Effect::Change(word, other, self.expression(0, random)))
    }

    fn change(&self, random: &mut Random) -> Option<Effect> {
        let word = random.word("assign increase increase decrease");
        let fault = self.edge && random.chance(20);
        let undefined = if fault && random.chance(60) {
            self.undefined(random)
        } else {
            None
        };
        let atom = undefined.or_else(|| self.atom(&self.world.functions, random))?;
        if fault && random.chance(60) {
            return Some(Effect::Change(word, atom, self.faulty(random)));
        }
        let depth = random.weighted(&[60, 25, 15]);
        Some(Effect::Change(word, atom, self.expression(depth, random)))
    }
}

/// The sum of two expressions or their difference.
pub fn joined(left: Expression, right: Expression, random: &mut Random) -> Expression {
    match random.chance(50) {
        true => Expression::Plus(Box::new(left), Box::new(right)),
        false => Expression::Minus(Box::new(left), Box::new(right)),
    }
}

/// A sum or difference that comes to an end of the range or to just past it.
fn limit_sum(random: &mut Random) -> Expression {
    let rest = Box::new(Expression::Number(*random.pick(&[1, 1, 2])));
    match random.chance(50) {
        true => Expression::Plus(Box::new(Expression::Number(LARGEST)), rest),
        false => Expression::Minus(Box::new(Expression::Number(-LARGEST)), rest),
    }
}
