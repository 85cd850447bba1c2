//! Random phrases of one action in a world whose predicates and functions have roles.

use super::phrase::joined;
use super::random::Random;
use super::roles::{Role, Stage, ALL};
use super::world::{Atom, Condition, Effect, Expression, Head, Named, Term, When, LARGEST};

const READING: &[Role] = &[Role::Read, Role::Own];
const WRITING: &[Role] = &[Role::Given, Role::Taken, Role::Own];

/// The world of an action that keeps to the roles, or, if it spoils, takes every role for `Own`.
pub struct Scene<'a> {
    pub stage: &'a Stage,
    pub parameters: &'a [Named],
    pub bound: &'a [usize],
    pub spoils: bool,
}

impl Scene<'_> {
    /// A parameter that fits, or a constant.
    fn term(&self, wanted: usize, random: &mut Random) -> Option<Term> {
        let world = &self.stage.world;
        let fits = |named: &Named| world.fits(named.kind, wanted);
        let of = |list: &[Named], term: fn(usize) -> Term| -> Vec<Term> {
            let fitting = (0..list.len()).filter(|index| fits(&list[*index]));
            fitting.map(term).collect()
        };
        let parameters = of(self.parameters, Term::Parameter);
        let constants = of(&world.objects[..world.constants], Term::Object);
        let named = parameters.is_empty() || random.chance(20);
        let terms = match named && !constants.is_empty() {
            true => constants,
            false => parameters,
        };
        (!terms.is_empty()).then(|| *random.pick(&terms))
    }

    /// An atom of a head with one of these roles, rather of one with more arguments.
    fn atom(
        &self,
        heads: &[Head],
        roles: &[Role],
        used: &[Role],
        random: &mut Random,
    ) -> Option<Atom> {
        let mut best: Option<Atom> = None;
        for _ in 0..4 {
            let head = random.below(heads.len());
            if !self.spoils && !used.contains(&roles[head]) {
                continue;
            }
            let wants = heads[head].wants.iter();
            let terms: Option<Vec<Term>> = wants.map(|kind| self.term(*kind, random)).collect();
            let Some(terms) = terms else { continue };
            if best
                .as_ref()
                .is_none_or(|best| best.terms.len() < terms.len())
            {
                best = Some(Atom { head, terms });
            } else {
                break;
            }
        }
        best
    }

    fn fact(&self, used: &[Role], random: &mut Random) -> Option<Atom> {
        let stage = self.stage;
        self.atom(&stage.world.predicates, &stage.predicates, used, random)
    }

    fn number(&self, used: &[Role], random: &mut Random) -> Option<Atom> {
        let stage = self.stage;
        self.atom(&stage.world.functions, &stage.functions, used, random)
    }

    fn expression(&self, depth: usize, used: &[Role], random: &mut Random) -> Expression {
        const PLAIN: &[i64] = &[0, 1, 500, 1000, 1500, -1000];
        let part = |random: &mut Random| self.expression(depth - 1, used, random);
        match random.weighted(&[60, 25, 60 * depth.min(1), 20 * depth.min(1)]) {
            0 => match self.number(used, random) {
                Some(atom) => Expression::Value(atom),
                None => Expression::Number(1000),
            },
            1 => Expression::Number(*random.pick(PLAIN)),
            2 => joined(part(random), part(random), random),
            _ => Expression::Negative(Box::new(part(random))),
        }
    }

    pub fn duration(&self, random: &mut Random) -> Expression {
        const SPANS: &[i64] = &[500, 1000, 2000, 5000, 20_000, 60_000];
        let depth = random.weighted(&[60, 30, 10]);
        let rule = self.expression(depth, &[Role::Read], random);
        let value = self.stage.world.value(&rule, self.bound);
        match value.is_some_and(|value| (100..=LARGEST).contains(&value)) {
            true => rule,
            false => Expression::Number(*random.pick(SPANS)),
        }
    }

    pub fn conditions(&self, durative: bool, random: &mut Random) -> Vec<(When, Condition)> {
        let mut list = Vec::new();
        for _ in 0..random.weighted(&[10, 25, 30, 20, 10, 5]) {
            let when = *random.pick(&[When::Start, When::End]);
            list.push((when, self.condition(2, READING, random)));
        }
        if durative {
            for _ in 0..random.weighted(&[15, 35, 30, 20]) {
                // No point reads what an `over all` condition reads: it may speak of all roles.
                let used = if random.chance(30) { ALL } else { WRITING };
                list.push((When::Through, self.condition(2, used, random)));
            }
        }
        list
    }

    /// A condition that holds at first, with few exceptions.
    fn condition(&self, depth: usize, used: &[Role], random: &mut Random) -> Condition {
        let nested = if depth == 0 { 0 } else { 12 };
        let single = match random.weighted(&[44, 38, 7, nested]) {
            0 => self.fact(used, random).map(|atom| {
                let usual = self.stage.at_first[atom.head] != random.chance(3);
                turned(Condition::Fact(atom), !usual)
            }),
            1 => self.comparison(used, random),
            2 => self.equality(random),
            _ => {
                let count = random.below(4);
                let part = |_| self.condition(depth - 1, used, random);
                Some(Condition::All((0..count).map(part).collect()))
            }
        };
        single.unwrap_or(Condition::All(Vec::new()))
    }

    /// The expression within some distance of the value that it has at first.
    fn comparison(&self, used: &[Role], random: &mut Random) -> Option<Condition> {
        let depth = random.weighted(&[50, 28, 16, 6]);
        let left = self.expression(depth, used, random);
        let value = self.stage.world.value(&left, self.bound)?;
        let room = *random.pick(&[0, 500, 1000, 3000, 10_000, 200_000]);
        let number = |amount: i64| Expression::Number(amount.clamp(-LARGEST, LARGEST));
        Some(match random.below(7) {
            0 => Condition::Compare(">=", left, number(value - room)),
            1 => Condition::Compare("<=", left, number(value + room)),
            2 => Condition::Compare(">", number(value + room + 1), left),
            3 => Condition::Compare("<", number(value - room - 1), left),
            4 => turned(Condition::Compare("<", left, number(value - room)), true),
            5 => turned(
                Condition::Compare(">=", number(value - room - 1), left),
                true,
            ),
            _ => Condition::Compare("=", left, number(value)),
        })
    }

    fn equality(&self, random: &mut Random) -> Option<Condition> {
        let same = Condition::Same(self.term(0, random)?, self.term(0, random)?);
        let holds = self.stage.world.holds(&same, self.bound)?;
        Some(turned(same, !holds))
    }

    pub fn effects(&self, random: &mut Random) -> Vec<(When, Effect)> {
        let mut list = Vec::new();
        let count = random.weighted(&[4, 30, 30, 20, 10, 0, 0, 0, 6]);
        for _ in 0..count {
            let when = *random.pick(&[When::Start, When::End]);
            let first = self.effect(random);
            let effect = match random.chance(12) {
                true => Effect::All(vec![first, Effect::All(Vec::new())]),
                false => first,
            };
            list.push((when, effect));
        }
        list
    }

    fn effect(&self, random: &mut Random) -> Effect {
        let written = match random.chance(55) {
            true => self
                .fact(WRITING, random)
                .map(|atom| self.turn(atom, random)),
            false => self
                .number(WRITING, random)
                .map(|atom| self.change(atom, random)),
        };
        written.unwrap_or(Effect::All(Vec::new()))
    }

    fn role(&self, roles: &[Role], atom: &Atom) -> Role {
        match self.spoils {
            true => Role::Own,
            false => roles[atom.head],
        }
    }

    /// A fact is added or deleted, or both: then it is touched, and holds.
    fn turn(&self, atom: Atom, random: &mut Random) -> Effect {
        match (self.role(&self.stage.predicates, &atom), random.below(5)) {
            (Role::Taken, _) | (Role::Own, 0 | 1) => Effect::Delete(atom),
            (Role::Own, 2) => Effect::All(vec![Effect::Add(atom.clone()), Effect::Delete(atom)]),
            _ => Effect::Add(atom),
        }
    }

    fn change(&self, atom: Atom, random: &mut Random) -> Effect {
        const STEPS: &[i64] = &[0, 1, 500, 1000, 1000, 1500];
        let owned = self.role(&self.stage.functions, &atom) == Role::Own;
        let depth = random.weighted(&[0, 60, 40]);
        let right = match random.chance(55) {
            true => Expression::Number(*random.pick(STEPS)),
            false => self.expression(depth, READING, random),
        };
        let words = if owned {
            "assign assign increase decrease"
        } else {
            "increase decrease"
        };
        Effect::Change(random.word(words), atom, right)
    }

    /// An `over all` condition that does not hold at first, and the effect at the line's own start
    /// that makes it hold.
    pub fn begun(&self, random: &mut Random) -> Option<(Condition, Effect)> {
        let atom = self.fact(WRITING, random)?;
        let held = self.stage.at_first[atom.head];
        let fits = match self.role(&self.stage.predicates, &atom) {
            Role::Given => !held,
            Role::Taken => held,
            role => role == Role::Own,
        };
        let effect = match held {
            true => Effect::Delete(atom.clone()),
            false => Effect::Add(atom.clone()),
        };
        fits.then(|| (turned(Condition::Fact(atom), held), effect))
    }
}

/// The condition, or its negation if `negated`.
fn turned(condition: Condition, negated: bool) -> Condition {
    match negated {
        true => Condition::Not(Box::new(condition)),
        false => condition,
    }
}
