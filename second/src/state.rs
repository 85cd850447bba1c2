//! The state (facts and ground numbers), where each has its index, and what conditions and
//! expressions are worth in it.

use crate::forms::{Application, Argument, Comparison, Condition, Expression, Test, Vocabulary};
use crate::names::{Table, Type};

/// "a fact's index is its predicate's first index plus its arguments read as digits in base n,
/// first argument highest; a number's likewise."
pub struct Layout {
    objects: usize,
    /// the first index of each predicate, and below of each function
    pub first_facts: Vec<usize>,
    pub first_numbers: Vec<usize>,
    /// how many facts there are: "the sum of n^arguments" over predicates
    pub facts: usize,
    /// how many ground numbers there are, over functions
    pub numbers: usize,
}

impl Layout {
    pub fn of(vocabulary: &Vocabulary) -> Self {
        let objects = vocabulary.objects.len();
        let (first_facts, facts) = first_indexes(&vocabulary.predicates, objects);
        let (first_numbers, numbers) = first_indexes(&vocabulary.functions, objects);
        Layout {
            objects,
            first_facts,
            first_numbers,
            facts,
            numbers,
        }
    }

    pub fn fact(&self, predicate: usize, objects: impl IntoIterator<Item = usize>) -> usize {
        self.first_facts[predicate] + self.digits(objects)
    }

    pub fn number(&self, function: usize, objects: impl IntoIterator<Item = usize>) -> usize {
        self.first_numbers[function] + self.digits(objects)
    }

    fn digits(&self, objects: impl IntoIterator<Item = usize>) -> usize {
        objects
            .into_iter()
            .fold(0, |index, object| index * self.objects + object)
    }
}

/// The first index of each symbol, and the sum of n^arguments over all ("n to the power 0 is 1").
fn first_indexes(symbols: &Table<Vec<Type>>, objects: usize) -> (Vec<usize>, usize) {
    let mut sum = 0;
    let mut first = Vec::with_capacity(symbols.len());
    for arguments in symbols.values() {
        first.push(sum);
        sum += objects.pow(arguments.len() as u32);
    }
    (first, sum)
}

#[derive(Clone)]
pub struct State {
    pub facts: Vec<bool>,
    /// none if undefined
    pub numbers: Vec<Option<i64>>,
}

impl State {
    /// "other facts are false, other numbers undefined"
    pub fn nothing_known(layout: &Layout) -> Self {
        State {
            facts: vec![false; layout.facts],
            numbers: vec![None; layout.numbers],
        }
    }
}

/// Why an expression has no value.
#[derive(Clone, Copy, Debug, PartialEq, Eq)]
pub enum NoValue {
    Undefined,
    Range,
}

/// "Numbers lie within ±1,000,000,000,000 thousandths."
pub fn in_range(value: i64) -> bool {
    value.abs() <= 1_000_000_000_000
}

/// Turns the forms of an action into ground ones: the objects its parameters stand for.
#[derive(Clone, Copy)]
pub struct Binding<'a> {
    pub layout: &'a Layout,
    pub objects: &'a [usize],
}

impl Binding<'_> {
    pub fn fact(&self, atom: &Application) -> usize {
        self.layout.fact(atom.symbol, self.ground(atom))
    }

    pub fn number(&self, function: &Application) -> usize {
        self.layout.number(function.symbol, self.ground(function))
    }

    fn ground<'f>(&'f self, form: &'f Application) -> impl Iterator<Item = usize> + 'f {
        form.arguments.iter().map(|&argument| self.object(argument))
    }

    fn object(&self, argument: Argument) -> usize {
        match argument {
            Argument::Object(object) => object,
            Argument::Parameter(parameter) => self.objects[parameter],
        }
    }

    /// Takes the conditions as written, up to the first that doesn't hold.
    pub fn all_hold(&self, conditions: &[Condition], state: &State) -> Result<bool, NoValue> {
        for condition in conditions {
            if !self.holds(condition, state)? {
                return Ok(false);
            }
        }
        Ok(true)
    }

    fn holds(&self, condition: &Condition, state: &State) -> Result<bool, NoValue> {
        let met = match &condition.test {
            Test::Atom(atom) => state.facts[self.fact(atom)],
            Test::SameObject(left, right) => self.object(*left) == self.object(*right),
            Test::Compare(comparison, left, right) => {
                let left = self.value(left, state)?;
                let right = self.value(right, state)?;
                compare(*comparison, left, right)
            }
        };
        Ok(met != condition.negated)
    }

    /// "Parts are taken left to right, a part before the whole; the first `undefined` or `range`
    /// decides."
    pub fn value(&self, expression: &Expression, state: &State) -> Result<i64, NoValue> {
        let value = match expression {
            Expression::Number(value) => *value,
            Expression::Function(function) => {
                state.numbers[self.number(function)].ok_or(NoValue::Undefined)?
            }
            Expression::Plus(left, right) => self.value(left, state)? + self.value(right, state)?,
            Expression::Minus(inner) => -self.value(inner, state)?,
            Expression::Difference(left, right) => {
                self.value(left, state)? - self.value(right, state)?
            }
        };
        if in_range(value) {
            Ok(value)
        } else {
            Err(NoValue::Range)
        }
    }
}

fn compare(comparison: Comparison, left: i64, right: i64) -> bool {
    match comparison {
        Comparison::Equal => left == right,
        Comparison::Less => left < right,
        Comparison::AtMost => left <= right,
        Comparison::Greater => left > right,
        Comparison::AtLeast => left >= right,
    }
}
