//! A world as data: what a domain and a problem say before it is written as text,
//! and what its expressions and conditions come to in the initial state.

/// The largest amount of thousandths a number of the state may hold.
pub const RANGE: i64 = 1_000_000_000_000;
/// The largest amount that can be written as one number.
pub const LARGEST: i64 = 999_999_999_999;

/// An object, parameter or type with its kind: an index into the types, of which 0 is `object`.
#[derive(Clone)]
pub struct Named {
    pub name: String,
    pub kind: usize,
}

/// A predicate or function with the kinds of its arguments.
#[derive(Clone)]
pub struct Head {
    pub name: String,
    pub wants: Vec<usize>,
}

#[derive(Clone, Copy, PartialEq)]
pub enum Term {
    Parameter(usize),
    Object(usize),
}

/// A predicate or function applied to terms. An index past the declared ones is an undeclared name.
#[derive(Clone, PartialEq)]
pub struct Atom {
    pub head: usize,
    pub terms: Vec<Term>,
}

/// An atom over a name that is not declared.
pub const UNDECLARED: Atom = Atom {
    head: usize::MAX,
    terms: Vec::new(),
};

#[derive(Clone)]
pub enum Expression {
    Number(i64),
    Value(Atom),
    Plus(Box<Expression>, Box<Expression>),
    Minus(Box<Expression>, Box<Expression>),
    Negative(Box<Expression>),
    /// Tokens that are no expression.
    Raw(&'static str),
}

#[derive(Clone)]
pub enum Condition {
    All(Vec<Condition>),
    Not(Box<Condition>),
    Fact(Atom),
    Same(Term, Term),
    Compare(&'static str, Expression, Expression),
}

#[derive(Clone)]
pub enum Effect {
    All(Vec<Effect>),
    Add(Atom),
    Delete(Atom),
    Change(&'static str, Atom, Expression),
}

#[derive(Clone, Copy, PartialEq)]
pub enum When {
    Start,
    Through,
    End,
}

/// A durative action if it has a duration; for a simple one `When` says nothing.
#[derive(Clone)]
pub struct Action {
    pub name: String,
    pub parameters: Vec<Named>,
    pub duration: Option<Expression>,
    pub conditions: Vec<(When, Condition)>,
    pub effects: Vec<(When, Effect)>,
}

#[derive(Clone)]
pub struct World {
    pub name: String,
    pub types: Vec<Named>,
    /// Constants first.
    pub objects: Vec<Named>,
    pub constants: usize,
    pub predicates: Vec<Head>,
    pub functions: Vec<Head>,
    pub actions: Vec<Action>,
    pub facts: Vec<Atom>,
    pub numbers: Vec<(Atom, i64)>,
    pub goal: Vec<Condition>,
}

/// What has a name that may not be given twice among its like.
pub trait Called {
    fn called(&self) -> &str;
    fn called_mut(&mut self) -> &mut String;
}

macro_rules! called {
    ($($sort:ty),*) => {
        $(impl Called for $sort {
            fn called(&self) -> &str {
                &self.name
            }

            fn called_mut(&mut self) -> &mut String {
                &mut self.name
            }
        })*
    };
}

called!(Named, Head, Action);

/// The names of a list, to be changed.
pub fn names_of<T: Called>(list: &mut [T]) -> Vec<&mut String> {
    list.iter_mut().map(T::called_mut).collect()
}

fn within(value: i64) -> Option<i64> {
    (-RANGE..=RANGE).contains(&value).then_some(value)
}

impl World {
    /// Every name that the world gives, its own included, to be changed.
    pub fn names(&mut self) -> Vec<&mut String> {
        let mut names = vec![&mut self.name];
        names.extend(names_of(&mut self.types[1..]));
        names.extend(names_of(&mut self.objects));
        names.extend(names_of(&mut self.predicates));
        names.extend(names_of(&mut self.functions));
        for action in &mut self.actions {
            names.push(&mut action.name);
            names.extend(names_of(&mut action.parameters));
        }
        names
    }

    /// Nothing declared but `object`.
    pub fn empty(name: &str) -> Self {
        let object = Named {
            name: "object".to_string(),
            kind: 0,
        };
        World {
            name: name.to_string(),
            types: vec![object],
            objects: Vec::new(),
            constants: 0,
            predicates: Vec::new(),
            functions: Vec::new(),
            actions: Vec::new(),
            facts: Vec::new(),
            numbers: Vec::new(),
            goal: Vec::new(),
        }
    }

    /// Whether `kind` is `wanted` or below it; a parent's index is lower than its child's.
    pub fn fits(&self, kind: usize, wanted: usize) -> bool {
        let mut kind = kind;
        while kind > wanted {
            kind = self.types[kind].kind;
        }
        kind == wanted
    }

    /// The objects that may stand where `wanted` is wanted.
    pub fn fitting(&self, wanted: usize) -> Vec<usize> {
        let fits = |object: &usize| self.fits(self.objects[*object].kind, wanted);
        (0..self.objects.len()).filter(fits).collect()
    }

    /// The atom with its parameters replaced by the objects bound to them.
    pub fn ground(&self, atom: &Atom, bound: &[usize]) -> Atom {
        let object = |term: &Term| Term::Object(resolved(*term, bound));
        Atom {
            head: atom.head,
            terms: atom.terms.iter().map(object).collect(),
        }
    }

    /// The expression's value at first, if defined and within the range.
    pub fn value(&self, expression: &Expression, bound: &[usize]) -> Option<i64> {
        match expression {
            Expression::Number(number) => Some(*number),
            Expression::Value(atom) => {
                let ground = self.ground(atom, bound);
                let given = self.numbers.iter().find(|(known, _)| *known == ground);
                given.map(|(_, number)| *number)
            }
            Expression::Plus(left, right) => {
                within(self.value(left, bound)? + self.value(right, bound)?)
            }
            Expression::Minus(left, right) => {
                within(self.value(left, bound)? - self.value(right, bound)?)
            }
            Expression::Negative(part) => Some(-self.value(part, bound)?),
            Expression::Raw(_) => None,
        }
    }

    /// Whether the condition holds at first; none if a number in it has no value.
    pub fn holds(&self, condition: &Condition, bound: &[usize]) -> Option<bool> {
        Some(match condition {
            Condition::All(parts) => {
                for part in parts {
                    if !self.holds(part, bound)? {
                        return Some(false);
                    }
                }
                true
            }
            Condition::Not(part) => !self.holds(part, bound)?,
            Condition::Fact(atom) => self.facts.contains(&self.ground(atom, bound)),
            Condition::Same(left, right) => resolved(*left, bound) == resolved(*right, bound),
            Condition::Compare(operator, left, right) => {
                let left = self.value(left, bound)?;
                let right = self.value(right, bound)?;
                match *operator {
                    "<" => left < right,
                    "<=" => left <= right,
                    ">" => left > right,
                    ">=" => left >= right,
                    _ => left == right,
                }
            }
        })
    }
}

/// A parameter that nothing is bound to counts as the first object.
fn resolved(term: Term, bound: &[usize]) -> usize {
    match term {
        Term::Object(object) => object,
        Term::Parameter(parameter) => bound.get(parameter).copied().unwrap_or(0),
    }
}
