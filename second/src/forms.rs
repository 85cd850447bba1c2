//! What conditions, effects, expressions and actions mean once read: trees without any text.

use crate::names::{Table, Type};

/// The names that conditions and effects are made of.
#[derive(Clone)]
pub struct Vocabulary {
    pub types: Table<Type>,
    /// "objects with constants", constants first
    pub objects: Table<Type>,
    /// the wanted type of each argument
    pub predicates: Table<Vec<Type>>,
    pub functions: Table<Vec<Type>>,
}

#[derive(Clone, Copy, Debug)]
pub enum Argument {
    Object(usize),
    Parameter(usize),
}

/// A predicate or function with its arguments.
#[derive(Debug)]
pub struct Application {
    pub symbol: usize,
    pub arguments: Vec<Argument>,
}

#[derive(Debug)]
pub enum Expression {
    Number(i64),
    Function(Application),
    Plus(Box<Expression>, Box<Expression>),
    /// `-` of one
    Minus(Box<Expression>),
    /// `-` of two
    Difference(Box<Expression>, Box<Expression>),
}

#[derive(Clone, Copy, Debug, PartialEq, Eq)]
pub enum Comparison {
    Equal,
    Less,
    AtMost,
    Greater,
    AtLeast,
}

#[derive(Debug)]
pub enum Test {
    Atom(Application),
    SameObject(Argument, Argument),
    Compare(Comparison, Expression, Expression),
}

/// A single condition: a test, or (`negated`) `not` around it. A condition with its `and`s is the
/// list of its single conditions as written: they are taken in that order, up to the first that
/// doesn't hold, however they nest.
#[derive(Debug)]
pub struct Condition {
    pub negated: bool,
    pub test: Test,
}

#[derive(Clone, Copy, Debug, PartialEq, Eq)]
pub enum Write {
    Assign,
    Increase,
    Decrease,
}

#[derive(Debug)]
pub enum Effect {
    Add(Application),
    Delete(Application),
    /// how a number is written, which one, and the right side
    Number(Write, Application, Expression),
}

/// What one point of an action needs and does.
#[derive(Debug, Default)]
pub struct PointRules {
    pub conditions: Vec<Condition>,
    pub effects: Vec<Effect>,
}

/// What a durative action has beside its start.
#[derive(Debug)]
pub struct DurativeRules {
    /// e of the duration rule `(= ?duration e)`
    pub duration: Expression,
    pub over_all: Vec<Condition>,
    pub end: PointRules,
}

pub struct Action {
    pub parameters: Vec<Type>,
    /// the start of a durative action, the only point of a simple one
    pub start: PointRules,
    pub durative: Option<DurativeRules>,
}
