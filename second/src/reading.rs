//! Reads conditions, effects and expressions into their trees, judging every token on the way.
//! The readers call each other no deeper than brackets may nest: the 17th is refused before.

use crate::forms::{
    Application, Argument, Comparison, Condition, Effect, Expression, Test, Vocabulary, Write,
};
use crate::names::{is_or_is_below, Table, Type};
use crate::text::{Kind, Reader, Refusal, Token};

/// Counts what a size limits; the first one too many is 12 at its token.
pub struct Count {
    left: usize,
}

impl Count {
    pub fn at_most(limit: usize) -> Self {
        Count { left: limit }
    }

    fn one_more(&mut self, token: &Token) -> Result<(), Refusal> {
        if self.left == 0 {
            return Err(token.refused(12));
        }
        self.left -= 1;
        Ok(())
    }
}

/// "16 operators and operands per expression"
const EXPRESSION_SIZE: usize = 16;

/// Reads the arguments of a predicate, function or action to the closing bracket. `resolve` says
/// what a token is and of which type: 8 if undeclared, 3 if it can't be an argument.
pub fn read_arguments<'t, T>(
    reader: &mut Reader<'t>,
    types: &Table<Type>,
    wanted: &[Type],
    resolve: impl Fn(&Token<'t>) -> Result<(T, Type), Refusal>,
) -> Result<Vec<T>, Refusal> {
    let mut arguments = Vec::with_capacity(wanted.len());
    loop {
        let token = reader.token()?;
        let wanted_type = wanted.get(arguments.len());
        if token.kind == Kind::Close {
            return match wanted_type {
                None => Ok(arguments),
                Some(_) => Err(token.refused(9)),
            };
        }
        let (argument, given_type) = resolve(&token)?;
        match wanted_type {
            None => return Err(token.refused(9)),
            Some(&wanted) if !is_or_is_below(types, given_type, wanted) => {
                return Err(token.refused(10));
            }
            Some(_) => arguments.push(argument),
        }
    }
}

/// An object and its type; only a name can be one.
pub fn resolve_object(objects: &Table<Type>, token: &Token) -> Result<(usize, Type), Refusal> {
    let name = token.due(Kind::Name)?;
    let object = objects.find_declared(&name)?;
    Ok((object, *objects.value(object)))
}

/// Reads the forms of one action, or of the goal, which has no parameters.
pub struct FormReader<'r, 't> {
    pub reader: &'r mut Reader<'t>,
    pub vocabulary: &'r Vocabulary,
    pub parameters: Option<&'r Table<Type>>,
}

impl<'t> FormReader<'_, 't> {
    /// Reads one condition and adds its single conditions to the list.
    pub fn condition(
        &mut self,
        count: &mut Count,
        list: &mut Vec<Condition>,
    ) -> Result<(), Refusal> {
        self.reader.due(Kind::Open)?;
        self.opened_condition(count, list)
    }

    fn opened_condition(
        &mut self,
        count: &mut Count,
        list: &mut Vec<Condition>,
    ) -> Result<(), Refusal> {
        let head = self.reader.token()?;
        if head.is("and") {
            while self.reader.another()? {
                self.opened_condition(count, list)?;
            }
            return Ok(());
        }
        let negated = head.is("not");
        let head = if negated { self.negated_head()? } else { head };
        let test = self.test(head, count)?;
        list.push(Condition { negated, test });
        if negated {
            self.reader.due(Kind::Close)?;
        }
        Ok(())
    }

    /// The head word past a `not`; "`not` around `and`, in effects too: 11 at the `and`".
    fn negated_head(&mut self) -> Result<Token<'t>, Refusal> {
        self.reader.due(Kind::Open)?;
        let head = self.reader.token()?;
        if head.is("and") {
            return Err(head.refused(11));
        }
        Ok(head)
    }

    fn test(&mut self, head: Token<'t>, count: &mut Count) -> Result<Test, Refusal> {
        if head.kind == Kind::Name {
            return Ok(Test::Atom(self.atom(head, count)?));
        }
        let comparison = match head.word {
            b"=" => Comparison::Equal,
            b"<" => Comparison::Less,
            b"<=" => Comparison::AtMost,
            b">" => Comparison::Greater,
            b">=" => Comparison::AtLeast,
            _ => return Err(head.refused(3)),
        };
        count.one_more(&head)?;
        let first = self.reader.token()?;
        let of_objects = matches!(first.kind, Kind::Name | Kind::Variable);
        let test = if comparison == Comparison::Equal && of_objects {
            let left = self.argument(&first)?.0;
            let second = self.reader.token()?;
            Test::SameObject(left, self.argument(&second)?.0)
        } else {
            let left = self.expression_from(first, &mut Count::at_most(EXPRESSION_SIZE))?;
            Test::Compare(comparison, left, self.expression()?)
        };
        self.reader.due(Kind::Close)?;
        Ok(test)
    }

    /// A predicate and its arguments; `count` is of conditions or of effects.
    fn atom(&mut self, head: Token<'t>, count: &mut Count) -> Result<Application, Refusal> {
        let name = head.due(Kind::Name)?;
        let symbol = self.vocabulary.predicates.find_declared(&name)?;
        count.one_more(&name)?;
        let wanted = self.vocabulary.predicates.value(symbol);
        let arguments = self.arguments(wanted)?;
        Ok(Application { symbol, arguments })
    }

    fn arguments(&mut self, wanted: &[Type]) -> Result<Vec<Argument>, Refusal> {
        let (vocabulary, parameters) = (self.vocabulary, self.parameters);
        read_arguments(self.reader, &vocabulary.types, wanted, |token| {
            resolve_argument(vocabulary, parameters, token)
        })
    }

    fn argument(&self, token: &Token) -> Result<(Argument, Type), Refusal> {
        resolve_argument(self.vocabulary, self.parameters, token)
    }

    /// Reads one effect and adds its single effects to the list.
    pub fn effect(&mut self, count: &mut Count, list: &mut Vec<Effect>) -> Result<(), Refusal> {
        self.reader.due(Kind::Open)?;
        self.opened_effect(count, list)
    }

    fn opened_effect(&mut self, count: &mut Count, list: &mut Vec<Effect>) -> Result<(), Refusal> {
        let head = self.reader.token()?;
        if head.is("and") {
            while self.reader.another()? {
                self.opened_effect(count, list)?;
            }
            return Ok(());
        }
        let effect = if head.is("not") {
            let negated = self.negated_head()?;
            let deleted = self.atom(negated, count)?;
            self.reader.due(Kind::Close)?;
            Effect::Delete(deleted)
        } else if let Some(write) = write_of(&head) {
            count.one_more(&head)?;
            self.number_effect(write)?
        } else {
            Effect::Add(self.atom(head, count)?)
        };
        list.push(effect);
        Ok(())
    }

    fn number_effect(&mut self, write: Write) -> Result<Effect, Refusal> {
        self.reader.due(Kind::Open)?;
        let name = self.reader.due(Kind::Name)?;
        let symbol = self.vocabulary.functions.find_declared(&name)?;
        let arguments = self.arguments(self.vocabulary.functions.value(symbol))?;
        let right_side = self.expression()?;
        self.reader.due(Kind::Close)?;
        let written = Application { symbol, arguments };
        Ok(Effect::Number(write, written, right_side))
    }

    /// Reads one whole expression, counted by itself.
    pub fn expression(&mut self) -> Result<Expression, Refusal> {
        let first = self.reader.token()?;
        self.expression_from(first, &mut Count::at_most(EXPRESSION_SIZE))
    }

    fn expression_from(
        &mut self,
        first: Token<'t>,
        count: &mut Count,
    ) -> Result<Expression, Refusal> {
        match first.kind {
            Kind::Number(value) => {
                count.one_more(&first)?;
                Ok(Expression::Number(value))
            }
            Kind::Open => self.opened_expression(count),
            _ => Err(first.refused(3)),
        }
    }

    fn opened_expression(&mut self, count: &mut Count) -> Result<Expression, Refusal> {
        let head = self.reader.token()?;
        if head.kind == Kind::Name {
            let symbol = self.vocabulary.functions.find_declared(&head)?;
            count.one_more(&head)?;
            let arguments = self.arguments(self.vocabulary.functions.value(symbol))?;
            return Ok(Expression::Function(Application { symbol, arguments }));
        }
        if !head.is_one_of(&["+", "-"]) {
            return Err(head.refused(3));
        }
        count.one_more(&head)?;
        let first = self.reader.token()?;
        let left = Box::new(self.expression_from(first, count)?);
        let second = self.reader.token()?;
        if head.is("-") && second.kind == Kind::Close {
            return Ok(Expression::Minus(left));
        }
        let right = Box::new(self.expression_from(second, count)?);
        self.close_of_two(count)?;
        Ok(if head.is("+") {
            Expression::Plus(left, right)
        } else {
            Expression::Difference(left, right)
        })
    }

    /// A third operand is 3, but a number that is also the 17th of its expression is 12: "12
    /// before 3".
    fn close_of_two(&mut self, count: &mut Count) -> Result<(), Refusal> {
        let token = self.reader.token()?;
        if let Kind::Number(_) = token.kind {
            count.one_more(&token)?;
        }
        token.due(Kind::Close)?;
        Ok(())
    }
}

/// An object or an action's variable, and its type; "a variable in init, goal or plan is 3".
fn resolve_argument(
    vocabulary: &Vocabulary,
    parameters: Option<&Table<Type>>,
    token: &Token,
) -> Result<(Argument, Type), Refusal> {
    match (token.kind, parameters) {
        (Kind::Variable, Some(parameters)) => {
            let parameter = parameters.find_declared(token)?;
            Ok((Argument::Parameter(parameter), *parameters.value(parameter)))
        }
        _ => {
            let (object, given_type) = resolve_object(&vocabulary.objects, token)?;
            Ok((Argument::Object(object), given_type))
        }
    }
}

fn write_of(head: &Token) -> Option<Write> {
    let writes = [
        ("assign", Write::Assign),
        ("increase", Write::Increase),
        ("decrease", Write::Decrease),
    ];
    let found = writes.iter().find(|(word, _)| head.is(word));
    found.map(|&(_, write)| write)
}
