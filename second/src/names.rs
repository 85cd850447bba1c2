//! Tables of declared names, one per separate list of row 7, and the lists with types that fill them.

use crate::text::{Kind, Reader, Refusal, Token};

/// "`and`, `not`, `assign`, `increase` and `decrease` can't be declared (3)."
const NOT_DECLARABLE: [&str; 5] = ["and", "not", "assign", "increase", "decrease"];

/// The index of a type in the table of types; `object` is the first.
pub type Type = usize;
pub const OBJECT: Type = 0;

/// Declared names in their order, each with what was declared of it.
#[derive(Clone)]
pub struct Table<T> {
    limit: usize,
    names: Vec<Vec<u8>>,
    values: Vec<T>,
}

impl<T> Table<T> {
    pub fn new(limit: usize) -> Self {
        Table {
            limit,
            names: Vec::new(),
            values: Vec::new(),
        }
    }

    pub fn len(&self) -> usize {
        self.names.len()
    }

    pub fn find(&self, word: &[u8]) -> Option<usize> {
        self.names
            .iter()
            .position(|name| name.eq_ignore_ascii_case(word))
    }

    /// The index of a name (or variable) that must have been declared: else 8.
    pub fn find_declared(&self, token: &Token) -> Result<usize, Refusal> {
        self.find(token.word).ok_or_else(|| token.refused(8))
    }

    pub fn value(&self, index: usize) -> &T {
        &self.values[index]
    }

    pub fn values(&self) -> &[T] {
        &self.values
    }

    /// Refuses the name if it is given twice (7), then if it is one too many (12):
    /// "Several rows at one token: 5, 6, 7, 8 before 12".
    pub fn may_declare(&self, token: &Token) -> Result<(), Refusal> {
        if self.find(token.word).is_some() {
            return Err(token.refused(7));
        }
        if self.names.len() == self.limit {
            return Err(token.refused(12));
        }
        Ok(())
    }

    pub fn declare(&mut self, token: &Token, value: T) -> Result<(), Refusal> {
        self.may_declare(token)?;
        self.names.push(token.word.to_vec());
        self.values.push(value);
        Ok(())
    }
}

/// The table of types before any is declared: "types 16 besides `object`".
pub fn no_types() -> Table<Type> {
    Table {
        limit: 17,
        names: vec![b"object".to_vec()],
        values: vec![OBJECT],
    }
}

/// Whether a type is "the wanted type or below it".
pub fn is_or_is_below(types: &Table<Type>, mut given: Type, wanted: Type) -> bool {
    while given != wanted && given != OBJECT {
        given = *types.value(given);
    }
    given == wanted
}

/// A token where a name is declared: 3 unless it is a name that can be.
fn declarable(token: Token) -> Result<(), Refusal> {
    if token.kind != Kind::Name || token.is_one_of(&NOT_DECLARABLE) {
        return Err(token.refused(3));
    }
    Ok(())
}

/// Reads the name of a predicate, function or action; it enters its table once its parameters
/// are known, but is judged at once.
pub fn read_declared_name<'t, T>(
    reader: &mut Reader<'t>,
    table: &Table<T>,
) -> Result<Token<'t>, Refusal> {
    let token = reader.token()?;
    declarable(token)?;
    table.may_declare(&token)?;
    Ok(token)
}

/// Reads `:types` to the closing bracket. "A parent type is `object` or stands earlier in the
/// list than its children", so before the whole group of names that it follows.
pub fn read_types(reader: &mut Reader) -> Result<Table<Type>, Refusal> {
    let mut types = no_types();
    read_typed_list(reader, &mut types, declarable, |types, first, parent| {
        let before_group = types.find(parent.word).filter(|&found| found < first);
        before_group.ok_or_else(|| parent.refused(8))
    })?;
    Ok(types)
}

/// Reads constants or objects to the closing bracket and adds them to those there are.
pub fn read_objects(
    reader: &mut Reader,
    types: &Table<Type>,
    objects: &mut Table<Type>,
) -> Result<(), Refusal> {
    read_typed_list(reader, objects, declarable, |_, _, name| {
        types.find_declared(name)
    })
}

/// Reads the parameters of one declaration to the closing bracket.
pub fn read_parameters(
    reader: &mut Reader,
    types: &Table<Type>,
    limit: usize,
) -> Result<Table<Type>, Refusal> {
    let mut parameters = Table::new(limit);
    let variable = |token: Token| token.due(Kind::Variable).map(|_| ());
    read_typed_list(reader, &mut parameters, variable, |_, _, name| {
        types.find_declared(name)
    })?;
    Ok(parameters)
}

/// Reads groups of members, each perhaps with `- type` after it, to the closing bracket. "An
/// untyped name is an `object`." `type_of` gets the list and where in it the group begins.
fn read_typed_list(
    reader: &mut Reader,
    list: &mut Table<Type>,
    due_member: impl Fn(Token) -> Result<(), Refusal>,
    type_of: impl Fn(&Table<Type>, usize, &Token) -> Result<Type, Refusal>,
) -> Result<(), Refusal> {
    let mut first = list.len();
    loop {
        let token = reader.token()?;
        if token.kind == Kind::Close {
            return Ok(());
        }
        if token.is("-") && first < list.len() {
            let name = read_type_name(reader)?;
            let group_type = type_of(list, first, &name)?;
            list.values[first..].fill(group_type);
            first = list.len();
        } else {
            due_member(token)?;
            list.declare(&token, OBJECT)?;
        }
    }
}

/// "`x - (^either a b)`: 11 at the word. A bracket in a type's place that is not followed by
/// `either`: 3 at the bracket."
fn read_type_name<'t>(reader: &mut Reader<'t>) -> Result<Token<'t>, Refusal> {
    let token = reader.token()?;
    if token.kind == Kind::Open {
        return Err(match reader.loose_token() {
            Ok(word) if word.is("either") => word.refused(11),
            _ => token.refused(3),
        });
    }
    token.due(Kind::Name)
}
