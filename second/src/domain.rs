//! Reads the domain text: its sections in their order, each optional.

use crate::actions::{read_durative_action, read_simple_action};
use crate::forms::{Action, Vocabulary};
use crate::names::{
    no_types, read_declared_name, read_objects, read_parameters, read_types, Table, Type,
};
use crate::text::{Kind, Reader, Refusal, Token};

pub struct Domain {
    pub name: Vec<u8>,
    pub vocabulary: Vocabulary,
    pub actions: Table<Action>,
}

const OBJECTS_WITH_CONSTANTS: usize = 64;
const PREDICATES: usize = 32;
const PREDICATE_ARGUMENTS: usize = 3;
const FUNCTIONS: usize = 16;
const FUNCTION_ARGUMENTS: usize = 2;
const ACTIONS: usize = 32;

const CARRIED_FLAGS: [&str; 6] = [
    ":strips",
    ":typing",
    ":equality",
    ":negative-preconditions",
    ":fluents",
    ":durative-actions",
];

/// "In order, a domain has requirements, types, constants, predicates, functions, actions of both
/// kinds". The number of a section in this order; none if the word heads no section.
fn section_number(head: &Token) -> Option<usize> {
    const SECTIONS: [&[&str]; 6] = [
        &[":requirements"],
        &[":types"],
        &[":constants"],
        &[":predicates"],
        &[":functions"],
        &[":action", ":durative-action"],
    ];
    SECTIONS.iter().position(|heads| head.is_one_of(heads))
}

const ACTION_SECTION: usize = 5;

pub fn read_domain(text: &[u8]) -> Result<Domain, Refusal> {
    let reader = &mut Reader::domain_or_problem(text);
    let name = read_definition_head(reader, "domain")?;
    let mut domain = Domain {
        name: name.word.to_vec(),
        vocabulary: Vocabulary {
            types: no_types(),
            objects: Table::new(OBJECTS_WITH_CONSTANTS),
            predicates: Table::new(PREDICATES),
            functions: Table::new(FUNCTIONS),
        },
        actions: Table::new(ACTIONS),
    };
    let mut next_section = 0;
    while reader.another()? {
        let head = reader.token()?;
        let section = section_number(&head)
            .filter(|&section| section >= next_section)
            .ok_or_else(|| head.refused(3))?;
        domain.read_section(reader, &head)?;
        // Only actions may be given more than once.
        next_section = ACTION_SECTION.min(section + 1);
    }
    reader.due_end()?;
    Ok(domain)
}

/// Reads `(define (domain NAME)`, or the same of a problem. The name is not declared in any list
/// of row 7, so every name is accepted.
pub fn read_definition_head<'t>(reader: &mut Reader<'t>, what: &str) -> Result<Token<'t>, Refusal> {
    reader.due(Kind::Open)?;
    reader.due_word("define")?;
    reader.due(Kind::Open)?;
    reader.due_word(what)?;
    let name = reader.due(Kind::Name)?;
    reader.due(Kind::Close)?;
    Ok(name)
}

impl Domain {
    /// Reads a section after its head to its closing bracket.
    fn read_section(&mut self, reader: &mut Reader, head: &Token) -> Result<(), Refusal> {
        let vocabulary = &mut self.vocabulary;
        let types = &vocabulary.types;
        if head.is(":requirements") {
            read_requirements(reader)
        } else if head.is(":types") {
            vocabulary.types = read_types(reader)?;
            Ok(())
        } else if head.is(":constants") {
            read_objects(reader, types, &mut vocabulary.objects)
        } else if head.is(":predicates") {
            let predicates = &mut vocabulary.predicates;
            read_declarations(reader, types, predicates, PREDICATE_ARGUMENTS)
        } else if head.is(":functions") {
            let functions = &mut vocabulary.functions;
            read_declarations(reader, types, functions, FUNCTION_ARGUMENTS)
        } else {
            self.read_action(reader, head.is(":durative-action"))
        }
    }

    fn read_action(&mut self, reader: &mut Reader, durative: bool) -> Result<(), Refusal> {
        let name = read_declared_name(reader, &self.actions)?;
        let action = if durative {
            read_durative_action(reader, &self.vocabulary)?
        } else {
            read_simple_action(reader, &self.vocabulary)?
        };
        self.actions.declare(&name, action)
    }
}

/// "a keyword that is not carried, however long, is 11; a token that is no keyword is 3. Flags
/// may repeat and are not enforced."
fn read_requirements(reader: &mut Reader) -> Result<(), Refusal> {
    loop {
        let token = reader.loose_token()?;
        match token.kind {
            Kind::Close => return Ok(()),
            Kind::Keyword if token.is_one_of(&CARRIED_FLAGS) => {}
            Kind::Keyword => return Err(token.refused(11)),
            _ => return Err(reader.strict(token)?.refused(3)),
        }
    }
}

/// Reads the predicates, or functions, each a bracket of its name and typed variables.
fn read_declarations(
    reader: &mut Reader,
    types: &Table<Type>,
    table: &mut Table<Vec<Type>>,
    most_arguments: usize,
) -> Result<(), Refusal> {
    while reader.another()? {
        let name = read_declared_name(reader, table)?;
        let parameters = read_parameters(reader, types, most_arguments)?;
        table.declare(&name, parameters.values().to_vec())?;
    }
    Ok(())
}
