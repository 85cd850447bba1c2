//! Reads the problem text: the state at first and the goal, for a domain already read.

use crate::domain::{read_definition_head, Domain};
use crate::forms::{Condition, Vocabulary};
use crate::names::read_objects;
use crate::reading::{read_arguments, resolve_object, Count, FormReader};
use crate::state::{Layout, State};
use crate::text::{Kind, Reader, Refusal, Token};

pub struct Problem {
    /// the domain's, with the problem's objects after the constants
    pub vocabulary: Vocabulary,
    pub layout: Layout,
    pub initial: State,
    pub goal: Vec<Condition>,
}

const GOAL_CONDITIONS: usize = 64;
const FACTS: usize = 16_384;
const NUMBERS: usize = 1_024;

/// "a problem domain, objects, init, goal, the middle two optional"
pub fn read_problem(domain: &Domain, text: &[u8]) -> Result<Problem, Refusal> {
    let reader = &mut Reader::domain_or_problem(text);
    let mut vocabulary = domain.vocabulary.clone();
    read_definition_head(reader, "problem")?;
    let head = read_section_head(reader)?;
    due_section(&head, ":domain")?;
    read_domain_name(reader, domain)?;
    let mut head = read_section_head(reader)?;
    if head.is(":objects") {
        read_objects(reader, &domain.vocabulary.types, &mut vocabulary.objects)?;
        head = read_section_head(reader)?;
    }
    let layout = Layout::of(&vocabulary);
    judge_sums(&head, &layout)?;
    let mut initial = State::nothing_known(&layout);
    if head.is(":init") {
        read_init(reader, &vocabulary, &layout, &mut initial)?;
        head = read_section_head(reader)?;
    }
    due_section(&head, ":goal")?;
    let goal = read_goal(reader, &vocabulary)?;
    if reader.another()? {
        // A bracket opens a section, and the word after it is judged; none may follow.
        return Err(reader.token()?.refused(3));
    }
    reader.due_end()?;
    Ok(Problem {
        vocabulary,
        layout,
        initial,
        goal,
    })
}

/// Reads the bracket and the word that open a section.
fn read_section_head<'t>(reader: &mut Reader<'t>) -> Result<Token<'t>, Refusal> {
    reader.due(Kind::Open)?;
    reader.token()
}

/// Row 12: "for the two sums `:init`, else `:goal`", where it stands in its turn, which is after
/// the objects.
fn judge_sums(head: &Token, layout: &Layout) -> Result<(), Refusal> {
    let passed = layout.facts > FACTS || layout.numbers > NUMBERS;
    if passed && head.is_one_of(&[":init", ":goal"]) {
        return Err(head.refused(12));
    }
    Ok(())
}

fn due_section(head: &Token, section: &str) -> Result<(), Refusal> {
    if head.is(section) {
        Ok(())
    } else {
        Err(head.refused(3))
    }
}

fn read_domain_name(reader: &mut Reader, domain: &Domain) -> Result<(), Refusal> {
    let name = reader.due(Kind::Name)?;
    if !name.word.eq_ignore_ascii_case(&domain.name) {
        return Err(name.refused(13));
    }
    reader.due(Kind::Close)?;
    Ok(())
}

/// "Init holds atoms and `(= (f ..) number)`; other facts are false, other numbers undefined."
fn read_init(
    reader: &mut Reader,
    vocabulary: &Vocabulary,
    layout: &Layout,
    state: &mut State,
) -> Result<(), Refusal> {
    while reader.another()? {
        let head = reader.token()?;
        if head.kind == Kind::Name {
            let predicate = vocabulary.predicates.find_declared(&head)?;
            let wanted = vocabulary.predicates.value(predicate);
            let objects = read_init_arguments(reader, vocabulary, wanted)?;
            state.facts[layout.fact(predicate, objects)] = true;
        } else if head.is("=") {
            read_init_number(reader, vocabulary, layout, state)?;
        } else {
            return Err(head.refused(3));
        }
    }
    Ok(())
}

/// "A number given twice in init: 7 at the second function name as soon as its `(f ..)` is closed."
fn read_init_number(
    reader: &mut Reader,
    vocabulary: &Vocabulary,
    layout: &Layout,
    state: &mut State,
) -> Result<(), Refusal> {
    reader.due(Kind::Open)?;
    let name = reader.due(Kind::Name)?;
    let function = vocabulary.functions.find_declared(&name)?;
    let wanted = vocabulary.functions.value(function);
    let objects = read_init_arguments(reader, vocabulary, wanted)?;
    let number = layout.number(function, objects);
    if state.numbers[number].is_some() {
        return Err(name.refused(7));
    }
    state.numbers[number] = Some(reader.token()?.due_number()?);
    reader.due(Kind::Close)?;
    Ok(())
}

fn read_init_arguments(
    reader: &mut Reader,
    vocabulary: &Vocabulary,
    wanted: &[usize],
) -> Result<Vec<usize>, Refusal> {
    read_arguments(reader, &vocabulary.types, wanted, |token| {
        resolve_object(&vocabulary.objects, token)
    })
}

fn read_goal(reader: &mut Reader, vocabulary: &Vocabulary) -> Result<Vec<Condition>, Refusal> {
    let mut goal = Vec::new();
    let mut forms = FormReader {
        reader,
        vocabulary,
        parameters: None,
    };
    forms.condition(&mut Count::at_most(GOAL_CONDITIONS), &mut goal)?;
    forms.reader.due(Kind::Close)?;
    Ok(goal)
}
