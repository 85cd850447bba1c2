//! Reads one action of either kind after its name: "parameters, duration, condition
//! (`:precondition` if simple), effect, the last two optional".

use crate::forms::{Action, DurativeRules, Expression, PointRules, Vocabulary};
use crate::names::{read_parameters, Table, Type};
use crate::reading::{Count, FormReader};
use crate::text::{Kind, Reader, Refusal, Token};

const ACTION_PARAMETERS: usize = 4;
/// Over start, all and end together.
const ACTION_CONDITIONS: usize = 32;
const ACTION_EFFECTS: usize = 16;

pub fn read_simple_action(reader: &mut Reader, vocabulary: &Vocabulary) -> Result<Action, Refusal> {
    let parameters = read_action_parameters(reader, &vocabulary.types)?;
    let mut point = PointRules::default();
    let mut forms = FormReader {
        reader,
        vocabulary,
        parameters: Some(&parameters),
    };
    let mut token = forms.reader.token()?;
    if token.is(":precondition") {
        let count = &mut Count::at_most(ACTION_CONDITIONS);
        forms.condition(count, &mut point.conditions)?;
        token = forms.reader.token()?;
    }
    if token.is(":effect") {
        let count = &mut Count::at_most(ACTION_EFFECTS);
        forms.effect(count, &mut point.effects)?;
        token = forms.reader.token()?;
    }
    token.due(Kind::Close)?;
    Ok(Action {
        parameters: parameters.values().to_vec(),
        start: point,
        durative: None,
    })
}

pub fn read_durative_action(
    reader: &mut Reader,
    vocabulary: &Vocabulary,
) -> Result<Action, Refusal> {
    let parameters = read_action_parameters(reader, &vocabulary.types)?;
    let mut forms = FormReader {
        reader,
        vocabulary,
        parameters: Some(&parameters),
    };
    let mut start = PointRules::default();
    let mut rules = DurativeRules {
        duration: read_duration_rule(&mut forms)?,
        over_all: Vec::new(),
        end: PointRules::default(),
    };
    let mut token = forms.reader.token()?;
    if token.is(":condition") {
        read_durative_conditions(&mut forms, &mut start, &mut rules)?;
        token = forms.reader.token()?;
    }
    if token.is(":effect") {
        read_durative_effects(&mut forms, &mut start, &mut rules)?;
        token = forms.reader.token()?;
    }
    token.due(Kind::Close)?;
    Ok(Action {
        parameters: parameters.values().to_vec(),
        start,
        durative: Some(rules),
    })
}

fn read_action_parameters(
    reader: &mut Reader,
    types: &Table<Type>,
) -> Result<Table<Type>, Refusal> {
    reader.due_word(":parameters")?;
    reader.due(Kind::Open)?;
    read_parameters(reader, types, ACTION_PARAMETERS)
}

/// Reads `:duration (= ?duration e)`. "any head word other than `=` (name, variable, keyword,
/// operator; however long) is 11; a number, a bracket or `)` is 3. The second token must be
/// `?duration`, else 3 (or its own refusal)."
fn read_duration_rule(forms: &mut FormReader) -> Result<Expression, Refusal> {
    let reader = &mut *forms.reader;
    reader.due_word(":duration")?;
    reader.due(Kind::Open)?;
    let head = reader.loose_token()?;
    match head.kind {
        Kind::Operator if head.is("=") => {}
        Kind::Name | Kind::Variable | Kind::Keyword | Kind::Operator => {
            return Err(head.refused(11));
        }
        _ => return Err(head.refused(3)),
    }
    let second = reader.loose_token()?;
    if !second.is("?duration") {
        return Err(reader.strict(second)?.refused(3));
    }
    let duration = forms.expression()?;
    forms.reader.due(Kind::Close)?;
    Ok(duration)
}

enum Annotation {
    AtStart,
    OverAll,
    AtEnd,
}

fn read_durative_conditions(
    forms: &mut FormReader,
    start: &mut PointRules,
    rules: &mut DurativeRules,
) -> Result<(), Refusal> {
    let count = &mut Count::at_most(ACTION_CONDITIONS);
    read_parts(forms, |forms, head| {
        let list = match read_annotation(forms.reader, head, true)? {
            Annotation::AtStart => &mut start.conditions,
            Annotation::OverAll => &mut rules.over_all,
            Annotation::AtEnd => &mut rules.end.conditions,
        };
        forms.condition(count, list)
    })
}

fn read_durative_effects(
    forms: &mut FormReader,
    start: &mut PointRules,
    rules: &mut DurativeRules,
) -> Result<(), Refusal> {
    let count = &mut Count::at_most(ACTION_EFFECTS);
    read_parts(forms, |forms, head| {
        let list = match read_annotation(forms.reader, head, false)? {
            Annotation::AtStart => &mut start.effects,
            _ => &mut rules.end.effects,
        };
        forms.effect(count, list)
    })
}

/// "In a durative action each part, under at most one outer `and`, is `at start`, `over all`
/// (conditions only) or `at end` around a condition or effect." `read_part` gets the head of
/// each part and reads all but its closing bracket.
fn read_parts<'t>(
    forms: &mut FormReader<'_, 't>,
    mut read_part: impl FnMut(&mut FormReader<'_, 't>, Token<'t>) -> Result<(), Refusal>,
) -> Result<(), Refusal> {
    let mut read_closed_part = |forms: &mut FormReader<'_, 't>, head| {
        read_part(forms, head)?;
        forms.reader.due(Kind::Close).map(|_| ())
    };
    forms.reader.due(Kind::Open)?;
    let head = forms.reader.token()?;
    if !head.is("and") {
        return read_closed_part(forms, head);
    }
    while forms.reader.another()? {
        let head = forms.reader.token()?;
        read_closed_part(forms, head)?;
    }
    Ok(())
}

fn read_annotation(
    reader: &mut Reader,
    head: Token,
    over_all_carried: bool,
) -> Result<Annotation, Refusal> {
    if head.is("over") && over_all_carried {
        reader.due_word("all")?;
        return Ok(Annotation::OverAll);
    }
    if !head.is("at") {
        return Err(head.refused(3));
    }
    let moment = reader.token()?;
    if moment.is("start") {
        Ok(Annotation::AtStart)
    } else if moment.is("end") {
        Ok(Annotation::AtEnd)
    } else {
        Err(moment.refused(3))
    }
}
