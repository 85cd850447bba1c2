//! A world and the steps of a plan as tokens, before they are laid out as text.

use super::names::{fresh, fresh_variable, written};
use super::random::Random;
use super::steps::Step;
use super::world::{Action, Atom, Condition, Effect, Expression, Head, Named, Term, When, World};

/// The requirement flags that are carried.
const FLAGS: &str = ":strips :typing :equality :negative-preconditions :fluents :durative-actions";

pub fn domain(world: &World, random: &mut Random) -> Vec<String> {
    let mut writer = Writer::new(world, random);
    writer.words("( define ( domain");
    writer.words(&world.name);
    writer.words(")");
    writer.requirements();
    writer.named_section(":types", &world.types[1..]);
    writer.named_section(":constants", &world.objects[..world.constants]);
    writer.heads_section(":predicates", &world.predicates);
    writer.heads_section(":functions", &world.functions);
    for action in &world.actions {
        writer.action(action);
    }
    writer.words(")");
    writer.out
}

pub fn problem(world: &World, random: &mut Random) -> Vec<String> {
    let mut writer = Writer::new(world, random);
    writer.words("( define ( problem");
    let name = fresh(writer.random, &world.types);
    writer.words(&name);
    writer.words(") ( :domain");
    writer.words(&world.name);
    writer.words(")");
    writer.named_section(":objects", &world.objects[world.constants..]);
    writer.init();
    writer.words("( :goal");
    writer.conditions(&[], &world.goal);
    writer.words(") )");
    writer.out
}

pub fn step(world: &World, step: &Step, random: &mut Random) -> Vec<String> {
    let mut out = vec![written(random, step.start, false)];
    out.extend([":", "("].map(String::from));
    out.push(world.actions[step.action].name.clone());
    out.extend(
        step.objects
            .iter()
            .map(|object| world.objects[*object].name.clone()),
    );
    out.push(")".to_string());
    if let Some(duration) = step.duration {
        out.push("[".to_string());
        out.push(written(random, duration, false));
        out.push("]".to_string());
    }
    out
}

/// Written for an index past the declared ones.
const NO_NAME: &str = "ghost";

struct Writer<'a> {
    world: &'a World,
    random: &'a mut Random,
    out: Vec<String>,
}

fn name_of(heads: &[Head], atom: &Atom) -> String {
    let declared = heads.get(atom.head).map(|head| &head.name[..]);
    declared.unwrap_or(NO_NAME).to_string()
}

impl<'a> Writer<'a> {
    fn new(world: &'a World, random: &'a mut Random) -> Self {
        Writer {
            world,
            random,
            out: Vec::new(),
        }
    }

    fn words(&mut self, words: &str) {
        self.out.extend(words.split(' ').map(String::from));
    }

    fn requirements(&mut self) {
        if self.random.chance(60) {
            self.words("( :requirements");
            for _ in 0..self.random.below(8) {
                let flag = self.random.word(FLAGS);
                self.words(flag);
            }
            self.words(")");
        }
    }

    /// A section of typed names; an empty one is mostly left away.
    fn named_section(&mut self, title: &str, list: &[Named]) {
        if !list.is_empty() || self.random.chance(25) {
            self.words("(");
            self.words(title);
            self.named(list, "");
            self.words(")");
        }
    }

    /// Typed names; neighbours of one kind may share its mention, the last objects go without.
    fn named(&mut self, list: &[Named], mark: &str) {
        let share = *self.random.pick(&[0, 50, 100]);
        let mut bare = false;
        for (index, named) in list.iter().enumerate() {
            self.out.push(format!("{mark}{}", named.name));
            let rest = &list[index + 1..];
            let plain = named.kind == 0 && rest.iter().all(|other| other.kind == 0);
            bare = bare || (plain && self.random.chance(50));
            let shared = rest.first().is_some_and(|next| next.kind == named.kind);
            if !(bare || shared && self.random.chance(share)) {
                self.words("-");
                self.words(&self.world.types[named.kind].name);
            }
        }
    }

    fn heads_section(&mut self, title: &str, heads: &[Head]) {
        if heads.is_empty() && self.random.chance(75) {
            return;
        }
        self.words("(");
        self.words(title);
        for head in heads {
            let mut arguments = Vec::new();
            for kind in &head.wants {
                let name = fresh_variable(self.random, &arguments);
                arguments.push(Named { name, kind: *kind });
            }
            self.words("(");
            self.words(&head.name);
            self.named(&arguments, "?");
            self.words(")");
        }
        self.words(")");
    }

    fn action(&mut self, action: &Action) {
        let parameters = &action.parameters;
        self.words("(");
        self.words(if action.duration.is_some() {
            ":durative-action"
        } else {
            ":action"
        });
        self.words(&action.name);
        self.words(":parameters (");
        self.named(parameters, "?");
        self.words(")");
        if let Some(rule) = &action.duration {
            self.words(":duration ( = ?duration");
            self.expression(parameters, rule);
            self.words(")");
        }
        if !action.conditions.is_empty() || self.random.chance(30) {
            match action.duration {
                Some(_) => {
                    self.words(":condition");
                    self.timed(&action.conditions, |writer, part| {
                        writer.condition(parameters, part)
                    });
                }
                None => {
                    self.words(":precondition");
                    let parts: Vec<Condition> = action
                        .conditions
                        .iter()
                        .map(|(_, part)| part.clone())
                        .collect();
                    self.conditions(parameters, &parts);
                }
            }
        }
        self.effects(action);
        self.words(")");
    }

    fn effects(&mut self, action: &Action) {
        let parameters = &action.parameters;
        if action.effects.is_empty() && self.random.chance(70) {
            return;
        }
        self.words(":effect");
        if action.duration.is_some() {
            self.timed(&action.effects, |writer, part| {
                writer.effect(parameters, part)
            });
            return;
        }
        let whole = Effect::All(
            action
                .effects
                .iter()
                .map(|(_, part)| part.clone())
                .collect(),
        );
        match &action.effects[..] {
            [(_, single)] if self.random.chance(60) => self.effect(parameters, single),
            _ => self.effect(parameters, &whole),
        }
    }

    /// The parts of a durative action, under `and` unless a single one goes without.
    fn timed<T>(&mut self, parts: &[(When, T)], write: impl Fn(&mut Self, &T)) {
        let outer = parts.len() != 1 || self.random.chance(50);
        if outer {
            self.words("( and");
        }
        for (when, part) in parts {
            self.words(match when {
                When::Start => "( at start",
                When::Through => "( over all",
                When::End => "( at end",
            });
            write(self, part);
            self.words(")");
        }
        if outer {
            self.words(")");
        }
    }

    /// Conditions as one, a single one mostly without `and`.
    fn conditions(&mut self, parameters: &[Named], parts: &[Condition]) {
        match parts {
            [single] if self.random.chance(60) => self.condition(parameters, single),
            _ => self.all(parts, |writer, part| writer.condition(parameters, part)),
        }
    }

    fn all<T>(&mut self, parts: &[T], write: impl Fn(&mut Self, &T)) {
        self.words("( and");
        for part in parts {
            write(self, part);
        }
        self.words(")");
    }

    fn condition(&mut self, parameters: &[Named], condition: &Condition) {
        match condition {
            Condition::All(parts) => {
                self.all(parts, |writer, part| writer.condition(parameters, part));
            }
            Condition::Not(part) => {
                self.words("( not");
                self.condition(parameters, part);
                self.words(")");
            }
            Condition::Fact(atom) => self.atom(parameters, &self.world.predicates, atom),
            Condition::Same(left, right) => {
                self.words("( =");
                self.term(parameters, left);
                self.term(parameters, right);
                self.words(")");
            }
            Condition::Compare(operator, left, right) => {
                self.words("(");
                self.words(operator);
                self.expression(parameters, left);
                self.expression(parameters, right);
                self.words(")");
            }
        }
    }

    fn effect(&mut self, parameters: &[Named], effect: &Effect) {
        match effect {
            Effect::All(parts) => self.all(parts, |writer, part| writer.effect(parameters, part)),
            Effect::Add(atom) => self.atom(parameters, &self.world.predicates, atom),
            Effect::Delete(atom) => {
                self.words("( not");
                self.atom(parameters, &self.world.predicates, atom);
                self.words(")");
            }
            Effect::Change(word, atom, right) => {
                self.words("(");
                self.words(word);
                self.atom(parameters, &self.world.functions, atom);
                self.expression(parameters, right);
                self.words(")");
            }
        }
    }

    fn expression(&mut self, parameters: &[Named], expression: &Expression) {
        let (sign, parts): (&str, &[&Expression]) = match expression {
            Expression::Number(number) => {
                let text = written(self.random, *number, true);
                return self.words(&text);
            }
            Expression::Value(atom) => return self.atom(parameters, &self.world.functions, atom),
            Expression::Raw(words) => return self.words(words),
            Expression::Plus(left, right) => ("+", &[left, right]),
            Expression::Minus(left, right) => ("-", &[left, right]),
            Expression::Negative(part) => ("-", &[part]),
        };
        self.words("(");
        self.words(sign);
        for part in parts {
            self.expression(parameters, part);
        }
        self.words(")");
    }

    fn atom(&mut self, parameters: &[Named], heads: &[Head], atom: &Atom) {
        self.words("(");
        self.words(&name_of(heads, atom));
        for term in &atom.terms {
            self.term(parameters, term);
        }
        self.words(")");
    }

    fn term(&mut self, parameters: &[Named], term: &Term) {
        let (mark, list, index) = match term {
            Term::Parameter(index) => ("?", parameters, *index),
            Term::Object(index) => ("", &self.world.objects[..], *index),
        };
        let name = list.get(index).map_or(NO_NAME, |named| &named.name);
        self.out.push(format!("{mark}{name}"));
    }

    /// Facts and numbers mixed, now and then a fact twice.
    fn init(&mut self) {
        let world = self.world;
        let mut entries: Vec<(&Atom, Option<i64>)> = Vec::new();
        entries.extend(world.facts.iter().map(|fact| (fact, None)));
        entries.extend(
            world
                .numbers
                .iter()
                .map(|(atom, number)| (atom, Some(*number))),
        );
        if entries.is_empty() && self.random.chance(50) {
            return;
        }
        self.random.shuffle(&mut entries);
        if !world.facts.is_empty() && self.random.chance(10) {
            entries.push((self.random.pick(&world.facts), None));
        }
        self.words("( :init");
        for (atom, number) in entries {
            match number {
                None => self.atom(&[], &world.predicates, atom),
                Some(number) => {
                    self.words("( =");
                    self.atom(&[], &world.functions, atom);
                    let text = written(self.random, number, true);
                    self.words(&text);
                    self.words(")");
                }
            }
        }
        self.words(")");
    }
}
