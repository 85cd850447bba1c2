//! The bench of the rules' examples (RULES 14), and a wider one for crowds of waiting points.

use super::world::{Action, Atom, Condition, Effect, Expression, Head, Named, Term, When, World};

fn over_pump(head: usize) -> Atom {
    Atom {
        head,
        terms: vec![Term::Parameter(0)],
    }
}

fn action(name: &str, duration: Option<Expression>) -> Action {
    let pump = Named {
        name: "p".to_string(),
        kind: 1,
    };
    Action {
        name: name.to_string(),
        parameters: vec![pump],
        duration,
        conditions: Vec::new(),
        effects: Vec::new(),
    }
}

const READY: usize = 0;
const ON: usize = 1;
const LOCK: usize = 0;
const DOSES: usize = 1;

fn one_more() -> Effect {
    Effect::Change("increase", over_pump(DOSES), Expression::Number(1000))
}

fn dose() -> Action {
    let mut dose = action("dose", Some(Expression::Value(over_pump(LOCK))));
    dose.conditions = vec![
        (When::Start, Condition::Fact(over_pump(READY))),
        (When::Through, Condition::Fact(over_pump(ON))),
    ];
    dose.effects = vec![
        (When::Start, Effect::Delete(over_pump(READY))),
        (When::End, Effect::Add(over_pump(READY))),
        (When::End, one_more()),
    ];
    dose
}

fn simple_actions() -> [Action; 3] {
    let mut off = action("off", None);
    off.conditions = vec![(When::Start, Condition::Fact(over_pump(ON)))];
    off.effects = vec![(When::Start, Effect::Delete(over_pump(ON)))];
    let mut note = action("note", None);
    note.effects = vec![(When::Start, one_more())];
    let mut zero = action("zero", None);
    let nothing = Effect::Change("assign", over_pump(DOSES), Expression::Number(0));
    zero.effects = vec![(When::Start, nothing)];
    [off, note, zero]
}

/// Pumps that are ready and on, one for each lock, and no actions.
fn pumps(locks: &[i64]) -> World {
    let mut world = World::empty("bench");
    let named = |name: String, kind| Named { name, kind };
    let head = |name: &str| Head {
        name: name.to_string(),
        wants: vec![1],
    };
    world.types.push(named("pump".to_string(), 0));
    world.predicates = vec![head("ready"), head("on")];
    world.functions = vec![head("lock"), head("doses")];
    for (object, lock) in locks.iter().enumerate() {
        let of = |head| Atom {
            head,
            terms: vec![Term::Object(object)],
        };
        let letter = (b'a' + object as u8) as char;
        world.objects.push(named(letter.to_string(), 1));
        world.facts.extend([of(READY), of(ON)]);
        world.numbers.extend([(of(LOCK), *lock), (of(DOSES), 0)]);
    }
    world
}

/// The bench of the examples.
pub fn bench() -> World {
    let mut world = pumps(&[5000, 5000]);
    world.actions.push(dose());
    world.actions.extend(simple_actions());
    world
}

/// The locks of the crowd's pumps.
pub const LOCKS: &[i64] = &[1, 1999, 2000, 5000, 5001, 60_000, 300_000];
/// The crowd's actions: two that never stand in each other's way, and two that do.
pub const HOLD: usize = 0;
pub const NOTE: usize = 1;
pub const OFF: usize = 2;
pub const ZERO: usize = 3;

/// A bench on which one pump may be held by any number of lines at once.
pub fn crowd() -> World {
    let mut world = pumps(LOCKS);
    let mut hold = action("hold", Some(Expression::Value(over_pump(LOCK))));
    hold.conditions = vec![(When::Through, Condition::Fact(over_pump(ON)))];
    hold.effects = vec![(When::End, one_more())];
    let [off, note, zero] = simple_actions();
    world.actions = vec![hold, note, off, zero];
    world
}
