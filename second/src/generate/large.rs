//! A domain and a problem of the greatest length that load, dense with short names: for timing.

const MOST: usize = 32_768;

pub fn pair() -> (Vec<u8>, Vec<u8>) {
    (filled(domain()), filled(problem()))
}

/// Spaces up to the greatest length.
fn filled(mut text: String) -> Vec<u8> {
    while text.len() < MOST {
        text.push(' ');
    }
    text.into_bytes()
}

fn joined(count: usize, piece: impl Fn(usize) -> String) -> String {
    (0..count).map(piece).collect::<Vec<_>>().join(" ")
}

/// Names of one length, so that length alone tells none apart.
fn object(index: usize) -> String {
    format!("o{index:02}")
}

/// All sizes of names at their limits; 29 * 64 + 3 * 64 * 64 facts and 16 * 64 numbers.
fn domain() -> String {
    let types = joined(15, |index| format!("t{:x} - t{index:x}", index + 1));
    let predicates = joined(32, |index| match index < 29 {
        true => format!("(p{index:02} ?x - t0)"),
        false => format!("(p{index:02} ?x ?y - t0)"),
    });
    let functions = joined(16, |index| format!("(f{index:x} ?x - t0)"));
    let conditions = joined(32, |index| format!("(p{} ?c ?d)", 29 + index % 3));
    let effects = joined(16, |index| {
        format!("(increase (f{index:x} ?d) (+ (ff ?c) 1))")
    });
    let actions = joined(32, |index| {
        format!(
            "(:action a{index:02} :parameters (?a ?b ?c ?d - tf) :precondition (and {conditions}) \
             :effect (and {effects}))"
        )
    });
    format!(
        "(define (domain large) (:types t0 - object {types}) (:predicates {predicates}) \
         (:functions {functions}) {actions})"
    )
}

fn problem() -> String {
    let objects = joined(64, object);
    let numbers = joined(1024, |index| {
        format!("(= (f{:x} {}) 5)", index / 64, object(index % 64))
    });
    let facts = joined(1150, |index| {
        format!(
            "(p{} {} {})",
            29 + index % 3,
            object(63 - index / 64),
            object(63 - index % 64)
        )
    });
    let goal = joined(64, |index| format!("(p31 o63 {})", object(index)));
    format!(
        "(define (problem full) (:domain large) (:objects {objects} - tf) \
         (:init {numbers} {facts}) (:goal (and {goal})))"
    )
}
