//! Conditions, effects, expressions and brackets at their limits and one past them.

use super::{domain_text, pieces, problem_text, List, NO_SECTIONS, SYMBOLS};

/// Single conditions: atoms, denied ones, comparisons and equalities in turn.
fn single_condition(index: usize) -> String {
    match index % 4 {
        0 => "(^p)".to_string(),
        1 => "(not (^q c))".to_string(),
        2 => format!("(^>= (f) {index})"),
        _ => "(^= c c)".to_string(),
    }
}

pub fn conditions(list: &mut List) {
    let symbols = format!("(:constants c) {SYMBOLS}");
    for turn in 0..4 {
        let single = |index: usize| single_condition(index + turn);
        list.domain("conditions", 32, |count| {
            let parts = pieces(count, 32, single);
            format!("{symbols} (:action a :parameters () :precondition (and {parts}))")
        });
        list.problem("conditions of the goal", &symbols, 64, |count| {
            format!("(:goal (and (and) {}))", pieces(count, 64, single))
        });
    }
    list.domain("conditions of a durative action", 32, |count| {
        let start = pieces(10, 10, single_condition);
        let all = pieces(12, 12, single_condition);
        let end = pieces(count - 22, 10, single_condition);
        format!(
            "{symbols} (:durative-action a :parameters () :duration (= ?duration 1) :condition \
             (and (at start (and {start})) (over all (and {all})) (at end (and {end}))))"
        )
    });
}

fn single_effect(index: usize) -> String {
    match index % 4 {
        0 => "(^p)".to_string(),
        1 => "(not (^q c))".to_string(),
        2 => format!("(^increase (f) {index})"),
        _ => "(^assign (g c) (f))".to_string(),
    }
}

pub fn effects(list: &mut List) {
    let symbols = format!("(:constants c) {SYMBOLS}");
    for turn in 0..4 {
        list.domain("effects", 16, |count| {
            let parts = pieces(count, 16, |index| single_effect(index + turn));
            format!("{symbols} (:action a :parameters () :effect (and {parts}))")
        });
    }
    list.domain("effects of a durative action", 16, |count| {
        let start = pieces(9, 9, single_effect);
        let end = pieces(count - 9, 7, single_effect);
        format!(
            "{symbols} (:durative-action a :parameters () :duration (= ?duration 1) :effect \
             (and (at start (and {start})) (at end (and {end}))))"
        )
    });
}

/// So many sums one in the other around what stands innermost: two of the size for each.
fn nested(sums: usize, innermost: &str) -> String {
    format!("{}{innermost}{}", "(+ 1 ".repeat(sums), ")".repeat(sums))
}

pub fn expressions(list: &mut List) {
    list.expression("expression", 12, &nested(7, "(- 1)"));
    list.expression("expression, a number", 12, &nested(7, "(- 1 ^1)"));
    list.expression("expression, a function", 12, &nested(7, "(+ 1 (^f))"));
    list.expression("expression, an operator", 12, &nested(7, "(+ 1 (^- 1))"));
}

fn wrapped(open: &str, times: usize, innermost: &str) -> String {
    format!("{}{innermost}{}", open.repeat(times), ")".repeat(times))
}

/// The whole text's bracket and a section's are two of the 16; `(at end` and the comparison count.
pub fn depths(list: &mut List) {
    let plain = |inner: &str, times| wrapped("(and ", times, inner);
    let timed = |inner: &str, times| {
        format!(
            "(:durative-action a :parameters () :duration (= ?duration 1) :condition (at end {}))",
            wrapped("(and ", times, inner)
        )
    };
    for (inner, times) in [
        ("(p)", 13),
        ("^(p)", 14),
        ("(not (p))", 12),
        ("(not ^(p))", 13),
    ] {
        let goal = problem_text(&format!("(:goal {})", plain(inner, times)));
        list.add("depth of the goal", 12, domain_text(SYMBOLS), goal);
        let simple = format!(
            "(:action a :parameters () :precondition {})",
            plain(inner, times)
        );
        let effect = format!("(:action a :parameters () :effect {})", plain(inner, times));
        for action in [simple, effect, timed(inner, times - 1)] {
            let domain = domain_text(&format!("{SYMBOLS} {action}"));
            list.add("depth", 12, domain, problem_text(NO_SECTIONS));
        }
    }
    for (inner, times) in [("1", 13), ("^(f)", 13), ("(- 1)", 12), ("^(- 1)", 13)] {
        let goal = format!("(:goal (< 0 {}))", wrapped("(- ", times, inner));
        let problem = problem_text(&goal);
        list.add("depth of an expression", 12, domain_text(SYMBOLS), problem);
    }
}
