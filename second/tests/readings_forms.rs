//! The decided readings of docs/DECISIONS.md: "Forms and sizes".

mod common;

use common::*;

#[test]
fn untyped_functions_and_empty_brackets() {
    check_domains(
        "`(:functions (f) - number)`: 3 at `-`.",
        &[(3, domain("(:functions (f) ^- number)"))],
    );
    let sentence = "`()` as a condition or effect: 3 at `)`.";
    check_domains(
        sentence,
        &[
            (3, precondition("(^)")),
            (3, precondition("(and (p) (^))")),
            (3, precondition("(not (^))")),
            (3, effect("(^)")),
            (3, lasting(":condition (^)")),
            (3, lasting(":effect (at end (^))")),
        ],
    );
    check_problems(sentence, &[(3, goal("(^)"))]);
}

#[test]
fn parts_needed_and_not_wanted() {
    let sentence = "`:parameters` is needed; `:duration` is needed in durative actions only.";
    check_domains(
        sentence,
        &[
            (3, section("(:action x^)")),
            (3, section("(:action x ^:effect (p))")),
            (
                3,
                section("(:durative-action x ^:duration (= ?duration 1))"),
            ),
            (0, section("(:action x :parameters ())")),
            (3, action("^:duration (= ?duration 1)")),
            (3, durative("^:condition (at start (p))")),
            (3, durative("^)")),
            (0, durative(":duration (= ?duration 1)")),
        ],
    );
    let sentence = "`:requirements` in a problem: 3.";
    check_problems(
        sentence,
        &[
            (3, problem("(^:requirements :strips)")),
            (
                3,
                "(define (problem x) (^:requirements) (:domain d) (:goal (and)))".to_string(),
            ),
        ],
    );
}

#[test]
fn durative_parts() {
    let sentence = "A durative part with another head than `at`, `over` (or the one outer `and`): \
                    3 at that word.";
    check_domains(
        sentence,
        &[
            (3, lasting(":condition (^p)")),
            (3, lasting(":condition (^zz)")),
            (3, lasting(":condition (^not (at start (p)))")),
            (3, lasting(":condition (and (at start (p)) (^and))")),
            (3, lasting(":condition (and (^p))")),
            (3, lasting(":effect (^assign (f) 1)")),
            (3, lasting(":effect (and (^q ?t))")),
            (3, lasting(":effect (^5)")),
            (0, lasting(":condition (over all (and (p) (and)))")),
            (0, lasting(":condition (and) :effect (and)")),
        ],
    );
}

#[test]
fn moments_of_durative_parts() {
    let sentence = "each part .. is `at start`, `over all` (conditions only) or `at end`";
    check_domains(
        sentence,
        &[
            (3, lasting(":effect (^over all (p))")),
            (3, lasting(":condition (at ^all (p))")),
            (3, lasting(":condition (over ^start (p))")),
            (3, lasting(":condition (at ^(p))")),
            (3, lasting(":condition (at start ^p)")),
        ],
    );
    let sentence = "In a simple action `at` is a predicate's name like any other.";
    check_domains(
        sentence,
        &[
            (0, precondition("(at ?o)")),
            (8, precondition("(at ^start (p))")),
            (8, precondition("(^over all (p))")),
            (0, effect("(and (at ?o) (not (at ?t)))")),
            (0, lasting(":condition (at start (at ?o))")),
        ],
    );
}

/// The text with spaces before its last bracket, so that it has this length.
fn padded(text: &str, length: usize) -> String {
    let marks = text.matches('^').count();
    let (head, last) = text.split_at(text.len() - 1);
    format!("{head}{}{last}", " ".repeat(length + marks - text.len()))
}

#[test]
fn text_too_long() {
    let sentence = "Text too long: a refusal below place 32,768 comes first; a token that begins \
                    below it is read whole; whatever begins at or past it is 1.";
    let limit = 32_768;
    let whole = padded("(define (domain d))", limit);
    // Everything up to a token that begins in the last place below the limit.
    let before = &padded("(define (domain d) (:types )", limit)[..limit - 1];
    check_domains(
        sentence,
        &[
            (0, whole.clone()),
            (1, format!("{whole}^ ")),
            (1, format!("{whole}^\u{7f}")),
            (1, format!("{whole}^;")),
            (4, format!("{}^", &whole[..limit - 1])),
            (3, padded("(define ^domain)", limit + 1)),
            (5, format!("{before}^{})", letters(33))),
            (11, format!("{before}^either)")),
            (3, format!("{before}^12.5 )")),
            (6, format!("{before}^12.5a)")),
        ],
    );
    // The name is read whole and accepted, and the bracket after it is not read.
    let named = format!("{before}name))");
    assert_eq!(line(&named, "", ""), "refused domain 1 32768 0\n");
    let long_comment = format!("(define (domain d)) ;{}", "-".repeat(limit));
    assert_eq!(line(&long_comment, "", ""), "refused domain 1 32768 0\n");
    let problem = padded(&problem("(:goal (and))"), limit);
    check_problems(
        sentence,
        &[(0, problem.clone()), (1, format!("{problem}^\n"))],
    );
}

#[test]
fn operators_and_operands() {
    let sentence = "16 operators and operands: each side of a comparison is an expression of its \
                    own; `+`, `-`, numbers and `(f ..)` count one each, a function's arguments do \
                    not.";
    // 15 are minus and seven times plus and a function; one more is the most.
    let fifteen = format!("(- {}", "(+ (h ?t ?u) ".repeat(7));
    let most = format!("{fifteen}(f){})", ")".repeat(7));
    let full = |last: &str| format!("{fifteen}{last}");
    check_domains(
        sentence,
        &[
            (0, effect(&format!("(assign (f) {most})"))),
            (0, precondition(&format!("(< {most} {most})"))),
            (0, durative(&format!(":duration (= ?duration {most})"))),
            (12, effect(&format!("(assign (f) {}", full("(- ^1")))),
            (12, effect(&format!("(assign (f) {}", full("(- (^f")))),
            (12, effect(&format!("(assign (f) {}", full("(- (^-")))),
            (12, precondition(&format!("(< {}", full("(- ^1")))),
            (12, precondition(&format!("(< {most} {}", full("(- (^+")))),
            (
                12,
                durative(&format!(":duration (= ?duration {}", full("(- ^1"))),
            ),
        ],
    );
}

#[test]
fn conditions_of_durative_actions() {
    let sentence = "32 conditions over start, all and end together, `not` and `and` not counted, \
                    the duration rule not counted.";
    let most = format!(
        ":condition (and (at start (and {0})) (over all (and {0}(not (= ?t ?u)))) (at end (and {0}(p)))",
        times(10, "(p) ")
    );
    check_domains(
        sentence,
        &[
            (0, lasting(&format!("{most})"))),
            (12, lasting(&format!("{most} (at start (^p)))"))),
            (12, lasting(&format!("{most} (over all (not (^= ?t ?u))))"))),
            (
                12,
                lasting(&format!("{most} (at end (and (and) (^< 1 2))))")),
            ),
        ],
    );
}

#[test]
fn depth() {
    let sentence = "Depth counts from the text's first bracket.";
    // The section stands at depth 2, its condition at 3, so thirteen `and` reach 15.
    let ands = "(and ".repeat(13);
    let ends = ")".repeat(13);
    check_domains(
        sentence,
        &[
            (0, precondition(&format!("{ands}(p){ends}"))),
            (12, precondition(&format!("{ands}(not ^(p)){ends}"))),
            (12, precondition(&format!("{ands}(and ^(p)){ends}"))),
            (12, effect(&format!("{ands}(assign ^(f) 1)){ends}"))),
        ],
    );
    check_problems(
        sentence,
        &[
            (0, goal(&format!("{ands}(p){ends}"))),
            (12, goal(&format!("{ands}(and ^(p)){ends}"))),
        ],
    );
}

#[test]
fn power_of_no_objects() {
    let sentence = "n to the power 0 is 1, also for n = 0.";
    let domain = domain("(:predicates (p) (q ?x) (r)) (:functions (f) (g ?x))");
    let problem = problem("(:init (r) (= (f) 2.5)) (:goal (r))");
    let expected = "valid 0.000 0 0\n01\n2500\n";
    assert_eq!(written(&domain, &problem, ""), expected, "{sentence}");
}
