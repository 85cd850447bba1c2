//! Rows 1 to 7 of the refusal table at several places of domain and problem, each with the
//! sentence of the rules that decides.

mod common;

use common::*;

#[test]
fn row_1_too_long() {
    let sentence = "Domain and problem 32,768 bytes each; 1: place 32,768";
    let comment = |length: usize| format!(";{}", "-".repeat(length - 1));
    check_domains(
        sentence,
        &[
            (4, format!("{}^", comment(32_768))),
            (1, format!("{}^-", comment(32_768))),
            (1, format!("{}^{}", comment(32_768), "-".repeat(100_000))),
            (2, format!("^\u{1}{}", comment(32_768))),
            (1, format!("{}^\u{1}", comment(32_768))),
        ],
    );
    let goal = problem("(:goal (and))");
    let padding = |length: usize| " ".repeat(length - goal.len());
    check_problems(
        sentence,
        &[
            (0, format!("{}{goal}", padding(32_768))),
            (1, format!("{goal}{}^ ", padding(32_768))),
            (1, format!("{}^x{goal}", " ".repeat(32_768))),
        ],
    );
}

#[test]
fn row_2_bytes() {
    let sentence =
        "Tab, LF, CR and space are white; only they and 33 to 126 are allowed, comments \
                    included.";
    check_domains(
        sentence,
        &[
            (2, "^\u{b}(define (domain d))"),
            (2, "(define ^\u{c}(domain d))"),
            (2, "(define (domain d)) ; ^\u{1f}"),
            (2, "(define (domain d)^\u{7f})"),
            (2, "(define (domain d))^\u{0}"),
            (2, "(define (domain d)) ^\u{80}"),
            (0, "\t(define\r\n(domain d) ) ; !\"#$%&'*,./:<=>?@[]_`{|}~"),
        ],
    );
    check_problems(sentence, &[(2, goal("(and) ^\u{8}"))]);
}

#[test]
fn row_3_tokens_around_the_sections() {
    let sentence = "3: token not allowed here, by no other row: the token";
    check_domains(
        sentence,
        &[
            (3, "^)"),
            (3, "^define"),
            (3, "(^(domain d))"),
            (3, "(^domain d)"),
            (3, "(define ^domain d)"),
            (3, "(define (^problem d)"),
            (3, "(define (domain ^?d)"),
            (3, "(define (domain ^5)"),
            (3, "(define (domain^)"),
            (3, "(define (domain d ^e)"),
            (3, "(define (domain d)) ^)"),
            (3, "(define (domain d)) ^(define"),
        ],
    );
}

#[test]
fn row_3_tokens_of_sections() {
    let sentence = "3: token not allowed here, by no other row: the token";
    check_domains(
        sentence,
        &[
            (3, domain("^d")),
            (3, domain("(:types ^?a)")),
            (3, domain("(:types ^5)")),
            (3, domain("(:types ^(a))")),
            (3, domain("(:types ^- object)")),
            (3, domain("(:types a - object ^- object)")),
            (3, domain("(:types a -^)")),
            (3, domain("(:types a - ^?b)")),
            (3, domain("(:predicates ^p)")),
            (3, domain("(:predicates (^?p))")),
            (3, domain("(:predicates (^))")),
            (3, domain("(:predicates (p ^x))")),
            (3, domain("(:predicates (p ^(?x)))")),
        ],
    );
}

#[test]
fn row_3_tokens_of_actions() {
    let sentence = "3: token not allowed here, by no other row: the token";
    check_domains(
        sentence,
        &[
            (3, section("(:action ^:parameters ())")),
            (3, section("(:action x :parameters ^?t)")),
            (3, action(":precondition ^p")),
            (3, action(":precondition (p) ^(p)")),
            (3, action("^:condition (p)")),
            (3, action(":effect (p) ^:effect (p)")),
            (3, action(":effect (p) ^:precondition (p)")),
            (3, precondition("(^?t)")),
            (3, precondition("(^:p)")),
            (3, precondition("(^+ 1 2)")),
            (3, precondition("(and ^p)")),
            (3, precondition("(not ^p)")),
            (3, effect("(^= (f) 1)")),
            (3, effect("(not (^= ?t ?u))")),
            (3, effect("(assign (^+ 1 2) 3)")),
            (3, effect("(assign (f) (^= 1 2))")),
            (3, lasting("^:precondition (p)")),
        ],
    );
}

#[test]
fn row_3_tokens_of_init() {
    let sentence = "Init holds atoms and `(= (f ..) number)`";
    check_problems(
        sentence,
        &[
            (3, init("^p")),
            (3, init("(^< (f) 1)")),
            (3, init("(^?x)")),
            (3, init("(= ^5 (f))")),
            (3, init("(= (^+ 1 2) 3)")),
            (3, init("(= (f) ^(f))")),
            (3, init("(= (f)^)")),
            (3, init("(= (f) 1 ^2)")),
            (0, init("(= (f) -1) (p)")),
        ],
    );
}

#[test]
fn row_3_order_of_sections() {
    let sentence = "In order, a domain has requirements, types, constants, predicates, functions, \
                    actions of both kinds, each optional";
    check_domains(
        sentence,
        &[
            (0, "(define (domain d))".to_string()),
            (
                0,
                domain("(:requirements) (:types) (:constants) (:predicates) (:functions)"),
            ),
            (3, domain("(:types) (^:requirements)")),
            (3, domain("(:types a) (^:types b)")),
            (3, domain("(:predicates) (^:constants)")),
            (3, domain("(:functions) (^:predicates)")),
            (3, domain("(:action x :parameters ()) (^:functions)")),
            (
                0,
                section(
                    "(:action x :parameters ()) (:durative-action y :parameters () \
                 :duration (= ?duration 1)) (:action z :parameters ())",
                ),
            ),
            (3, domain("(^:objects)")),
        ],
    );
}

#[test]
fn row_3_order_of_sections_in_problems() {
    let sentence = "a problem domain, objects, init, goal, the middle two optional";
    let start = "(define (problem x) ";
    check_problems(
        sentence,
        &[
            (0, problem("(:goal (and))")),
            (3, problem("^")),
            (3, format!("{start}^)")),
            (3, format!("{start}(^:goal (and)))")),
            (3, problem("(:objects a) ^")),
            (3, problem("(:init) ^")),
            (3, problem("(:init) (^:objects a)")),
            (3, problem("(:objects a) (^:objects b)")),
            (3, problem("(:init) (^:init)")),
            (3, problem("(^:domain d)")),
            (3, problem("(:goal^)")),
            (3, problem("(:goal ^p)")),
            (3, problem("(:goal (and) ^(and))")),
            (3, format!("{} ^(", problem("(:goal (and))"))),
            (3, "(define (^domain d))".to_string()),
            (3, format!("{start}(:domain^)")),
            (3, format!("{start}(:domain d ^d)")),
        ],
    );
}

#[test]
fn row_4_ends() {
    let sentence = "4: text, or plan line, ends in the middle: its end";
    check_domains(
        sentence,
        &[
            (4, "^"),
            (4, " ; nothing\n ^"),
            (4, "(^"),
            (4, "(define (domain d)^"),
            (4, "(define (domain d) (:types a - ^"),
            (4, "(define (domain d) ; )^"),
        ],
    );
    check_problems(
        sentence,
        &[
            (4, "(define (problem x) (:domain d) (:goal (and)) ^"),
            (4, "(define (problem x) (:domain d) (:init (= (f)^"),
        ],
    );
}

#[test]
fn row_5_long_names() {
    let sentence = "names 32 bytes; 5: name too long: the name";
    let (fits, long) = (letters(32), letters(33));
    check_domains(
        sentence,
        &[
            (0, format!("(define (domain {fits}))")),
            (5, format!("(define (domain ^{long}))")),
            (0, domain(&format!("(:types {fits})"))),
            (5, domain(&format!("(:types ^{long})"))),
            (5, precondition(&format!("(= ?t ^?{long})"))),
            (5, action(&format!("^:{long}"))),
        ],
    );
    check_problems(
        sentence,
        &[
            (0, problem(&format!("(:objects {fits}) (:goal (and))"))),
            (5, problem(&format!("(:objects ^{long})"))),
            (5, format!("(define (problem x) (:domain ^{long}))")),
        ],
    );
}

#[test]
fn row_6_numbers() {
    let sentence =
        "A number is 1 to 9 digits, perhaps a point and 1 to 3 digits, and outside plans \
                    perhaps a leading minus.";
    for number in [
        "0",
        "999999999.999",
        "-999999999.999",
        "0.5",
        "-0",
        "007",
        "1.25",
    ] {
        check_domains(sentence, &[(0, effect(&format!("(assign (f) {number})")))]);
        check_problems(sentence, &[(0, init(&format!("(= (f) {number})")))]);
    }
    for number in [
        "1000000000",
        "1.2345",
        "-1.",
        "-1.2.3",
        "1,5",
        "1+1",
        "2?",
        "0x1",
        "1:",
    ] {
        check_domains(sentence, &[(6, effect(&format!("(assign (f) ^{number})")))]);
        check_problems(sentence, &[(6, goal(&format!("(< ^{number} 1)")))]);
    }
}

#[test]
fn row_7_given_twice() {
    let sentence = "For 7, types (with `object`), objects with constants, predicates, functions, \
                    actions, and one declaration's parameters are separate.";
    let all = "(:types a) (:constants a) (:predicates (a ?a)) (:functions (a ?a)) \
               (:action a :parameters (?a))";
    check_domains(
        sentence,
        &[
            (0, domain(all)),
            (7, domain("(:types a b ^a)")),
            (7, domain("(:types a - object ^A - a)")),
            (7, domain("(:constants a b - object ^b)")),
            (7, domain("(:predicates (p) (q) (^p ?x))")),
            (7, domain("(:predicates (p ?x ?y ^?X))")),
            (7, domain("(:functions (f ?x ^?x))")),
            (7, domain("(:functions (f) (^f))")),
            (7, domain("(:action x :parameters ()) (:durative-action ^x")),
            (7, section("(:action x :parameters (?a ?b - t ^?a))")),
        ],
    );
    check_problems(
        sentence,
        &[
            (7, problem("(:objects a b ^A)")),
            (7, problem("(:objects ^ct)")),
            (7, init("(= (h ot ou) 1) (= (h ou ot) 1) (= (^h ot ou) 1)")),
        ],
    );
}
