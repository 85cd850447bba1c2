//! The decided readings of docs/DECISIONS.md: "Refusal 11".

mod common;

use common::*;

const LISTED: &str = "or imply forall exists when either * / #t scale-up scale-down change \
                      :metric :axiom :derived ?duration";

#[test]
fn listed_words() {
    let sentence = "A listed word is 11 as any token of domain or problem, also where a name is \
                    declared, and behind the last bracket.";
    for word in LISTED.split(' ') {
        check_domains(
            sentence,
            &[
                (11, format!("^{word}")),
                (11, format!("(define (domain ^{word}")),
                (11, format!("(define (domain d)) ^{word}")),
                (11, domain(&format!("(:requirements ^{word})"))),
                (11, domain(&format!("(:types ^{word})"))),
                (11, domain(&format!("(:predicates (p ^{word}))"))),
                (11, section(&format!("(:action ^{word}"))),
                (11, precondition(&format!("(^{word} (p))"))),
                (11, precondition(&format!("(q ?t ^{word})"))),
                (11, effect(&format!("(assign (f) (^{word} 1 2))"))),
                (11, effect(&format!("(assign (f) ^{word})"))),
                (11, lasting(&format!(":condition (at ^{word}"))),
            ],
        );
        check_problems(
            sentence,
            &[
                (11, problem(&format!("(:objects ^{word})"))),
                (11, init(&format!("(^{word})"))),
                (11, goal(&format!("(^{word})"))),
                (11, format!("{} ^{word}", goal("(and)"))),
            ],
        );
    }
}

#[test]
fn words_like_the_listed_ones() {
    check_domains(
        "`?or`, `:or`, `metric` are not the listed words.",
        &[
            (0, domain("(:predicates (p ?or))")),
            (3, domain("(^:or)")),
            (0, domain("(:types metric)")),
        ],
    );
}

#[test]
fn either() {
    let sentence = "`x - (^either a b)`: 11 at the word \
                    (3 at the bracket if `either` begins at or past 32,768 of a text too long).";
    let head = "(define (domain d) (:types t) (:constants x - (";
    let padding = " ".repeat(32_768 - head.len());
    let marked = head.replace("- (", "- ^(");
    check_domains(
        sentence,
        &[
            (11, domain("(:types t) (:constants x - (^either t t))")),
            (11, domain("(:types x - (^EITHER object))")),
            (11, section("(:action y :parameters (?x - ( ^either")),
            (11, format!("{head}{}^either t)))", &padding[1..])),
            (3, format!("{marked}{padding}either t)))")),
        ],
    );
    check_problems(sentence, &[(11, problem("(:objects x - (^either t u))"))]);
}

#[test]
fn brackets_in_a_types_place() {
    let sentence = "A bracket in a type's place that is not followed by `either`: \
                    3 at the bracket.";
    check_domains(
        sentence,
        &[
            (3, domain("(:types t) (:constants x - ^(t))")),
            (3, domain("(:types t) (:constants x - ^(or t))")),
            (3, domain("(:types t) (:constants x - ^(:either t))")),
            (3, domain("(:predicates (p ?x - ^()))")),
            (3, String::from("(define (domain d) (:types t - ^(")),
        ],
    );
    check_problems(sentence, &[(3, problem("(:objects x - ^(5))"))]);
}

#[test]
fn words_that_open_a_section() {
    let sentence =
        "After `(:goal ..)` a bracket opens a section and the word behind it is judged: \
                    `(^:metric` 11, any other word 3 at the word. \
                    The same for every section of domain and problem.";
    check_problems(
        sentence,
        &[
            (11, problem("(:goal (and)) (^:metric minimize (f))")),
            (3, problem("(:goal (and)) (^:length)")),
            (3, problem("(:goal (and)) (^:goal (and))")),
            (3, problem("(:goal (and)) (^goal)")),
            (3, problem("(:goal (and)) (^5)")),
            (3, problem("(:goal (and)) ^:metrics")),
            (
                4,
                "(define (problem x) (:domain d) (:goal (and)) (^".to_string(),
            ),
            (11, problem("(^:axiom)")),
            (3, problem("(^:constraints)")),
        ],
    );
    check_domains(
        sentence,
        &[
            (11, domain("(^:derived (p) (q))")),
            (3, domain("(^:process)")),
            (3, domain("(^types)")),
            (3, domain("(^(:types))")),
            (3, domain("(^)")),
        ],
    );
}

#[test]
fn requirements() {
    let sentence = "In `:requirements`: a keyword that is not carried, however long, is 11; \
                    a token that is no keyword is 3.";
    let long = letters(40);
    check_domains(
        sentence,
        &[
            (11, domain("(:requirements :typing ^:adl)")),
            (11, domain("(:requirements ^:duration-inequalities)")),
            (11, domain(&format!("(:requirements ^:{long})"))),
            (3, domain("(:requirements ^strips)")),
            (3, domain("(:requirements ^?strips)")),
            (3, domain("(:requirements ^5)")),
            (3, domain("(:requirements ^(:strips))")),
            (3, domain("(:requirements ^:strips.)")),
        ],
    );
    check_domains(
        "a name of over 32 bytes 5",
        &[(5, domain(&format!("(:requirements ^{long})")))],
    );
}

#[test]
fn carried_flags() {
    let sentence = "Flags may repeat and are not enforced.";
    check_domains(
        sentence,
        &[
            (0, domain("(:requirements :strips :strips)")),
            (0, domain("(:requirements)")),
        ],
    );
    check_domains(
        "`:strips :typing :equality :negative-preconditions :fluents :durative-actions`",
        &[(
            0,
            domain(
                "(:requirements :strips :typing :equality :negative-preconditions :fluents \
                 :durative-actions)",
            ),
        )],
    );
}

/// A durative action with this duration rule.
fn rule(rule: &str) -> String {
    durative(&format!(":duration {rule}"))
}

#[test]
fn heads_of_duration_rules() {
    let sentence = "Duration rule: any head word other than `=` (name, variable, keyword, \
                    operator; however long) is 11; a number, a bracket or `)` is 3.";
    let long = letters(40);
    let heads = format!("<= > + and not ?x ?duration :strips f {long} ?{long} :{long}");
    for head in heads.split(' ') {
        check_domains(sentence, &[(11, rule(&format!("(^{head} ?duration 5)")))]);
    }
    check_domains(
        sentence,
        &[
            (3, rule("(^5 ?duration)")),
            (3, rule("(^(= ?duration 5))")),
            (3, rule("(^[")),
            (3, rule("(^)")),
            // These are no words, and refused as they are anywhere.
            (3, rule("(^a.b)")),
            (6, rule("(^5a)")),
        ],
    );
}

#[test]
fn rest_of_duration_rules() {
    check_domains(
        "The second token must be `?duration`, else 3 (or its own refusal).",
        &[
            (3, rule("(= ^5 ?duration)")),
            (3, rule("(= ^?t 5)")),
            (3, rule("(= ^duration 5)")),
            (3, rule("(= ^(f) ?duration)")),
            (6, rule("(= ^5a 5)")),
            (11, rule("(= ^or 5)")),
            (5, rule(&format!("(= ^?{} 5)", letters(33)))),
        ],
    );
    check_domains(
        "`:duration` is `(= ?duration e)`",
        &[
            (0, rule("(= ?duration (+ 1 (f)))")),
            (3, rule("^5")),
            (3, rule("(= ?duration^)")),
            (3, rule("(= ?duration 5 ^6)")),
        ],
    );
}

#[test]
fn not_around_and() {
    let sentence = "`not` around `and`, in effects too: 11 at the `and`.";
    check_domains(
        sentence,
        &[
            (11, precondition("(not (^and (p)))")),
            (11, precondition("(and (p) (not (^AND)))")),
            (11, effect("(not (^and (p)))")),
            (11, lasting(":condition (over all (not (^and)))")),
            (11, lasting(":effect (and (at end (not (^and))))")),
        ],
    );
    check_problems(sentence, &[(11, goal("(not (^and))"))]);
}

#[test]
fn duration_elsewhere() {
    let sentence = "Refusal 11 is for: .. `?duration` elsewhere.";
    check_domains(
        sentence,
        &[
            (11, precondition("(= ^?duration 5)")),
            (11, effect("(increase (f) ^?duration)")),
            (11, durative(":duration (= ?duration ^?duration)")),
            (11, durative(":duration (= ?duration (+ 1 ^?duration))")),
            (11, section("(:action x :parameters (^?duration))")),
        ],
    );
    check_problems(sentence, &[(11, goal("(q ^?duration)"))]);
}
