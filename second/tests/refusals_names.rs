//! Rows 8 to 13 of the refusal table at several places of domain and problem, each with the
//! sentence of the rules that decides.

mod common;

use common::*;

#[test]
fn row_8_undeclared() {
    let sentence =
        "8: undeclared name, or action's variable, where a declared one is due: the name";
    check_domains(
        sentence,
        &[
            (8, domain("(:types a - ^b)")),
            (8, domain("(:constants c - ^t)")),
            (8, domain("(:predicates (p ?x ?y - ^t))")),
            (8, domain("(:functions (f ?x - ^t))")),
            (8, section("(:action x :parameters (?a - ^v))")),
            (8, precondition("(^zz)")),
            (8, precondition("(^f)")),
            (8, precondition("(q ^ot)")),
            (8, precondition("(q ^?x)")),
            (8, precondition("(= ^?x ?t)")),
            (8, precondition("(= ?t ^t)")),
            (8, precondition("(< (^p) 1)")),
            (8, effect("(^zz)")),
            (8, effect("(not (^f))")),
            (8, effect("(assign (^p) 1)")),
            (8, effect("(assign (f) (- (^zz)))")),
            (8, durative(":duration (= ?duration (g ^?x))")),
            (8, lasting(":condition (at start (^start))")),
        ],
    );
}

#[test]
fn row_8_undeclared_in_problems() {
    let sentence = "8: undeclared name .. where a declared one is due: the name";
    check_problems(
        sentence,
        &[
            (8, problem("(:objects a - ^v)")),
            (8, init("(^zz)")),
            (8, init("(q ^zz)")),
            (8, init("(= (^p) 1)")),
            (8, init("(= (g ^zz) 1)")),
            (8, goal("(^zz)")),
            (8, goal("(not (q ^t))")),
            (8, goal("(> 1 (g ^zz))")),
            (0, goal("(and (q ot) (q ct) (= cu ou))")),
        ],
    );
}

#[test]
fn row_9_counts() {
    let sentence = "9: wrong count of arguments: first extra one, or the closing bracket";
    check_domains(
        sentence,
        &[
            (9, precondition("(q^)")),
            (9, precondition("(r ?t ^)")),
            (9, precondition("(p ^?t ?t)")),
            (9, effect("(not (q^))")),
            (9, effect("(assign (h ?t^) 1)")),
            (9, effect("(assign (f) (g^))")),
        ],
    );
    check_problems(
        sentence,
        &[
            (9, init("(r ot^)")),
            (9, init("(p ^ot)")),
            (9, init("(= (f ^ot) 1)")),
            (9, init("(= (g^) 1)")),
            (9, goal("(r ot ot ^ot)")),
        ],
    );
}

#[test]
fn row_10_types() {
    let sentence = "10: argument's type isn't the wanted type or below it: the argument";
    check_domains(
        sentence,
        &[
            (0, precondition("(and (q ?t) (q ct) (q cs) (r ?t cu))")),
            (10, precondition("(q ^?u)")),
            (10, precondition("(q ^?o)")),
            (10, precondition("(q ^cu)")),
            (10, effect("(not (q ^?u))")),
            (10, effect("(increase (g ^?o) 1)")),
            (10, effect("(assign (f) (+ 1 (g ^cu)))")),
            (10, durative(":duration (= ?duration (g ^?u))")),
        ],
    );
    check_problems(
        sentence,
        &[
            (0, init("(q ot) (q os) (q cs) (= (g os) 1)")),
            (10, init("(q ^oo)")),
            (10, init("(= (g ^ou) 1)")),
            (10, goal("(not (q ^ou))")),
            (10, goal("(< (g ^cu) 1)")),
        ],
    );
}

#[test]
fn row_10_untyped_names() {
    let sentence = "An untyped name is an `object`.";
    let typed = domain("(:types t) (:predicates (q ?x - t) (r ?x - object))");
    check_problems_of(
        &typed,
        sentence,
        &[
            (
                0,
                problem("(:objects a - t b - object c) (:goal (and (q a) (r b) (r c)))"),
            ),
            (10, problem("(:objects a - t b - object c) (:goal (q ^b))")),
            (10, problem("(:objects a - t b - object c) (:goal (q ^c))")),
        ],
    );
}

#[test]
fn row_11_not_carried() {
    let sentence = "In domain and problem all these are 11, whatever else applies there.";
    check_domains(
        sentence,
        &[
            (11, domain("(:types a a2 - ^either)")),
            (11, domain(&format!("(:types {}^or)", times(16, "t# ")))),
            (11, domain("(:predicates (p ?a ?b ?c ^?duration))")),
            (11, precondition("(^forall (?x) (p))")),
            (11, precondition("(p ^exists)")),
            (11, effect("(^when (p) (p))")),
            (11, effect("(^scale-up (f) 2)")),
            (11, effect("(increase (f) (^* 1 2))")),
            (11, lasting(":effect (^change (f) 1)")),
            (11, lasting(":effect (at end (increase (f) ^#t))")),
            (11, lasting(":condition (^imply (p) (p))")),
        ],
    );
    check_problems(
        sentence,
        &[
            (
                11,
                problem("(:objects a) (^:metric minimize (f)) (:goal (and))"),
            ),
            (11, "(define (problem x) (:domain ^or))".to_string()),
            (11, init("(= (f) ^/)")),
            (11, goal("(^or (p))")),
        ],
    );
}

const SIZES: &str = "types 16 besides `object`; objects with constants 64; predicates 32 of at \
                     most 3 arguments; functions 16 of at most 2; actions 32 of at most 4 parameters";

#[test]
fn row_12_declared_names() {
    // What stands before, so many names, what one more looks like, and what closes the section.
    for (before, count, name, more, behind) in [
        ("(:types ", 16, "t# ", "^x", ")"),
        ("(:types ", 16, "t# ", "- object ^x", ")"),
        ("(:constants ", 64, "c# ", "^x y", ")"),
        ("(:predicates ", 32, "(p#)", "(^x)", ")"),
        ("(:functions ", 16, "(f#)", "(^x)", ")"),
        (
            "",
            32,
            "(:action a# :parameters ())",
            "(:action ^x :parameters ())",
            "",
        ),
        (
            "",
            32,
            "(:action a# :parameters ())",
            "(:durative-action ^x",
            "",
        ),
    ] {
        let most = format!("{before}{}", times(count, name));
        check_domains(
            SIZES,
            &[
                (0, domain(&format!("{most}{behind}"))),
                (12, domain(&format!("{most}{more}{behind}"))),
            ],
        );
    }
}

#[test]
fn row_12_parameters() {
    check_domains(
        SIZES,
        &[
            (0, domain("(:predicates (p ?a ?b ?c))")),
            (12, domain("(:predicates (p ?a ?b ?c ^?d))")),
            (12, domain("(:predicates (p ?a ?b ?c - object ^?d ?e))")),
            (0, domain("(:functions (f ?a ?b))")),
            (12, domain("(:functions (f ?a ?b ^?c))")),
            (0, section("(:action x :parameters (?a ?b ?c ?d))")),
            (12, section("(:action x :parameters (?a ?b ?c ?d ^?e))")),
        ],
    );
}

#[test]
fn row_12_conditions_and_effects() {
    let sentence = "32 single conditions and 16 effects per action; \
                    first .. head word (past any `not`)";
    let conditions = format!("(and {}", times(32, "(p) "));
    check_domains(
        sentence,
        &[
            (0, precondition(&format!("{conditions})"))),
            (12, precondition(&format!("{conditions}(^p))"))),
            (12, precondition(&format!("{conditions}(not (^q ?t)))"))),
            (12, precondition(&format!("{conditions}(^= ?t ?u))"))),
            (12, precondition(&format!("{conditions}(and (^>= 1 1)))"))),
        ],
    );
    let effects = format!("(and {}", times(8, "(p) (not (p)) "));
    check_domains(
        sentence,
        &[
            (0, effect(&format!("{effects}(and))"))),
            (12, effect(&format!("{effects}(^p))"))),
            (12, effect(&format!("{effects}(not (^p)))"))),
            (12, effect(&format!("{effects}(^assign (f) 1))"))),
            (12, effect(&format!("{effects}(and (^increase (f) 1)))"))),
        ],
    );
    let both = format!(":effect (and (at start {effects})) (at end (^p)))");
    check_domains(sentence, &[(12, lasting(&both))]);
}

#[test]
fn row_12_sizes_of_the_problem() {
    let sentence = "64 single conditions in the goal; objects with constants 64";
    let conditions = times(64, "(p) ");
    let constants = domain(&format!("(:constants {})", times(60, "c# ")));
    check_problems(
        sentence,
        &[
            (0, goal(&format!("(and {conditions})"))),
            (12, goal(&format!("(and {conditions}(^p))"))),
            (12, goal(&format!("(and {conditions}(not (^= ot ou)))"))),
        ],
    );
    check_problems_of(
        &constants,
        sentence,
        &[
            (0, problem("(:objects a b c d) (:goal (and))")),
            (12, problem("(:objects a b c d ^e) (:goal (and))")),
            (7, problem("(:objects a b c d ^c60) (:goal (and))")),
        ],
    );
}

const SUMS: &str = "the sum of n^arguments is at most 16,384 over predicates and 1,024 over \
                    functions; 12: for the two sums `:init`, else `:goal`";

#[test]
fn row_12_sum_over_predicates() {
    // 16,384 is 25^3 and 759 more, which is 25^2, 5 times 25 and 9 times 1.
    let facts = format!(
        "(:predicates (a ?x ?y ?z) (b ?x ?y) {}{}",
        times(5, "(c# ?x) "),
        times(9, "(d#) ")
    );
    let objects = times(25, "o# ");
    let with = |rest: &str| problem(&format!("(:objects {objects}) {rest}"));
    check_problems_of(
        &domain(&format!("{facts})")),
        SUMS,
        &[(0, with("(:init) (:goal (and))"))],
    );
    check_problems_of(
        &domain(&format!("{facts}(e))")),
        SUMS,
        &[
            (12, with("(^:init (zz) (:goal (and))")),
            (12, with("(^:goal (zz))")),
            (0, problem("(:objects a) (:goal (and))")),
        ],
    );
}

#[test]
fn row_12_sum_over_functions() {
    // 1,024 is 32^2.
    let objects = times(32, "o# ");
    let with = |rest: &str| problem(&format!("(:objects {objects}) {rest}"));
    check_problems_of(
        &domain("(:functions (f ?x ?y))"),
        SUMS,
        &[(0, with("(:goal (and))"))],
    );
    check_problems_of(
        &domain("(:functions (f ?x ?y) (g))"),
        SUMS,
        &[
            (12, with("(^:goal (and))")),
            (12, with("(^:init) (:goal (and))")),
        ],
    );
}

#[test]
fn row_13_another_domain() {
    let sentence = "13: problem names another domain: the name";
    check_problems(
        sentence,
        &[
            (13, "(define (problem x) (:domain ^e) (:goal (and)))"),
            (13, "(define (problem x) (:domain ^dd"),
            (13, "(define (problem d) (:domain ^and) (:goal (and)))"),
            (0, "(define (problem x) (:domain D) (:goal (and)))"),
        ],
    );
    check_problems_of(
        "(define (domain and))",
        sentence,
        &[(0, "(define (problem x) (:domain AND) (:goal (and)))")],
    );
}
