//! The decided readings of docs/DECISIONS.md: "Declared names".

mod common;

use common::*;

#[test]
fn words_that_cannot_be_declared() {
    let sentence = "`and not assign increase decrease`: 3 where a name is declared; \
                    8 where a declared name is due";
    for word in ["and", "not", "assign", "increase", "decrease"] {
        check_domains(
            sentence,
            &[
                (3, domain(&format!("(:types ^{word})"))),
                (3, domain(&format!("(:constants ^{word})"))),
                (3, domain(&format!("(:predicates (^{word}))"))),
                (3, domain(&format!("(:functions (^{word}))"))),
                (3, domain(&format!("(:action ^{word}"))),
                (3, domain(&format!("(:durative-action ^{word}"))),
                (8, domain(&format!("(:types a - ^{word})"))),
                (8, precondition(&format!("(q ^{word})"))),
                (8, effect(&format!("(assign (^{word}) 1)"))),
                (8, effect(&format!("(assign (f) (^{word}))"))),
            ],
        );
        check_problems(
            sentence,
            &[
                (3, problem(&format!("(:objects ^{word})"))),
                (8, init(&format!("(^{word} (p))"))),
                (8, init(&format!("(= (^{word}) 1)"))),
            ],
        );
    }
}

#[test]
fn words_that_cannot_head_an_atom() {
    let sentence = "8 where a declared name is due (`(not (^not (p)))`, `(:init (^not (p)))`).";
    check_domains(
        sentence,
        &[
            (8, precondition("(not (^not (p)))")),
            (8, precondition("(^assign (f) 1)")),
            (8, precondition("(not (^increase (f) 1))")),
            (8, effect("(not (^not (p)))")),
            (8, effect("(not (^assign (f) 1))")),
        ],
    );
    check_problems(
        sentence,
        &[(8, goal("(^decrease (f) 1)")), (8, init("(^not (p))"))],
    );
}

#[test]
fn words_that_are_names_all_the_same() {
    let sentence =
        "As the name of domain or problem, and as `?and`, accepted. As the 17th type: 3.";
    check_domains(
        sentence,
        &[
            (0, "(define (domain and))".to_string()),
            (0, domain("(:predicates (p ?and ?not))")),
            (3, domain(&format!("(:types {} ^and)", times(16, "t# ")))),
        ],
    );
    check_problems(
        sentence,
        &[(0, "(define (problem not) (:domain d) (:goal (and)))")],
    );
}

#[test]
fn parents_and_object() {
    let sentence = "The parent of a type must stand before its whole group: \
                    `(:types a b - ^a)` is 8.";
    check_domains(
        sentence,
        &[
            (8, domain("(:types a b - ^a)")),
            (8, domain("(:types a - ^a)")),
            (8, domain("(:types b - ^a a)")),
            (0, domain("(:types a - object b - a c d - b)")),
        ],
    );
    let sentence = "`object` declared as a type is 7; as anything else it is accepted.";
    check_domains(
        sentence,
        &[
            (7, domain("(:types ^object)")),
            (7, domain("(:types a ^Object - a)")),
            (0, domain("(:constants object)")),
            (0, domain("(:predicates (object ?object))")),
            (0, domain("(:functions (object))")),
            (0, domain("(:action object :parameters ())")),
        ],
    );
}

#[test]
fn arguments_too_many() {
    let sentence = "An argument too many: 8 if undeclared, 3 if it can't be an argument (number, \
                    bracket, keyword, operator; a variable outside actions), else 9. \
                    It has no wanted type, so never 10.";
    check_domains(
        sentence,
        &[
            (8, precondition("(q ?t ^zz)")),
            (8, precondition("(q ?t ^?zz)")),
            (3, precondition("(q ?t ^5)")),
            (3, precondition("(q ?t ^(p))")),
            (3, precondition("(q ?t ^:k)")),
            (3, precondition("(q ?t ^+)")),
            (9, precondition("(q ?t ^?t)")),
            (9, precondition("(q ?t ^cu)")),
            (9, precondition("(p ^?o)")),
            (9, effect("(assign (g ?t ^?u) 1)")),
            (9, effect("(assign (f) (h ?t ?u ^?t))")),
        ],
    );
    check_problems(
        sentence,
        &[
            (9, init("(q ot ^ou)")),
            (8, init("(= (g ot ^zz) 1)")),
            (3, init("(q ot ^?x)")),
            (3, goal("(q ot ^?x)")),
            (9, goal("(p ^ot)")),
        ],
    );
}

#[test]
fn arguments_too_many_in_plans() {
    let sentence = "This holds in plans too.";
    check_plans(
        sentence,
        &[
            (9, "0: (note a ^b)"),
            (8, "0: (note a ^c)"),
            (3, "0: (note a ^5)"),
            (3, "0: (note a ^?a)"),
            (3, "0: (note a ^("),
            (3, "0: (note a ^["),
            (3, "0: (note a ^:"),
        ],
    );
}

#[test]
fn wrong_counts_that_are_3() {
    let sentence = "Wrong counts at `=`, comparisons, `+`, `-`, `not`, `assign`, `at start`: 3 \
                    (row 9 is for predicates, functions and actions).";
    check_domains(
        sentence,
        &[
            (3, precondition("(=^)")),
            (3, precondition("(= ?t^)")),
            (3, precondition("(= ?t ?u ^?o)")),
            (3, precondition("(= ?t ?u ^zz)")),
            (3, precondition("(= 1^)")),
            (3, precondition("(< 1^)")),
            (3, precondition("(>= 1 2 ^3)")),
            (3, precondition("(not^)")),
            (3, precondition("(not (p) ^(p))")),
            (3, effect("(assign^)")),
            (3, effect("(assign (f)^)")),
            (3, effect("(increase (f) 1 ^2)")),
            (3, effect("(assign (f) (+^))")),
            (3, effect("(assign (f) (+ 1^))")),
            (3, effect("(assign (f) (+ 1 2 ^3))")),
            (3, effect("(assign (f) (-^))")),
            (3, effect("(assign (f) (- 1 2 ^3))")),
            (3, lasting(":condition (at start^)")),
            (3, lasting(":condition (at start (p) ^(p))")),
            (3, lasting(":effect (at end^)")),
        ],
    );
}

#[test]
fn variables_outside_actions() {
    let sentence = "A variable in init, goal or plan is 3.";
    check_problems(
        sentence,
        &[
            (3, init("(q ^?x)")),
            (3, init("(= (g ^?x) 1)")),
            (3, goal("(q ^?x)")),
            (3, goal("(= ^?x ot)")),
            (3, goal("(= ot ^?x)")),
        ],
    );
    check_plans(sentence, &[(3, "0: (note ^?p)")]);
}

#[test]
fn bare_names() {
    let sentence = "`(= ^f 5)` with f no object: 8. A bare name where an expression is due: 3.";
    check_domains(
        sentence,
        &[
            (8, precondition("(= ^f 5)")),
            (8, precondition("(not (= ^?f 5))")),
            (3, precondition("(= ct ^5)")),
            (3, precondition("(= 5 ^f)")),
            (3, precondition("(= 5 ^ct)")),
            (3, precondition("(< ^f 5)")),
            (3, precondition("(< ^?t 5)")),
            (3, effect("(assign (f) ^f)")),
            (3, effect("(assign (f) (+ 1 ^f))")),
        ],
    );
    check_domains(
        "Functions are always bracketed.",
        &[(3, effect("(assign ^f 1)"))],
    );
    check_problems(sentence, &[(8, goal("(= ^f 5)"))]);
}

#[test]
fn equality_of_objects() {
    let sentence = "Equality of objects tests no types.";
    check_domains(
        sentence,
        &[
            (0, precondition("(= ?t ?u)")),
            (0, precondition("(not (= cs cu))")),
            (8, precondition("(= ?t ^zz)")),
        ],
    );
    check_problems(sentence, &[(0, goal("(not (= ot ou))"))]);
}

#[test]
fn numbers_given_twice() {
    let sentence = "A number given twice in init: 7 at the second function name as soon as its \
                    `(f ..)` is closed. The same atom twice is accepted.";
    check_problems(
        sentence,
        &[
            (7, init("(= (f) 1) (= (^f) 1)")),
            (7, init("(= (g ot) 1) (p) (= (^G OT) zz")),
            (7, init("(= (f) 1) (= (^f)")),
            (8, init("(= (g ot) 1) (= (g ^zz) 1)")),
            (9, init("(= (g ot) 1) (= (g ot ^ot) 1)")),
            (0, init("(= (g ot) 1) (= (g os) 1) (= (f) 1)")),
            (0, init("(p) (q ot) (p) (q ot)")),
        ],
    );
}

#[test]
fn several_rows_at_one_token() {
    let sentence = "Several rows at one token: 5, 6, 7, 8 before 12; 12 before 3.";
    let types = times(16, "t# ");
    let conditions = times(32, "(p) ");
    let fifteen = format!("{}1", "(+ 1 ".repeat(7));
    let deepest = "(and ".repeat(13);
    check_domains(
        sentence,
        &[
            (12, domain(&format!("(:types {types}^a)"))),
            (5, domain(&format!("(:types {types}^{})", letters(33)))),
            (7, domain(&format!("(:types {types}^t3)"))),
            (12, precondition(&format!("(and {conditions}(^q"))),
            (8, precondition(&format!("(and {conditions}(^zz"))),
            (8, precondition(&format!("(and {conditions}(not (^not"))),
            (6, effect(&format!("(assign (f) (- {fifteen}))))))) ^5a"))),
            (8, effect(&format!("(assign (f) (- {fifteen}))))))) (^zz"))),
            (12, precondition(&format!("{deepest}(q ^("))),
            (3, precondition(&format!("{deepest}(q ^["))),
        ],
    );
}
