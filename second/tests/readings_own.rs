//! The points that needed a reading, as READINGS.md lists them and in its order.

mod common;

use common::*;

#[test]
fn bytes_and_words() {
    check_domains(
        "1. A byte not allowed between `- (` and `either`.",
        &[(
            3,
            "(define (domain d) (:types t - ^(;\u{7f}\neither object)))",
        )],
    );
    check_plans(
        "2. A variable of over 32 bytes in a plan.",
        &[(5, format!("0: (note ^?{})", letters(33)))],
    );
    check_domains("3. A text without any token.", &[(4, " ; define\n^")]);
}

#[test]
fn forms() {
    check_problems(
        "4. A bare name behind `=` in init.",
        &[(3, init("(= ^f 5)")), (3, init("(= ^ot 5)"))],
    );
    check_domains(
        "5. `-` in a typed list without a name before it.",
        &[
            (3, domain("(:types ^- object)")),
            (3, domain("(:constants a - object ^- object)")),
        ],
    );
    check_domains(
        "6. `over` in an effect.",
        &[(3, lasting(":effect (^over all (p))"))],
    );
    check_problems(
        "7. No goal, an empty one, or two conditions in it.",
        &[
            (3, problem("(:init) ^")),
            (3, problem("(:goal^)")),
            (3, problem("(:goal (p) ^(p))")),
        ],
    );
}

#[test]
fn things_too_many() {
    let actions = times(32, "(:action a# :parameters ())");
    check_domains(
        "8. The place of an action too many.",
        &[(12, domain(&format!("{actions}(:action ^x")))],
    );
    let sentence = "9. A word that can't be declared, as a name too many.";
    check_domains(
        sentence,
        &[
            (3, domain(&format!("(:constants {}^not)", times(64, "c# ")))),
            (
                3,
                domain(&format!("(:predicates {}(^and", times(32, "(p#)"))),
            ),
            (3, domain(&format!("{actions}(:action ^assign"))),
        ],
    );
    let conditions = times(32, "(p)");
    let effects = times(16, "(p)");
    check_domains(
        "10. A token that can't be what a size counts, where one more would be too many.",
        &[
            (3, domain(&format!("(:types {}^5)", times(16, "t# ")))),
            (3, domain("(:predicates (p ?a ?b ?c ^d))")),
            (3, precondition(&format!("(and {conditions}(^?t))"))),
            (
                3,
                precondition(&format!("(and {conditions}(not (^+ 1 1)))")),
            ),
            (3, effect(&format!("(and {effects}(^= 1 1))"))),
        ],
    );
}

#[test]
fn operands_too_many() {
    // Minus, six times plus and a number, and the last number are 14.
    let fourteen = format!("(- {}1{})", "(+ 1 ".repeat(6), ")".repeat(6));
    check_domains(
        "11. A number that is a third operand and also the 17th of its expression.",
        &[
            (12, effect(&format!("(assign (f) (+ {fourteen} 1 ^1))"))),
            (3, effect(&format!("(assign (f) (+ {fourteen} 1 ^(f)))"))),
            (3, effect(&format!("(assign (f) (+ 1 {fourteen}) ^1)"))),
        ],
    );
    check_domains(
        "10. A token that can't be what a size counts: here as 17th operand.",
        &[
            (12, effect(&format!("(assign (f) (- (- {fourteen}) ^1))"))),
            (3, effect(&format!("(assign (f) (- (- {fourteen}) ^f))"))),
            (
                3,
                effect(&format!("(assign (f) (- (- {fourteen}) (^= 1 1)))")),
            ),
        ],
    );
}

#[test]
fn sums_at_sections_out_of_order() {
    let sentence = "12. `:init` or `:goal` where `:domain` is due: 3, also with a sum passed.";
    let constants = times(26, "c# ");
    let large = domain(&format!(
        "(:constants {constants}) (:predicates (p ?x ?y ?z))"
    ));
    let small = domain("(:constants c) (:predicates (p ?x ?y ?z))");
    let early_init = "(define (problem x) (^:init) (:domain d) (:goal (and)))";
    let early_goal = "(define (problem x) (^:goal (and)) (:domain d))";
    for domain in [&large, &small] {
        check_problems_of(domain, sentence, &[(3, early_init), (3, early_goal)]);
    }
    let as_an_object = problem("(:objects ^:init)");
    let unknown = problem("(^:metric2)");
    check_problems_of(&large, sentence, &[(3, as_an_object), (3, unknown)]);
    let in_turn = [problem("(^:init) (:goal (and))"), problem("(^:goal (and))")];
    check_problems_of(&large, sentence, &in_turn.map(|text| (12, text)));
}

#[test]
fn brackets_at_the_limits() {
    let head = "(define (problem x) (:domain d) (:init (= (f) 1) (= (f";
    let marked = head.replace("(= (f) 1) (= (", "(= (f) 1) (= (^");
    let padding = " ".repeat(32_768 - head.len());
    check_problems(
        "13. A number's second `(f ..)` whose closing bracket begins at or past 32,768.",
        &[
            (7, format!("{marked}{}) 1) (:goal", &padding[1..])),
            (1, format!("{head}{padding}^) 1) (:goal")),
        ],
    );
    let padding = " ".repeat(253);
    check_plans(
        "14. A bracket or `:` in column 256 of a line too long.",
        &[
            (3, format!("0:{padding}^)a")),
            (3, format!("0:{padding}^:a")),
            (14, format!("0:{padding}(^a")),
        ],
    );
}
