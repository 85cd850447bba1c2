//! The decided readings of docs/DECISIONS.md: "Bytes and words".

mod common;

use common::*;

#[test]
fn marks() {
    let sentence = "The place of a variable or keyword is its mark (`?`, `:`). \
                    The mark is not counted in the 32 bytes.";
    let (fits, long) = (letters(32), letters(33));
    check_domains(
        sentence,
        &[
            (0, domain(&format!("(:predicates (p ?{fits}))"))),
            (5, domain(&format!("(:predicates (p ^?{long}))"))),
            (5, domain(&format!("(^:{long})"))),
            (3, domain(&format!("(^:{fits})"))),
        ],
    );
}

#[test]
fn runs_that_are_no_token() {
    let sentence = "`?` alone, `:` alone (not in plans), `a.b`, `a:b` (not in plans), `-a`, `--5`, \
                    `+5`, `.5`, `_a`, `#x`, and in domain and problem `[` or `]`: 3 at the first byte.";
    for run in [
        "?", ":", "a.b", "a:b", "-a", "--5", "+5", ".5", "_a", "#x", "[", "]",
    ] {
        check_domains(
            sentence,
            &[
                (3, domain(&format!("(:types ^{run})"))),
                (3, effect(&format!("(assign (f) ^{run})"))),
            ],
        );
        check_problems(sentence, &[(3, problem(&format!("(:objects ^{run})")))]);
    }
    for run in ["?", "-a", "--5", "+5", ".5", "_a", "#x"] {
        check_plans(sentence, &[(3, format!("0: (note ^{run})"))]);
    }
    check_plans("`:` alone (not in plans)", &[(0, "0:(note a)")]);
    let sentence = "`-` before a digit starts a number.";
    check_domains(
        sentence,
        &[
            (0, effect("(assign (f) -5)")),
            (6, effect("(assign (f) ^-5a)")),
        ],
    );
}

#[test]
fn numbers() {
    let sentence = "`5a`, `1.`, `1..2`, `5-3`, `1e3`, ten digits, four decimals: 6.";
    for number in [
        "5a",
        "1.",
        "1..2",
        "5-3",
        "1e3",
        "1234567890",
        "0000000001",
        "0.0001",
    ] {
        check_domains(sentence, &[(6, effect(&format!("(assign (f) ^{number})")))]);
        check_problems(sentence, &[(6, init(&format!("(= (f) ^{number})")))]);
        check_plans(
            sentence,
            &[
                (6, format!("^{number}: (note a)")),
                (6, format!("0: (dose a) [^{number}]")),
            ],
        );
    }
    let sentence =
        "`(-5)` is a number where a head is due: 3. `(- 5)` is minus. In a plan `-5` is 6.";
    check_domains(
        sentence,
        &[
            (3, effect("(assign (f) (^-5))")),
            (0, effect("(assign (f) (- 5))")),
        ],
    );
    check_plans(sentence, &[(6, "^-5: (note a)"), (6, "0: (dose a) [^-5]")]);
}

#[test]
fn words_refused_wherever_they_stand() {
    let sentence = "A malformed number is 6 and a name of over 32 bytes 5 wherever it stands; \
                    a run that is no name is 3 however long.";
    let long = letters(33);
    check_domains(
        sentence,
        &[
            (6, "^5a".to_string()),
            (6, "(define (domain d)) ^5a".to_string()),
            (6, precondition("(^5a)")),
            (5, format!("^{long}")),
            (5, format!("(^{long}")),
            (5, format!("(define (domain d)) ^{long}")),
            (5, precondition(&format!("(^{long})"))),
            (3, format!("^{long}.")),
            (3, precondition(&format!("(^{long}.)"))),
        ],
    );
    check_plans(
        sentence,
        &[
            (5, format!("^{long}")),
            (5, format!("0 ^{long}")),
            (5, format!("0: (^{long})")),
            (6, "0 ^5a".to_string()),
            (6, "0: (note a) ^1.".to_string()),
            (3, format!("0: (^{long}.)")),
        ],
    );
}

#[test]
fn comments_and_bytes_not_allowed() {
    let sentence = "The comment's line ends at LF only.";
    check_domains(
        sentence,
        &[
            (4, "(define (domain d) ;\r)^"),
            (0, "(define (domain d) ;\n)"),
        ],
    );
    let sentence = "A byte not allowed ends the token before it, which is judged first.";
    check_domains(
        sentence,
        &[
            (2, "(define (domain d) (:types a^\u{7f}"),
            (3, "(define (domain d) (^zz\u{7f}"),
            (6, "(define (domain d) (:types ^5a\u{7f}"),
            (2, "(define (domain d^\u{0}"),
            (2, "(define ; ^é\n(domain d))"),
        ],
    );
    check_plans(
        sentence,
        &[
            (2, "0: (note a^\u{1}b)"),
            (8, "0: (note ^c\u{1})"),
            (2, "0: (note a) ; ^\u{7f}"),
        ],
    );
}

#[test]
fn case_never_matters() {
    let sentence = "Case never matters: `#T`, `OR`, `?DURATION`, flags, sections.";
    check_domains(
        sentence,
        &[
            (11, effect("(^#T)")),
            (11, precondition("(^OR (p))")),
            (11, effect("(assign (f) ^?DURATION)")),
            (0, lasting(":EFFECT (At START (P))")),
            (
                0,
                "(DEFINE (Domain D) (:Requirements :STRIPS) (:Types A) (:CONSTANTS c - a))"
                    .to_string(),
            ),
            (7, domain("(:types a ^A)")),
        ],
    );
    check_problems(
        sentence,
        &[(0, "(define (PROBLEM x) (:DOMAIN D) (:GOAL (P)))")],
    );
}

#[test]
fn words_of_plans() {
    let sentence = "In plans there are no keywords; the words of 11's list and `and not assign \
                    increase decrease` are plain names there (8, as they can't have been declared)";
    let names = "or imply forall exists when either scale-up scale-down change \
                 and not assign increase decrease";
    for word in names.split(' ') {
        check_plans(
            sentence,
            &[
                (8, format!("0: (^{word} a)")),
                (8, format!("0: (note ^{word})")),
                (3, format!("^{word}")),
            ],
        );
    }
    check_plans(sentence, &[(3, "0: (^:metric a)")]);
    let sentence = "a variable or an operator word in a plan is 3";
    for word in "?a ?duration = < <= > >= + - * / #t".split(' ') {
        check_plans(
            sentence,
            &[
                (3, format!("0: (^{word} a)")),
                (3, format!("0: (note ^{word})")),
                (3, format!("^{word}")),
            ],
        );
    }
}
