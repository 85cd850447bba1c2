//! Rows 2 to 18 of the refusal table at several places of plans of the bench, each with the
//! sentence of the rules that decides.

mod common;

use common::*;

#[test]
fn row_2_bytes() {
    check_plans(
        "2: byte not allowed: the byte",
        &[(2, "0: (note a)\n^\u{7f}"), (2, "0: (note^\u{b}a)")],
    );
    check_plans("comments included", &[(2, ";\n; \u{9}^\u{1}")]);
}

#[test]
fn row_3_tokens() {
    let sentence = "One step a line: `start: (action objects) [duration]`";
    check_plans(
        sentence,
        &[
            (3, "^(note a)"),
            (3, "^: (note a)"),
            (3, "^note"),
            (3, "0 ^(note a)"),
            (3, "0:^: (note a)"),
            (3, "0: ^note a"),
            (3, "0: ^[5]"),
            (3, "0: (^(note a))"),
            (3, "0: (^5 a)"),
            (3, "0: (^)"),
            (3, "0: (note ^5)"),
            (3, "0: (note ^[5])"),
            (3, "0: (note a) ^)"),
            (3, "0: (note a) ^]"),
            (3, "0: (note a) ^1: (note a)"),
            (3, "0: (dose a) ^5"),
            (3, "0: (dose a) [^x]"),
            (3, "0: (dose a) [5 ^5]"),
            (3, "0: (dose a) [5^)"),
            (3, "0: (dose a) [5] ^x"),
        ],
    );
}

#[test]
fn row_4_ends() {
    let sentence = "4: text, or plan line, ends in the middle, 17 apart: its end";
    check_plans(
        sentence,
        &[
            (4, "0^\n: (note a)"),
            (4, "0:^"),
            (4, "0: (^"),
            (4, "0: (note^"),
            (4, "0: (note a^\n)"),
            (4, "0: (dose a) [5^"),
        ],
    );
}

#[test]
fn rows_5_and_6() {
    let sentence = "A name is a letter, then letters, digits, `-` and `_`; names 32 bytes";
    check_plans(
        sentence,
        &[
            (5, format!("0: (note ^{})", letters(33))),
            (8, format!("0: (note ^{})", letters(32))),
        ],
    );
    check_plans(
        "A number is 1 to 9 digits, perhaps a point and 1 to 3 digits",
        &[
            (6, "^1234567890: (note a)"),
            (6, "^0.: (note a)"),
            (6, "0: (dose a) [^5.0000]"),
            (0, "000000000.5: (note a)"),
        ],
    );
}

#[test]
fn rows_8_to_10() {
    let sentence = "8: undeclared name .. where a declared one is due: the name";
    check_plans(
        sentence,
        &[
            (8, "0: (^inject a)"),
            (8, "0: (^ready a)"),
            (8, "0: (note ^pump)"),
            (8, "0: (note a)\n0: (note ^c)"),
            (0, "0: (NOTE A)"),
        ],
    );
    let sentence = "9: wrong count of arguments: first extra one, or the closing bracket";
    check_plans(
        sentence,
        &[
            (9, "0: (note^)"),
            (9, "0: (note a ^a)"),
            (9, "0: (dose ^) [5]"),
        ],
    );
    let sentence = "10: argument's type isn't the wanted type or below it: the argument";
    let domain = "(define (domain d) (:types s - object t - s u)
        (:action act :parameters (?a - s ?b)))";
    let problem = "(define (problem q) (:domain d) (:objects os - s ot - t ou - u oo)
        (:goal (and)))";
    for (plan, written) in [
        ("0: (act os ou)", "valid 0.000 0 0\n"),
        ("0: (act ot oo)", "valid 0.000 0 0\n"),
        ("0: (act ou os)", "refused plan 10 1 9\n"),
        ("0: (act os os)\n 1: (act oo os)", "refused plan 10 2 10\n"),
        ("0: (act os)", "refused plan 9 1 11\n"),
    ] {
        assert_eq!(line(domain, problem, plan), written, "{plan}\n{sentence}");
    }
}

#[test]
fn rows_14_and_15() {
    let sentence = "Plan lines: 256 bytes without LF, 1,000,000 lines";
    let long = " ".repeat(256);
    check_plans(
        sentence,
        &[
            (0, format!("{long}\n{long}\n")),
            (14, format!("\n{long}^ \n")),
            (14, format!("{long}^{long}{long}")),
            (14, format!("{long}^0: (note a)")),
        ],
    );
    let lines = format!("0: (zero a)\n{}", "\n".repeat(999_999));
    for (plan, written) in [
        (lines.clone(), "goal 0.000 0 0\n"),
        (format!("{lines}0"), "refused plan 15 1000001 1\n"),
        (format!("{lines}\n"), "refused plan 15 1000001 1\n"),
        (
            format!("{}{long}x", &lines[..lines.len() - 1]),
            "refused plan 14 1000000 257\n",
        ),
    ] {
        let answer = line(BENCH_DOMAIN, BENCH_PROBLEM, &plan);
        assert_eq!(answer, written, "{sentence}");
    }
}

#[test]
fn row_16_starts() {
    let sentence = "16: start below the previous step's start: the start";
    check_plans(
        sentence,
        &[
            (16, "1: (note a)\n^0: (note a)"),
            (16, "1: (note a)\n; 2:\n\n  ^0.999: (note a)"),
            (16, "1: (note a)\n3: (note a)\n^2: (note a)"),
            // The previous step's start counts, not its end.
            (0, "1: (dose a) [5]\n2: (note a)"),
        ],
    );
    check_plans(
        "5, 6 at the same token come first",
        &[(6, "1: (note a)\n^0.9999: (note a)")],
    );
    // As the rules write it.
    let written = line(BENCH_DOMAIN, BENCH_PROBLEM, "1: (note a)\n0: (note a)\n");
    assert_eq!(written, "refused plan 16 2 1\n");
}

#[test]
fn row_17_brackets() {
    let sentence = "17: bracket missing, not wanted, or holding 0: line end, `[`, the number";
    check_plans(
        sentence,
        &[
            (17, "0: (dose a)^"),
            (17, "0: (note a)\n0: (dose a)  ^\n0: (note a)"),
            (17, "0: (note a) ^[5]"),
            (17, "0: (note a) ^["),
            (17, "0: (note a)^[0]"),
            (17, "0: (dose a) [^0]"),
            (17, "0: (dose a) [ ^0.00 ]"),
            (0, "0: (dose a) [0.001]"),
        ],
    );
}

#[test]
fn row_18_waiting_points() {
    let sentence = "64 waiting points; After a line is read, the points of all lines so far whose \
                    time is not below that line's start are waiting.";
    let doses = times(32, "0: (dose a) [#]\n");
    check_plans(
        sentence,
        &[
            (
                18,
                format!("{}7: (note a) ; one too many^", "7: (note a)\n".repeat(64)),
            ),
            // The ends at 1 to 32 are waiting; below 1 there are 32 of them, at 2 there are 31.
            (0, format!("{doses}{}", "0.5: (note a)\n".repeat(32))),
            (
                18,
                format!("{doses}{}0.5: (note a)^\n", "0.5: (note a)\n".repeat(32)),
            ),
            (0, format!("{doses}{}", "2: (note a)\n".repeat(33))),
            (
                18,
                format!("{doses}{}2: (note a)^", "2: (note a)\n".repeat(33)),
            ),
        ],
    );
}

/// "it outranks every verdict", also where it stands after the failing time; of two the earlier
/// line's is given.
#[test]
fn refusals_before_verdicts() {
    let sentence = "A plan refusal .. outranks every verdict.";
    check_plans(
        sentence,
        &[
            (8, "0: (dose a) [4]\n9: (^zz)"),
            (4, "0: (off a)\n0: (off a)\n9^"),
            (3, "0: (off a) ^x\n0: (zz)"),
        ],
    );
}
