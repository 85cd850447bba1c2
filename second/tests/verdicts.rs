//! Happenings and verdicts of the rules: every verdict word, the order of failures, and the final
//! facts and numbers.

mod common;

use common::world::World;
use common::{line, written, BENCH_DOMAIN, BENCH_PROBLEM};

/// Actions that fail in every step of a happening.
const MIXED: &str = "
    (:durative-action long :parameters () :duration (= ?duration 5)
      :condition (and (at end (q)) (at start (p)) (over all (p)) (at start (q)))
      :effect (and (at start (r)) (at end (not (r)))))
    (:action needs-q :parameters () :precondition (q))
    (:action twice :parameters () :effect (and (assign (x) 1) (assign (x) 1)))
    (:action add-r :parameters () :effect (r))
    (:action delete-r :parameters () :effect (not (r)))
    (:action delete-p :parameters () :effect (not (p)))
    (:action raise-z :parameters () :effect (increase (z) 1))";

fn bench(plan: &str) -> String {
    written(BENCH_DOMAIN, BENCH_PROBLEM, plan)
}

/// "Final facts and numbers: those before the failing happening; after it, if step 5 failed; the
/// last ones for `valid` or a goal failure." Facts are ready a, ready b, on a, on b; numbers lock
/// a, lock b, doses a, doses b.
#[test]
fn final_facts_and_numbers() {
    for (plan, written) in [
        (
            "0: (note a)\n1: (note a)",
            "valid 1.000 0 0\n1111\n5000 5000 2000 0\n",
        ),
        ("0: (off b)", "goal 0.000 0 0\n1110\n5000 5000 0 0\n"),
        (
            "0: (note b)\n1: (dose a) [4]\n1: (note b)",
            "duration 1.000 2 0\n1111\n5000 5000 0 1000\n",
        ),
        (
            "0: (off a)\n1: (off a)\n1: (note b)",
            "condition 1.000 2 0\n1101\n5000 5000 0 0\n",
        ),
        (
            "0: (note a)\n1: (zero a)\n1: (note a)",
            "conflict 1.000 2 3\n1111\n5000 5000 1000 0\n",
        ),
        (
            "0: (dose a) [5]\n2: (off a)\n2: (note a)\n9: (zz",
            "refused plan 8 4 5\n",
        ),
        (
            "0: (dose a) [5]\n2: (off a)\n2: (note a)",
            "invariant 2.000 1 0\n0101\n5000 5000 1000 0\n",
        ),
    ] {
        assert_eq!(bench(plan), written, "{plan}");
    }
}

/// "`valid` and failures at the goal have the last happening's time (0.000 if none) and lines 0 0."
#[test]
fn no_happening() {
    assert_eq!(bench(""), "goal 0.000 0 0\n1111\n5000 5000 0 0\n");
    assert_eq!(bench("\n ; nothing\n"), bench(""));
}

/// "The earliest failure is given, by time, then step, then the orders above."
#[test]
fn earliest_failure() {
    let world = World {
        actions: MIXED,
        init: "(p)",
        goal: "(q)",
    };
    world.check_lines(&[
        // By time, though the higher line fails in an earlier step.
        ("1: (twice)\n2: (needs-q)", "itself 1.000 1 0"),
        // By step: 1, 2, 3, 4.
        ("1: (twice)\n1: (needs-q)", "condition 1.000 2 0"),
        ("1: (add-r)\n1: (delete-r)\n1: (twice)", "itself 1.000 3 0"),
        (
            "1: (raise-z)\n1: (add-r)\n1: (delete-r)",
            "conflict 1.000 2 3",
        ),
        ("1: (raise-z)", "undefined 1.000 1 0"),
        // Within step 1, by line, and for a start the duration rule first.
        ("1: (long) [4]\n1: (needs-q)", "duration 1.000 1 0"),
        ("1: (needs-q)\n1: (long) [4]", "condition 1.000 1 0"),
        ("1: (long) [5]", "condition 1.000 1 0"),
        // "Per pair, ordered by the lower line, then the higher".
        (
            "1: (delete-p)\n1: (add-r)\n1: (add-r)\n1: (delete-r)\n1: (delete-r)",
            "conflict 1.000 2 4",
        ),
        ("1: (add-r)\n\n1: (delete-r)", "conflict 1.000 1 3"),
        ("1: (add-r)", "goal 1.000 0 0"),
    ]);
}

/// Step 5: "the `over all` conditions of every durative line with start at or before, and end
/// after, this time, by line number."
#[test]
fn over_all() {
    let world = World {
        actions: MIXED,
        init: "(p) (q)",
        goal: "(q)",
    };
    world.check_lines(&[
        ("1: (long) [5]", "valid 6.000 0 0"),
        ("1: (long) [5]\n3: (delete-p)", "invariant 3.000 1 0"),
        ("1: (long) [5]\n6: (delete-p)", "valid 6.000 0 0"),
        // Both lines under way fail.
        (
            "1: (long) [5]\n2: (long) [5]\n3: (delete-p)",
            "invariant 3.000 1 0",
        ),
        // The lower line has ended, and only the higher fails.
        (
            "1: (long) [5]\n2: (long) [5]\n6: (delete-p)",
            "invariant 6.000 2 0",
        ),
        // Step 3 before step 5: the start of line 2 reads p.
        (
            "1: (long) [5]\n2: (long) [5]\n2: (delete-p)",
            "conflict 2.000 2 3",
        ),
        ("1: (long) [5]\n6: (add-r)", "conflict 6.000 1 2"),
    ]);
}

/// "then its conditions as written, up to the first that doesn't hold"; "Parts are taken left to
/// right, a part before the whole; the first `undefined` or `range` decides."
#[test]
fn first_of_several() {
    let too_big = "(+ 999999999.999 1)";
    for (condition, written) in [
        ("(and (p) (> (x) 0))", "condition 1.000 1 0\n"),
        ("(and (> (x) 0) (p))", "undefined 1.000 1 0\n"),
        ("(and (not (p)) (and) (> (x) 0))", "undefined 1.000 1 0\n"),
        ("(> (+ (x) (BIG)) 0)", "undefined 1.000 1 0\n"),
        ("(> (+ (BIG) (x)) 0)", "range 1.000 1 0\n"),
        ("(> (BIG) (x))", "range 1.000 1 0\n"),
        ("(> (x) (BIG))", "undefined 1.000 1 0\n"),
        ("(= (- (BIG) (BIG)) 0)", "range 1.000 1 0\n"),
        ("(= (x) (x))", "undefined 1.000 1 0\n"),
        ("(and)", "valid 1.000 0 0\n"),
    ] {
        let condition = condition.replace("(BIG)", too_big);
        let domain = format!(
            "(define (domain w) (:predicates (p)) (:functions (x))
               (:action act :parameters () :precondition {condition}))"
        );
        let problem = "(define (problem v) (:domain w) (:goal (and)))";
        assert_eq!(line(&domain, problem, "1: (act)"), written, "{condition}");
    }
}

/// "Numbers lie within ±1,000,000,000,000 thousandths. Minus of a number is exact over the whole
/// range." The ends themselves are inside.
#[test]
fn ends_of_the_range() {
    let world = World {
        actions: "(:action top :parameters () :effect (assign (x) (+ 999999999.999 0.001)))
                  (:action turn :parameters () :effect (assign (x) (- (x))))
                  (:action up :parameters () :effect (increase (x) 0.001))
                  (:action down :parameters () :effect (decrease (x) 0.001))
                  (:action above :parameters () :effect (assign (y) (+ (x) 0.001)))",
        init: "",
        goal: "(= (x) (- 0 (+ 999999999.999 0.001)))",
    };
    let state = |x: &str| format!("000\n{x} -1000000000001 -1000000000001\n");
    for (plan, line, x) in [
        ("1: (top)", "goal 1.000 0 0\n", "1000000000000"),
        ("1: (top)\n2: (turn)", "valid 2.000 0 0\n", "-1000000000000"),
        ("1: (top)\n2: (up)", "range 2.000 2 0\n", "1000000000000"),
        ("1: (top)\n2: (above)", "range 2.000 2 0\n", "1000000000000"),
        (
            "1: (top)\n2: (turn)\n3: (down)",
            "range 3.000 3 0\n",
            "-1000000000000",
        ),
        (
            "1: (top)\n2: (turn)\n3: (down)\n3: (up)",
            "valid 3.000 0 0\n",
            "-1000000000000",
        ),
    ] {
        let written = format!("{line}{}", state(x));
        assert_eq!(world.written(plan), written, "{plan}");
    }
}

/// Actions that each read or write one fact or number.
const READERS_AND_WRITERS: World = World {
    actions: "(:action read-p :parameters () :precondition (not (p)))
              (:action add-p :parameters () :effect (p))
              (:action delete-p :parameters () :effect (not (p)))
              (:action read-x :parameters () :precondition (> 1 (- (x))))
              (:action use-x :parameters () :effect (assign (y) (+ 1 (x))))
              (:action raise-by-x :parameters () :effect (increase (y) (x)))
              (:durative-action last-x :parameters () :duration (= ?duration (x)))
              (:action raise-x :parameters () :effect (increase (x) 1))
              (:action lower-x :parameters () :effect (decrease (x) 1))
              (:action set-x :parameters () :effect (assign (x) 1))
              (:action set-z :parameters () :effect (assign (z) 1))",
    init: "(= (x) 5) (= (y) 0)",
    goal: "(and)",
};

/// "a fact read by one's conditions is added or deleted by the other; one adds what the other
/// deletes; a number written by one is read by the other, in a condition, a duration rule or a
/// right side; both write one number, unless both only raise or lower it."
#[test]
fn interference() {
    for (one, other) in [
        ("read-p", "add-p"),
        ("read-p", "delete-p"),
        ("add-p", "delete-p"),
        ("read-x", "raise-x"),
        ("read-x", "set-x"),
        ("use-x", "lower-x"),
        ("raise-by-x", "set-x"),
        ("set-x", "set-x"),
        ("set-x", "raise-x"),
        ("use-x", "raise-by-x"),
    ] {
        let plan = format!("1: ({one})\n1: ({other})");
        let turned = format!("1: ({other})\n1: ({one})");
        READERS_AND_WRITERS.check_lines(&[
            (&plan, "conflict 1.000 1 2"),
            (&turned, "conflict 1.000 1 2"),
        ]);
    }
    // The duration rule is read at the start only.
    READERS_AND_WRITERS.check_lines(&[
        ("1: (last-x) [5]\n1: (raise-x)", "conflict 1.000 1 2"),
        ("1: (last-x) [5]\n6: (raise-x)", "valid 6.000 0 0"),
    ]);
}

#[test]
fn no_interference() {
    for (one, other) in [
        ("read-p", "read-p"),
        ("add-p", "add-p"),
        ("read-x", "use-x"),
        ("raise-x", "lower-x"),
        ("raise-by-x", "raise-by-x"),
        ("set-x", "set-z"),
    ] {
        let plan = format!("1: ({one})\n1: ({other})");
        READERS_AND_WRITERS.check_lines(&[(&plan, "valid 1.000 0 0")]);
    }
}
