//! The decided readings of docs/DECISIONS.md: "Happenings".

mod common;

use common::world::World;

const NO_GOAL: &str = "(and)";

#[test]
fn undefined_and_range_in_steps_1_and_4() {
    // "`undefined` and `range` are verdict words wherever they arise: in a duration rule,
    // condition, effect .."
    let world = World {
        actions: "(:durative-action lasts-x :parameters () :duration (= ?duration (x)))
                  (:durative-action lasts-big :parameters ()
                    :duration (= ?duration (+ (y) (y))))
                  (:action needs-x :parameters () :precondition (> (x) 0) :effect (p))
                  (:action needs-big :parameters () :precondition (> (+ (y) (y)) 0) :effect (p))
                  (:action not-x :parameters () :precondition (not (> (x) 0)) :effect (p))
                  (:action sets-x :parameters () :effect (and (p) (assign (z) (x))))
                  (:action raises-x :parameters () :effect (and (p) (increase (x) 1)))
                  (:action sets-big :parameters () :effect (assign (z) (- (- (y)) (y))))",
        init: "(= (y) 999999999.999)",
        goal: NO_GOAL,
    };
    let state = "000\n-1000000000001 999999999999 -1000000000001\n";
    for (plan, line) in [
        ("1: (lasts-x) [5]", "undefined 1.000 1 0\n"),
        ("1: (lasts-big) [5]", "range 1.000 1 0\n"),
        ("1: (needs-x)", "undefined 1.000 1 0\n"),
        ("1: (needs-big)", "range 1.000 1 0\n"),
        ("1: (not-x)", "undefined 1.000 1 0\n"),
        ("1: (sets-x)", "undefined 1.000 1 0\n"),
        ("1: (raises-x)", "undefined 1.000 1 0\n"),
        ("1: (sets-big)", "range 1.000 1 0\n"),
    ] {
        assert_eq!(world.written(plan), format!("{line}{state}"), "{plan}");
    }
}

#[test]
fn undefined_and_range_in_step_5_and_the_goal() {
    // ".. over all condition (state after, step 5) .."
    let world = World {
        actions: "(:durative-action keeps :parameters () :duration (= ?duration 5)
                    :condition (over all (>= (+ (y) (x)) 0)) :effect (at start (p)))
                  (:action grow :parameters () :effect (assign (x) (y)))",
        init: "(= (y) 999999999.999) (= (x) 0)",
        goal: "(> (z) 0)",
    };
    assert_eq!(
        world.written("1: (keeps) [5]\n2: (grow)"),
        "range 2.000 1 0\n100\n999999999999 999999999999 -1000000000001\n"
    );
    // ".. and the goal (last happening's time, lines 0 0, last state)."
    assert_eq!(
        world.written("1: (keeps) [5]"),
        "undefined 6.000 0 0\n100\n0 999999999999 -1000000000001\n"
    );
    let world = World {
        init: "(= (y) 1)",
        goal: "(> (+ (+ 999999999.999 999999999.999) (z)) 0)",
        ..world
    };
    assert_eq!(
        world.written("1: (keeps) [5]"),
        "undefined 1.000 1 0\n100\n-1000000000001 1000 -1000000000001\n"
    );
    assert_eq!(
        world.written("1: (grow)"),
        "range 1.000 0 0\n000\n1000 1000 -1000000000001\n"
    );
}

#[test]
fn adding_and_deleting() {
    // "A point that adds and deletes a fact does both for interference; within it the add wins."
    let world = World {
        actions: "(:action both :parameters () :effect (and (p) (not (p))))
                  (:action add :parameters () :effect (p))
                  (:action delete :parameters () :effect (not (p)))
                  (:action other :parameters () :effect (q))",
        init: "",
        goal: "(p)",
    };
    world.check_lines(&[
        ("1: (both)", "valid 1.000 0 0"),
        ("1: (add)\n1: (both)", "conflict 1.000 1 2"),
        ("1: (both)\n1: (delete)", "conflict 1.000 1 2"),
        ("1: (both)\n1: (both)", "conflict 1.000 1 2"),
        ("1: (both)\n1: (other)", "valid 1.000 0 0"),
        ("1: (add)\n1: (add)", "valid 1.000 0 0"),
        ("1: (delete)\n1: (delete)", "goal 1.000 0 0"),
    ]);
}

#[test]
fn raising_and_reading() {
    // "Raising is not reading; `(increase (x) (x))` reads x. Over all conditions are read by no
    // point."
    let world = World {
        actions: "(:action raise :parameters () :effect (increase (x) 1))
                  (:action double :parameters () :effect (increase (x) (x)))
                  (:action lower :parameters () :effect (decrease (x) 3))
                  (:durative-action keeps :parameters () :duration (= ?duration 5)
                    :condition (over all (and (< (x) 4) (not (p)))))
                  (:action make-p :parameters () :effect (p))",
        init: "(= (x) 2)",
        goal: NO_GOAL,
    };
    assert_eq!(
        world.written("1: (raise)\n1: (raise)\n1: (lower)"),
        "valid 1.000 0 0\n000\n1000 -1000000000001 -1000000000001\n"
    );
    world.check_lines(&[
        ("1: (raise)\n1: (double)", "conflict 1.000 1 2"),
        ("1: (double)\n1: (double)", "conflict 1.000 1 2"),
        ("1: (double)", "valid 1.000 0 0"),
        // Both meet the line's end, where `over all` no longer holds for it.
        (
            "1: (keeps) [5]\n6: (double)\n6: (make-p)",
            "valid 6.000 0 0",
        ),
        // Its start reads neither x nor p; the state after fails it, no conflict does.
        ("1: (keeps) [5]\n1: (make-p)", "invariant 1.000 1 0"),
        ("1: (keeps) [5]\n1: (raise)", "valid 6.000 0 0"),
    ]);
}

#[test]
fn itself_on_ground_numbers() {
    // "`itself` is judged on ground numbers; two equal assignments are two."
    let domain = "(define (domain d) (:functions (x ?o))
        (:action both :parameters (?a ?b)
          :effect (and (assign (x ?a) 1) (assign (x ?b) 1)))
        (:action mixed :parameters (?a ?b)
          :effect (and (decrease (x ?a) 1) (assign (x ?b) 1)))
        (:action raises :parameters (?a ?b)
          :effect (and (decrease (x ?a) 1) (increase (x ?b) 1))))";
    let problem = "(define (problem q) (:domain d) (:objects a b)
        (:init (= (x a) 0) (= (x b) 0)) (:goal (and)))";
    for (plan, written) in [
        ("1: (both a b)", "valid 1.000 0 0\n"),
        ("1: (both a a)", "itself 1.000 1 0\n"),
        ("1: (mixed a b)", "valid 1.000 0 0\n"),
        ("1: (mixed b b)", "itself 1.000 1 0\n"),
        ("1: (raises b b)", "valid 1.000 0 0\n"),
        ("1: (raises a a)\n1: (mixed b b)", "itself 1.000 2 0\n"),
    ] {
        assert_eq!(common::line(domain, problem, plan), written, "{plan}");
    }
}

#[test]
fn ranges_after_all_points() {
    // "Step 4 goes over all points (right side, then whether a number to be raised is defined)
    // before any new value's range is tested"
    let world = World {
        actions: "(:action raise-x :parameters () :effect (increase (x) 999999999.999))
                  (:action lower-x :parameters () :effect (decrease (x) 999999999.999))
                  (:action raise-y :parameters () :effect (increase (y) 0.002))
                  (:action raise-z :parameters () :effect (increase (z) 1))",
        init: "(= (x) 999999999.999) (= (y) 999999999.999)",
        goal: NO_GOAL,
    };
    world.check_lines(&[("1: (raise-x)\n1: (raise-z)", "undefined 1.000 2 0")]);
    // "`range` then names the lowest line that writes any number that ends outside."
    assert_eq!(
        world.written("1: (raise-x)\n1: (raise-y)\n1: (lower-x)"),
        "range 1.000 2 0\n000\n999999999999 999999999999 -1000000000001\n"
    );
    world.check_lines(&[(
        "1: (lower-x)\n1: (raise-x)\n1: (raise-x)",
        "range 1.000 1 0",
    )]);
    // "the exact sum of rises and falls": on the way it may leave the range.
    assert_eq!(
        world.written("1: (raise-x)\n1: (raise-x)\n1: (lower-x)\n1: (lower-x)"),
        "valid 1.000 0 0\n000\n999999999999 999999999999 -1000000000001\n"
    );
}

#[test]
fn end_without_effects() {
    // "An end point without effects is a happening all the same."
    let world = World {
        actions: "(:durative-action idle :parameters () :duration (= ?duration 5))
                  (:durative-action keeps :parameters () :duration (= ?duration 7)
                    :condition (over all (p)))",
        init: "(p)",
        goal: NO_GOAL,
    };
    world.check_lines(&[("1: (idle) [5]", "valid 6.000 0 0")]);
    world.check_lines(&[("1: (idle) [5]\n2: (keeps) [7]", "valid 9.000 0 0")]);
}
