//! The bench examples of the rules (RULES 14), K1 to K11 (there is no K3).

mod common;

use common::{line, BENCH_DOMAIN, BENCH_PROBLEM};

#[test]
fn bench_examples() {
    let dose_twice = "0: (dose a) [5]\n5.001: (dose a) [5]\n";
    let then_off = format!("{dose_twice}10.001: (off a)\n");
    let rows = [
        ("K1", dose_twice, "valid 10.001 0 0\n"),
        (
            "K2",
            "0: (dose a) [5]\n5: (dose a) [5]\n",
            "condition 5.000 2 0\n",
        ),
        (
            "K4",
            "0: (dose a) [5]\n2: (off a)\n",
            "invariant 2.000 1 0\n",
        ),
        ("K5", &then_off, "valid 10.001 0 0\n"),
        (
            "K6",
            "0: (dose a) [5]\n0: (off a)\n",
            "invariant 0.000 1 0\n",
        ),
        ("K7", "", "goal 0.000 0 0\n"),
        ("K8", "0: (off a)\n0: (off a)\n", "conflict 0.000 1 2\n"),
        ("K9", "0: (dose a) [4]\n", "duration 0.000 1 0\n"),
        ("K10", "0: (dose a) [5]\n5: (note a)\n", "valid 5.000 0 0\n"),
        (
            "K11",
            "0: (dose a) [5]\n5: (zero a)\n",
            "conflict 5.000 1 2\n",
        ),
    ];
    for (name, plan, written) in rows {
        assert_eq!(line(BENCH_DOMAIN, BENCH_PROBLEM, plan), written, "{name}");
    }
}

/// "the bracket for durative actions only"; a last line needs no LF, and white space is free.
#[test]
fn the_same_plan_written_otherwise() {
    let plan = "\r\n; twice\n 0.0 :(DOSE A)[5.000]\r\n\n5.001:\t( dose\ta ) [ 5 ] ; again";
    let written = line(BENCH_DOMAIN, BENCH_PROBLEM, plan);
    assert_eq!(written, "valid 10.001 0 0\n");
}
