//! The decided readings of docs/DECISIONS.md: "Plan lines".

mod common;

use common::*;

/// The plan line with spaces after it, so that it has this length without its mark.
fn spaced(line: &str, length: usize) -> String {
    let marks = line.matches('^').count();
    format!("{line}{}", " ".repeat(length + marks - line.len()))
}

#[test]
fn lines_too_long() {
    let sentence = "A line of 257 bytes or more: a token whose last byte is in column 256 or before \
                    and which the byte in column 257 ends is judged; byte 257 itself never is; what \
                    is not refused is 14.";
    let step = spaced("0: (note a)", 256);
    check_plans(
        sentence,
        &[
            (0, step.clone()),
            (14, format!("{step}^ ")),
            (14, format!("{step}^\u{7f}")),
            (14, format!("{step}^x\n0: (note a)")),
            (14, format!("0: (note a)\n{step}^      \nzz")),
            // The name c ends in column 256 by what stands in column 257.
            (8, format!("{}^c)", spaced("0: (note", 255))),
            (8, format!("{}^c;", spaced("0: (note", 255))),
            (8, format!("{}^c\u{7f}", spaced("0: (note", 255))),
            (14, format!("{}c^c", spaced("0: (note", 255))),
            (14, format!("{}a^)", spaced("0: (note", 255))),
            (3, format!("{}^) ", spaced("0:", 255))),
            // A name that is too long already, but goes on in column 257, is not judged.
            (14, format!("{}{}^a", spaced("0: (", 216), letters(40))),
            (5, format!("{}^{} a", spaced("0: (", 216), letters(40))),
        ],
    );
    check_plans(
        sentence,
        &[
            (2, spaced("0: (note a) ; ^\u{7f}", 300)),
            (3, spaced("0: (note a) ^x", 300)),
            (16, format!("1: (note a)\n{}", spaced("^0: (note a)", 300))),
            (17, spaced("0: (note a) ^[5]", 300)),
            (17, spaced("0: (dose a) [^0]", 300)),
        ],
    );
}

#[test]
fn what_a_line_too_long_never_gives() {
    let sentence = "Such a line never gives 4, 17-missing or 18.";
    let waiting = "0: (note a)\n".repeat(64);
    check_plans(
        sentence,
        &[
            (14, format!("{}^ ", spaced("0: (note a", 256))),
            (14, format!("{}^ ", spaced("0:", 256))),
            (14, format!("{}^ ", spaced("0: (dose a)", 256))),
            (14, format!("{waiting}{}^ ", spaced("0: (note a)", 256))),
            (18, format!("{waiting}{}^", spaced("0: (note a)", 256))),
        ],
    );
    let sentence = "Blank lines and comments too are 14 when too long; CR counts.";
    check_plans(
        sentence,
        &[
            (14, format!("{}^ ", " ".repeat(256))),
            (14, format!(";{}^-", "-".repeat(255))),
            (14, format!("{}^\r\n", spaced("0: (note a)", 256))),
            (0, format!("{}\r\n", spaced("0: (note a)", 255))),
            (0, format!(";{}\n", "-".repeat(255))),
        ],
    );
}

#[test]
fn refusals_given_at_once() {
    let sentence = "16 is given as soon as the start is read.";
    check_plans(
        sentence,
        &[
            (16, "5: (note a)\n^4.999"),
            (16, "5: (note a)\n\n ^4: (zz"),
            (0, "5: (note a)\n5.000: (note a)"),
        ],
    );
    let sentence = "`[^0` is 17 at once. `[^]` is 3. `0: (dose a) ^x` is 3. A second bracket is 3.";
    check_plans(
        sentence,
        &[
            (17, "0: (dose a) [^0"),
            (17, "0: (dose a) [^0.000 zz"),
            (3, "0: (dose a) [^]"),
            (3, "0: (dose a) ^x"),
            (3, "0: (dose a) ^("),
            (3, "0: (dose a) [5] ^[5]"),
            (3, "0: (note a) ^x"),
        ],
    );
    let sentence = "4 and 17-missing stand at the whole line's length plus 1.";
    check_plans(
        sentence,
        &[
            (4, "0: (note a ; why  ^\n"),
            (4, "0: (dose a) [5\r^\n"),
            (4, "0: (dose a) [^"),
            (4, "0^"),
            (17, "0: (dose a) ; why ^"),
            (17, "0: (dose a)\t\r^\n0: (note a)"),
        ],
    );
}

#[test]
fn waiting_points() {
    let sentence = "18 counts every point of all lines so far, this line's too, whose time is not \
                    below its start, also after a verdict has failed.";
    let notes = |count: usize| "0: (note a)\n".repeat(count);
    // Each gives two points at 0 and 5; the second fails, its `ready` being gone.
    let doses = |count: usize| "0: (dose a) [5]\n".repeat(count);
    check_plans(
        sentence,
        &[
            (0, notes(64)),
            (18, format!("{}0: (note b)^", notes(64))),
            (0, format!("{}0.001: (note b)", notes(64))),
            (0, doses(32)),
            (18, format!("{}0: (dose b) [5] ^", doses(32))),
            (18, format!("{}0: (note b)^", doses(32))),
            // 32 ends are waiting still at 5, and 32 more points fit.
            (0, format!("{}{}", doses(32), "5: (note b)\n".repeat(32))),
            (
                18,
                format!("{}{}5: (note b)^", doses(32), "5: (note b)\n".repeat(32)),
            ),
            (
                0,
                format!("{}{}", doses(32), "5.001: (note b)\n".repeat(64)),
            ),
            // 63 points and the two of one line are 65.
            (18, format!("{}0: (dose b) [5]^", notes(63))),
        ],
    );
}

#[test]
fn a_million_lines() {
    let sentence =
        "15: any byte behind the millionth LF, also LF or white; line 1,000,001, column 1.";
    let most = "\n".repeat(1_000_000);
    for behind in ["\n", " ", ";", "\u{7f}", "0: (note a)"] {
        let written = line(BENCH_DOMAIN, BENCH_PROBLEM, &format!("{most}{behind}"));
        assert_eq!(written, "refused plan 15 1000001 1\n", "{sentence}");
    }
    let written = line(BENCH_DOMAIN, BENCH_PROBLEM, &most);
    assert_eq!(written, "goal 0.000 0 0\n");
    let last = format!("{}0: (off a)\n", &most[1..]);
    let written = line(BENCH_DOMAIN, BENCH_PROBLEM, &last);
    assert_eq!(written, "goal 0.000 0 0\n");
    let earlier = format!("zz{most}zz");
    let written = line(BENCH_DOMAIN, BENCH_PROBLEM, &earlier);
    assert_eq!(written, "refused plan 3 1 1\n");
}

#[test]
fn times_beyond_the_numbers() {
    let sentence =
        "Start plus duration may pass 10^12 thousandths: times are no numbers of the state.";
    let problem = BENCH_PROBLEM.replace("(= (lock a) 5)", "(= (lock a) 999999999.999)");
    let written = line(
        BENCH_DOMAIN,
        &problem,
        "999999999.999: (dose a) [999999999.999]",
    );
    assert_eq!(written, "goal 1999999999.998 0 0\n", "{sentence}");
}
