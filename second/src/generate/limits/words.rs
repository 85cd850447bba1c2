//! Names, numbers, the two sums and the length of a text at their limits and past them.

use super::{domain_text, pieces, problem_text, List, NO_SECTIONS, SYMBOLS};

/// Each kind of name with 32 bytes and with 33, which is 5; among the flags it is 11.
pub fn names(list: &mut List) {
    let domains = [
        "(:types ^@)",
        "(:constants ^@)",
        "(:predicates (^@))",
        "(:predicates (p ^?@))",
        "(:functions (^@ ?x))",
        "(:action ^@ :parameters ())",
        "(:action a :parameters (^?@))",
    ];
    let problems = [
        "(define (problem ^@) (:domain d) (:goal (and)))",
        "(define (problem q) (:domain d) (:objects ^@) (:goal (and)))",
    ];
    let most = "n".repeat(32);
    let at_most = |form: &str| form.replace('^', "").replace('@', &most);
    let passed = |form: &str| form.replace('@', &format!("{most}n"));
    for form in domains {
        for sections in [at_most(form), passed(form)] {
            list.add("name", 5, domain_text(&sections), problem_text(NO_SECTIONS));
        }
    }
    for form in problems {
        list.add("name", 5, domain_text(""), at_most(form));
        list.add("name", 5, domain_text(""), passed(form));
    }
    let problem = problem_text(NO_SECTIONS).replace(":domain d", ":domain @");
    let domain = "(define (domain ^@))";
    list.add("name", 5, at_most(domain), at_most(&problem));
    list.add("name", 5, passed(domain), passed(&problem));
    let section = domain_text(&passed("(^:@)"));
    list.add("name of a section", 5, section, problem_text(NO_SECTIONS));
    let flag = domain_text(&passed("(:requirements :strips ^:@)"));
    list.add("flag", 11, flag, problem_text(NO_SECTIONS));
}

/// Numbers with the most digits and with one more, before the point and after it.
pub fn numbers(list: &mut List) {
    let forms = [
        "999999999",
        "-999999999.999",
        "000000000.001",
        "-0",
        "0.5",
        "^1234567890",
        "^-1234567890",
        "^0000000000",
        "^1.2345",
        "^-0.0000",
        "^1.",
        "^1.2.3",
        "^5a",
        "^-5-",
        "^1e3",
    ];
    for form in forms {
        let init = problem_text(&format!("(:init (= (f) {form})) (:goal (and))"));
        list.add("number in init", 6, domain_text(SYMBOLS), init);
        list.condition("number", 6, &format!("(>= (f) {form})"));
    }
}

/// "the sum of n^arguments is at most 16,384 over predicates and 1,024 over functions": domains
/// with just so many, and then with one name more.
pub fn sums(list: &mut List) {
    let cubes = "(p ?x ?y ?z) (q ?x ?y) (r ?x) (s ?x) (t ?x) (u ?x) (v ?x) \
                 (a) (b) (c) (d) (e) (f) (g) (h) (i)";
    let rows = [
        (
            "(:predicates @ (p ?x ?y) (q ?x ?y) (r ?x ?y) (s ?x ?y))",
            64,
            "(s o63 o63) (p o0 o0) (p o63 o0) (q o0 o63)",
        ),
        (
            &format!("(:predicates @ {cubes})"),
            25,
            "(p o24 o24 o24) (i) (v o24) (q o0 o24) (p o0 o1 o2)",
        ),
        (
            "(:functions @ (f ?x ?y))",
            32,
            "(= (f o31 o31) -0.001) (= (f o0 o0) 0) (= (f o31 o0) 7)",
        ),
        (
            "(:functions @ (f ?x ?y) (g ?x) (h ?x) (a))",
            31,
            "(= (a) 1.5) (= (h o30) 999999999.999) (= (f o30 o30) -1)",
        ),
    ];
    for (section, count, init) in rows {
        let objects = pieces(count, count, |index| format!("o{index}"));
        let without = format!("(:objects {objects}) (^:goal (and))");
        let with = format!("(:objects {objects}) (^:init {init}) (:goal (and))");
        for sections in [with, without] {
            let fits = domain_text(&section.replace('@', ""));
            list.add("sum", 12, fits, problem_text(&sections.replace('^', "")));
            let passed = domain_text(&section.replace('@', "(zz)"));
            list.add("sum passed", 12, passed, problem_text(&sections));
        }
        // Passed by the constants already: 12 at `:init`, else `:goal`, in its turn; before it 3.
        let constants = format!("(:constants {objects})");
        let passed = domain_text(&format!("{constants} {}", section.replace('@', "(zz)")));
        for early in ["(^:init)", "(^:goal (and))"] {
            let first = format!("(define (problem q) {early} (:domain d))\n");
            list.add("section before its turn", 3, passed.clone(), first);
            list.add(
                "sum of constants passed",
                12,
                passed.clone(),
                problem_text(early),
            );
        }
    }
}

/// White space, a comment or the last bracket up to the text's greatest length and past it.
pub fn lengths(list: &mut List) {
    const MOST: usize = 32_768;
    let (domain, problem) = (domain_text(SYMBOLS), problem_text(NO_SECTIONS));
    let filled = |text: &str, first: &str, byte: &str, last: &str| {
        let room = MOST - text.len() - first.len();
        format!("{text}{first}{}{last}", byte.repeat(room))
    };
    for (what, first, byte, last) in [
        ("length", "", " ", ""),
        ("length passed", "", "\n", "^ "),
        ("length of a comment passed", ";", "x", "^x"),
        ("length passed by a byte not allowed", "", "\t", "^\u{1}"),
    ] {
        let long = filled(&domain, first, byte, last);
        list.add(what, 1, long, problem.clone());
        let long = filled(&problem, first, byte, last);
        list.add(what, 1, domain.clone(), long);
    }
    let open = domain
        .trim_end()
        .strip_suffix(')')
        .unwrap_or("")
        .to_string();
    for (what, last) in [
        ("length", ")"),
        ("length passed by the last bracket", " ^)"),
    ] {
        let room = MOST - open.len() - last.replace('^', "").len() + usize::from(last != ")");
        let long = format!("{open}{}{last}", " ".repeat(room));
        list.add(what, 1, long, problem.clone());
    }
}
