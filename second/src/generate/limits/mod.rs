//! Every size of a domain and a problem at its limit, and one past it.
//! Written down one by one, with the answer that the rules give: nothing here is left to chance.

mod forms;
mod words;

/// Two texts and the number of their refusal, 0 if they load. `^` stands before the refused place
/// and is no part of a text.
pub struct Limit {
    pub what: String,
    pub refused: u32,
    marked: [String; 2],
}

impl Limit {
    pub fn domain(&self) -> Vec<u8> {
        self.marked[0].replace('^', "").into_bytes()
    }

    pub fn problem(&self) -> Vec<u8> {
        self.marked[1].replace('^', "").into_bytes()
    }

    /// The line that is due, or nothing if the texts load.
    pub fn due(&self) -> String {
        let [domain, problem] = &self.marked;
        match (domain.find('^'), problem.find('^')) {
            (Some(place), _) => format!("refused domain {} {place} 0\n", self.refused),
            (_, Some(place)) => format!("refused problem {} {place} 0\n", self.refused),
            _ => String::new(),
        }
    }
}

const NO_SECTIONS: &str = "(:goal (and))";
const SYMBOLS: &str = "(:predicates (p) (q ?x)) (:functions (f) (g ?x))";

fn domain_text(sections: &str) -> String {
    format!("(define (domain d)\n{sections})\n")
}

fn problem_text(sections: &str) -> String {
    format!("(define (problem q) (:domain d)\n{sections})\n")
}

/// `count` pieces, the first past `limit` marked where its `^` stands; no other keeps its mark.
fn pieces(count: usize, limit: usize, piece: impl Fn(usize) -> String) -> String {
    let kept = |index: usize| match index == limit {
        true => piece(index),
        false => piece(index).replace('^', ""),
    };
    (0..count).map(kept).collect::<Vec<_>>().join(" ")
}

struct List {
    all: Vec<Limit>,
}

impl List {
    fn add(&mut self, what: &str, refused: u32, domain: String, problem: String) {
        let marked = [domain, problem];
        let refused = match marked.iter().any(|text| text.contains('^')) {
            true => refused,
            false => 0,
        };
        let what = what.to_string();
        self.all.push(Limit {
            what,
            refused,
            marked,
        });
    }

    /// Sections of a domain at a limit and one past it, which is 12.
    fn domain(&mut self, what: &str, limit: usize, sections: impl Fn(usize) -> String) {
        for count in [limit, limit + 1] {
            let domain = domain_text(&sections(count));
            self.add(what, 12, domain, problem_text(NO_SECTIONS));
        }
    }

    /// Sections of a problem for those of a domain, likewise.
    fn problem(
        &mut self,
        what: &str,
        domain: &str,
        limit: usize,
        sections: impl Fn(usize) -> String,
    ) {
        for count in [limit, limit + 1] {
            let problem = problem_text(&sections(count));
            self.add(what, 12, domain_text(domain), problem);
        }
    }

    /// One form, which is refused if it has a mark, in each place where an action or the goal has
    /// conditions.
    fn condition(&mut self, what: &str, number: u32, form: &str) {
        let actions = [
            format!("(:action a :parameters () :precondition {form})"),
            format!(
                "(:durative-action a :parameters () :duration (= ?duration 1) \
                 :condition (at end {form}))"
            ),
        ];
        for action in actions {
            let domain = domain_text(&format!("{SYMBOLS} {action}"));
            self.add(what, number, domain, problem_text(NO_SECTIONS));
        }
        let goal = problem_text(&format!("(:goal {form})"));
        self.add(what, number, domain_text(SYMBOLS), goal);
    }

    /// One expression in each place that an action has for one.
    fn expression(&mut self, what: &str, number: u32, form: &str) {
        self.condition(what, number, &format!("(< {form} 0)"));
        self.condition(what, number, &format!("(not (= 0 {form}))"));
        let actions = [
            format!("(:action a :parameters () :effect (decrease (f) {form}))"),
            format!("(:durative-action a :parameters () :duration (= ?duration {form}))"),
        ];
        for action in actions {
            let domain = domain_text(&format!("{SYMBOLS} {action}"));
            self.add(what, number, domain, problem_text(NO_SECTIONS));
        }
    }
}

pub fn limits() -> Vec<Limit> {
    let mut list = List { all: Vec::new() };
    declared(&mut list);
    arguments(&mut list);
    actions(&mut list);
    forms::conditions(&mut list);
    forms::effects(&mut list);
    forms::expressions(&mut list);
    forms::depths(&mut list);
    words::names(&mut list);
    words::numbers(&mut list);
    words::sums(&mut list);
    words::lengths(&mut list);
    list.all
}

/// Types, objects with constants, predicates and functions.
fn declared(list: &mut List) {
    let named = |mark: &'static str| move |index: usize| format!("^{mark}{index}");
    let bracketed = |mark: &'static str| move |index: usize| format!("(^{mark}{index})");
    list.domain("types", 16, |count| {
        format!("(:types {})", pieces(count, 16, named("t")))
    });
    list.domain("types with parents", 16, |count| {
        let below = |index: usize| match index {
            0 => "t0 - object".to_string(),
            _ => format!("^t{index} - t{}", index - 1),
        };
        format!("(:types {})", pieces(count, 16, below))
    });
    list.domain("constants", 64, |count| {
        format!("(:constants {})", pieces(count, 64, named("o")))
    });
    list.problem("objects", "", 64, |count| {
        format!("(:objects {}) (:goal (and))", pieces(count, 64, named("o")))
    });
    let constants = format!("(:constants {})", pieces(40, 40, named("c")));
    list.problem("objects with constants", &constants, 24, |count| {
        format!("(:objects {}) (:goal (and))", pieces(count, 24, named("o")))
    });
    list.domain("predicates", 32, |count| {
        format!("(:predicates {})", pieces(count, 32, bracketed("p")))
    });
    list.domain("functions", 16, |count| {
        format!("(:functions {})", pieces(count, 16, bracketed("f")))
    });
}

/// Arguments of predicates and functions, parameters of actions.
fn arguments(list: &mut List) {
    let variable = |index: usize| format!("^?x{index}");
    list.domain("predicate's arguments", 3, |count| {
        format!("(:predicates (p) (q {}))", pieces(count, 3, variable))
    });
    list.domain("function's arguments", 2, |count| {
        format!("(:functions (f ?x) (g {}))", pieces(count, 2, variable))
    });
    list.domain("parameters", 4, |count| {
        format!("(:action a :parameters ({}))", pieces(count, 4, variable))
    });
    list.domain("parameters of a durative action", 4, |count| {
        let parameters = pieces(count, 4, variable);
        format!("(:durative-action a :parameters ({parameters}) :duration (= ?duration 1))")
    });
}

fn actions(list: &mut List) {
    list.domain("actions", 32, |count| {
        pieces(count, 32, |index| {
            format!("(:action ^a{index} :parameters ())")
        })
    });
    list.domain("actions of both kinds", 32, |count| {
        pieces(count, 32, |index| match index % 2 {
            0 => format!("(:durative-action ^a{index} :parameters () :duration (= ?duration 1))"),
            _ => format!("(:action ^a{index} :parameters ())"),
        })
    });
}
