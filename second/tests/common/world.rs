//! A world without objects for tests of happenings: facts p q r, numbers x y z, all actions given.

use super::line;

/// Facts are written in the order p q r, numbers in the order x y z.
pub struct World {
    pub actions: &'static str,
    pub init: &'static str,
    pub goal: &'static str,
}

impl World {
    fn texts(&self) -> (String, String) {
        let domain = format!(
            "(define (domain w) (:predicates (p) (q) (r)) (:functions (x) (y) (z)) {})",
            self.actions
        );
        let problem = format!(
            "(define (problem v) (:domain w) (:init {}) (:goal {}))",
            self.init, self.goal
        );
        (domain, problem)
    }

    /// Holds the line (here without its LF) for each plan against what is due.
    pub fn check_lines(&self, rows: &[(&str, &str)]) {
        let (domain, problem) = self.texts();
        for (plan, due) in rows {
            assert_eq!(line(&domain, &problem, plan), format!("{due}\n"), "{plan}");
        }
    }

    /// The line, the facts and the numbers.
    pub fn written(&self, plan: &str) -> String {
        let (domain, problem) = self.texts();
        super::written(&domain, &problem, plan)
    }
}
