//! Which facts and numbers a point reads and writes, and what of that sets two points, or a point
//! and itself, against each other (steps 2 and 3; Fox and Long, Definition 12).

use crate::forms::{Condition, Effect, Expression, Test, Write};
use crate::happening::Point;

/// Indexes of ground facts and numbers. Over all conditions are read by no point.
#[derive(Default)]
pub struct Footprint {
    read_facts: Vec<usize>,
    added: Vec<usize>,
    deleted: Vec<usize>,
    /// "in a condition, a duration rule or a right side"; raising is not reading
    read_numbers: Vec<usize>,
    assigned: Vec<usize>,
    /// raised or lowered
    shifted: Vec<usize>,
}

/// How facts and numbers that are read are written.
#[derive(Clone, Copy, PartialEq)]
pub struct Touch {
    added: bool,
    deleted: bool,
    assigned: bool,
    shifted: bool,
}

impl Touch {
    pub const NONE: Touch = Touch {
        added: false,
        deleted: false,
        assigned: false,
        shifted: false,
    };
    pub const ADDED: Touch = Touch {
        added: true,
        ..Touch::NONE
    };
    pub const DELETED: Touch = Touch {
        deleted: true,
        ..Touch::NONE
    };
    pub const ASSIGNED: Touch = Touch {
        assigned: true,
        ..Touch::NONE
    };
    pub const SHIFTED: Touch = Touch {
        shifted: true,
        ..Touch::NONE
    };

    pub fn and(self, other: Touch) -> Touch {
        Touch {
            added: self.added || other.added,
            deleted: self.deleted || other.deleted,
            assigned: self.assigned || other.assigned,
            shifted: self.shifted || other.shifted,
        }
    }
}

impl Footprint {
    pub fn of(point: &Point) -> Self {
        let mut footprint = Footprint::default();
        if let Some(rules) = point.durative_start() {
            footprint.read(point, &rules.duration);
        }
        footprint.read_all(point, &point.rules().conditions);
        for effect in &point.rules().effects {
            match effect {
                Effect::Add(atom) => footprint.added.push(point.binding.fact(atom)),
                Effect::Delete(atom) => footprint.deleted.push(point.binding.fact(atom)),
                Effect::Number(write, function, right_side) => {
                    let number = point.binding.number(function);
                    match write {
                        Write::Assign => footprint.assigned.push(number),
                        Write::Increase | Write::Decrease => footprint.shifted.push(number),
                    }
                    footprint.read(point, right_side);
                }
            }
        }
        footprint
    }

    /// What the over all conditions of a durative line's start read.
    pub fn over_all(start: &Point) -> Self {
        let mut footprint = Footprint::default();
        if let Some(rules) = start.durative_start() {
            footprint.read_all(start, &rules.over_all);
        }
        footprint
    }

    fn read_all(&mut self, point: &Point, conditions: &[Condition]) {
        for condition in conditions {
            match &condition.test {
                Test::Atom(atom) => self.read_facts.push(point.binding.fact(atom)),
                Test::SameObject(..) => {}
                Test::Compare(_, left, right) => {
                    self.read(point, left);
                    self.read(point, right);
                }
            }
        }
    }

    fn read(&mut self, point: &Point, expression: &Expression) {
        match expression {
            Expression::Number(_) => {}
            Expression::Function(function) => {
                self.read_numbers.push(point.binding.number(function));
            }
            Expression::Minus(inner) => self.read(point, inner),
            Expression::Plus(left, right) | Expression::Difference(left, right) => {
                self.read(point, left);
                self.read(point, right);
            }
        }
    }

    /// The numbers this point writes.
    pub fn written(&self) -> impl Iterator<Item = &usize> {
        self.assigned.iter().chain(&self.shifted)
    }

    /// How this point writes facts or numbers that the other reads.
    pub fn touch(&self, other: &Footprint) -> Touch {
        Touch {
            added: meet(self.added.iter(), &other.read_facts),
            deleted: meet(self.deleted.iter(), &other.read_facts),
            assigned: meet(self.assigned.iter(), &other.read_numbers),
            shifted: meet(self.shifted.iter(), &other.read_numbers),
        }
    }

    /// Step 2: a number "assigned twice, or assigned and also raised or lowered"; two equal
    /// assignments are two.
    pub fn writes_against_itself(&self) -> bool {
        let writes_of = |number| self.written().filter(|&&other| other == number).count();
        self.assigned.iter().any(|&number| writes_of(number) > 1)
    }

    /// Step 3, for the pair in either order.
    pub fn interferes_with(&self, other: &Footprint) -> bool {
        self.disturbs(other) || other.disturbs(self)
    }

    /// The half of interference that looks from this point's writing to the other. The last
    /// clause is "both write one number, unless both only raise or lower it": after step 2 one of
    /// them then assigns it.
    fn disturbs(&self, other: &Footprint) -> bool {
        meet(self.added.iter(), &other.read_facts)
            || meet(self.deleted.iter(), &other.read_facts)
            || meet(self.added.iter(), &other.deleted)
            || meet(self.written(), &other.read_numbers)
            || meet(self.written(), &other.assigned)
    }
}

fn meet<'a>(mut some: impl Iterator<Item = &'a usize>, others: &[usize]) -> bool {
    some.any(|index| others.contains(index))
}
