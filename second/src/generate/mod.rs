//! Cases for holding two checkers side by side: each a domain, a problem, a plan and a size of
//! parts. Case `i` under a seed depends on nothing but the two.

pub mod large;
pub mod limits;
pub mod texts;

mod acts;
mod bench;
mod bulk;
mod crowd;
mod damage;
mod flaws;
mod gather;
mod invent;
mod layout;
mod lengths;
mod lines;
mod misfit;
mod names;
mod phrase;
mod pool;
mod random;
mod roles;
mod scene;
mod sizes;
mod steps;
mod touch;
mod world;
mod write;

use phrase::Scope;
use random::Random;
use std::io::{self, Write};
use steps::Step;
use world::World;

/// The three texts as tokens, the plan line by line.
pub struct Draft {
    pub domain: Vec<String>,
    pub problem: Vec<String>,
    pub plan: Vec<Vec<String>>,
}

/// The three texts of a case.
struct Case {
    domain: Vec<u8>,
    problem: Vec<u8>,
    plan: Vec<u8>,
}

impl Draft {
    fn laid_out(&self, random: &mut Random) -> Case {
        Case {
            domain: layout::text(&self.domain, random),
            problem: layout::text(&self.problem, random),
            plan: layout::plan(&self.plan, random),
        }
    }
}

/// Makes a case of one kind.
type Maker = fn(&mut Random) -> Case;

/// The kinds of cases and how often each is made.
const KINDS: &[(usize, Maker)] = &[
    (32, ordinary),
    (26, clash),
    (20, edge),
    (5, on_the_bench),
    (22, throng),
    (22, vigil),
    (29, |random| damaged(Text::Domain, random)),
    (22, |random| damaged(Text::Problem, random)),
    (18, |random| damaged(Text::Plan, random)),
    (20, misfitting),
    (9, missteps),
    (11, grown),
    (3, summed),
    (4, long_text),
    (6, long_line),
    (3, crowded),
    (1, long_plan),
];

/// One case in so many has a plan of a million lines.
const MILLION: u64 = 2_000;

/// Writes `count` cases as records: three lengths and a size of parts, then the three texts.
pub fn generate(seed: u64, count: u64, out: &mut dyn Write) -> io::Result<()> {
    for index in 0..count {
        let random = &mut Random::new(seed, index);
        let case = case(index, random);
        let part = part(case.plan.len(), random);
        let (domain, problem, plan) = (case.domain.len(), case.problem.len(), case.plan.len());
        writeln!(out, "{domain} {problem} {plan} {part}")?;
        for text in [case.domain, case.problem, case.plan] {
            out.write_all(&text)?;
        }
    }
    Ok(())
}

fn case(index: u64, random: &mut Random) -> Case {
    if index % MILLION == MILLION - 1 {
        return million(random);
    }
    let weights: Vec<usize> = KINDS.iter().map(|(weight, _)| *weight).collect();
    KINDS[random.weighted(&weights)].1(random)
}

/// The size of the parts in which a plan of this length is fed.
fn part(length: usize, random: &mut Random) -> usize {
    let whole = length.max(1);
    if length > 100_000 {
        *random.pick(&[4096, whole])
    } else {
        *random.pick(&[1, 7, 64, 4096, whole])
    }
}

fn told(shape: &invent::Shape, random: &mut Random) -> Case {
    let world = invent::world(shape, random);
    steps::told(world, shape.edge, random).laid_out(random)
}

fn ordinary(random: &mut Random) -> Case {
    told(&invent::ORDINARY, random)
}

fn clash(random: &mut Random) -> Case {
    told(&invent::CLASH, random)
}

fn edge(random: &mut Random) -> Case {
    told(&invent::EDGE, random)
}

fn on_the_bench(random: &mut Random) -> Case {
    steps::told(bench::bench(), false, random).laid_out(random)
}

fn throng(random: &mut Random) -> Case {
    gather::throng(random).laid_out(random)
}

fn vigil(random: &mut Random) -> Case {
    gather::vigil(random).laid_out(random)
}

/// A world and some steps in it that nobody has asked about.
fn unchecked(random: &mut Random) -> (World, Vec<Step>) {
    let shape = *random.pick(&[&invent::ORDINARY, &invent::TYPED, &invent::CLASH]);
    let mut world = invent::world(shape, random);
    let goal = Scope::of_problem(&world, false).condition(2, random);
    world.goal.push(goal);
    let mut walk = Vec::new();
    for _ in 0..random.below(6) {
        walk.extend(steps::propose(&world, &walk, random));
    }
    (world, walk)
}

/// A well-formed draft, to be damaged.
fn sound(random: &mut Random) -> Draft {
    let (world, walk) = unchecked(random);
    steps::draft(&world, &walk, random)
}

#[derive(Clone, Copy)]
enum Text {
    Domain,
    Problem,
    Plan,
}

/// Damage to one text, mostly of its tokens, now and then to a second text as well.
fn damaged(text: Text, random: &mut Random) -> Case {
    let mut draft = sound(random);
    let mut texts = vec![text];
    if random.chance(10) {
        texts.push(*random.pick(&[Text::Domain, Text::Problem, Text::Plan]));
    }
    let by_byte = random.chance(20);
    for text in texts.iter().filter(|_| !by_byte) {
        for _ in 0..random.weighted(&[0, 80, 15, 5]) {
            match text {
                Text::Domain => damage::text(&mut draft.domain, random),
                Text::Problem => damage::text(&mut draft.problem, random),
                Text::Plan => lines::spoil(&mut draft, random),
            }
        }
    }
    let mut case = draft.laid_out(random);
    for text in texts.iter().filter(|_| by_byte) {
        match text {
            Text::Domain => damage::bytes(&mut case.domain, random),
            Text::Problem => damage::bytes(&mut case.problem, random),
            Text::Plan => damage::bytes(&mut case.plan, random),
        }
    }
    case
}

/// Texts of the right form that break a rule of declared names.
fn misfitting(random: &mut Random) -> Case {
    let (mut world, walk) = unchecked(random);
    misfit::misfit(&mut world, random);
    let mut draft = steps::draft(&world, &walk, random);
    if random.chance(15) {
        damage::at_refusal(&mut draft, random);
    }
    draft.laid_out(random)
}

/// Plan lines of the right form that break a rule of steps.
fn missteps(random: &mut Random) -> Case {
    let (world, walk) = unchecked(random);
    let mut draft = steps::draft(&world, &walk, random);
    draft.plan = lines::misstep(&world, &walk, random);
    draft.laid_out(random)
}

fn grown(random: &mut Random) -> Case {
    let world = sizes::grown(random);
    let mut draft = steps::told(world, false, random);
    if random.chance(25) {
        damage::at_refusal(&mut draft, random);
    }
    draft.laid_out(random)
}

fn summed(random: &mut Random) -> Case {
    let world = sizes::summed(random);
    let mut draft = steps::told(world, false, random);
    match random.below(8) {
        0 => damage::text(&mut draft.problem, random),
        1 => damage::at_refusal(&mut draft, random),
        2 => damage::early(&mut draft.problem, random),
        _ => {}
    }
    draft.laid_out(random)
}

fn long_text(random: &mut Random) -> Case {
    let draft = sound(random);
    let mut case = draft.laid_out(random);
    if random.chance(50) {
        case.domain = lengths::long_text(&draft.domain, random);
    } else {
        case.problem = lengths::long_text(&draft.problem, random);
    }
    case
}

fn long_line(random: &mut Random) -> Case {
    let draft = sound(random);
    let mut case = draft.laid_out(random);
    case.plan = lengths::long_line(&draft.plan, random);
    case
}

fn crowded(random: &mut Random) -> Case {
    crowd::waiting_points(random).laid_out(random)
}

fn long_plan(random: &mut Random) -> Case {
    crowd::long_plan(random).laid_out(random)
}

fn million(random: &mut Random) -> Case {
    let (draft, plan) = crowd::million(random);
    Case {
        plan,
        ..draft.laid_out(random)
    }
}
