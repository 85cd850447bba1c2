//! Plans of many points: steps thrown together, those left out that the checker names.

use super::acts::binding;
use super::flaws::flaw;
use super::layout::plain;
use super::random::Random;
use super::steps::{aim, draft, Step};
use super::touch::touching;
use super::world::{World, LARGEST};
use super::{roles, write, Draft};
use crate::domain::Domain;
use crate::happening::Word;
use crate::plan::{self, read_plan, PlanRefusal};
use crate::problem::Problem;
use crate::verdict::judge;

/// A step and its plan line.
#[derive(Clone)]
pub struct Line {
    pub step: Step,
    text: Vec<u8>,
}

impl Line {
    fn happens_at(&self, time: i64) -> bool {
        self.step.start == time || self.step.end() == time
    }
}

/// What the checker says of a plan; lines count from 1.
pub enum Said {
    Valid,
    Refused {
        line: usize,
    },
    Failed {
        word: Word,
        time: i64,
        line: usize,
        second: usize,
    },
}

/// A world whose texts have loaded, to be asked about plans.
pub struct Gathering<'a> {
    world: &'a World,
    pub domain: Domain,
    pub problem: Problem,
    pub lines: Vec<Line>,
}

/// Many points at a few instants.
pub fn throng(random: &mut Random) -> Draft {
    told(crowded, &[44, 36, 10, 10], random)
}

/// Many lines under way over many happenings.
pub fn vigil(random: &mut Random) -> Draft {
    told(drawn_out, &[44, 8, 40, 8], random)
}

fn told(throw: fn(&mut Gathering, &mut Random), flaws: &[usize; 4], random: &mut Random) -> Draft {
    let mut world = roles::world(random);
    let mut steps = Vec::new();
    let mut sound = true;
    if let Some(mut gathering) = Gathering::of(&world, random) {
        throw(&mut gathering, random);
        sound = !flaw(&mut gathering, flaws, random);
        steps.extend(gathering.lines.into_iter().map(|line| line.step));
    }
    aim(&mut world, &steps, sound, false, random);
    draft(&world, &steps, random)
}

/// How often steps are thrown in for those that were taken out.
const ROUNDS: usize = 5;

/// Points at one instant, or at each of two or three; few steps elsewhere.
fn crowded(gathering: &mut Gathering, random: &mut Random) {
    let instants: &[i64] = match random.below(5) {
        0 => &[5000, 7000],
        1 => &[60_000, 62_000, 65_000],
        2 => &[0],
        _ => &[60_000],
    };
    let wanted = random.between(8, 32) + 8 * (instants.len() - 1);
    for _ in 0..ROUNDS {
        for _ in gathering.lines.len()..wanted {
            let time = *random.pick(instants);
            let later = *random.pick(&[1, 500, 1000, 2000]);
            gathering.throw_in(time + if random.chance(5) { later } else { 0 }, random);
        }
        gathering.prune(random);
    }
}

/// Durative lines that start early, then steps one after the other while they are under way.
fn drawn_out(gathering: &mut Gathering, random: &mut Random) {
    let early = random.between(2, 32);
    let spread = *random.pick(&[1, 2, 8, 30]);
    let gap = *random.pick(&[1, 250, 500, 1000]);
    for _ in 0..ROUNDS {
        for _ in gathering.lines.len()..early {
            gathering.throw_at(gap * random.below(spread) as i64, true, random);
        }
        gathering.prune(random);
    }
    let more = match random.chance(8) {
        true => random.between(100, 200),
        false => random.between(6, 40),
    };
    let mut time = gap * spread as i64;
    for _ in 0..more {
        time += if random.chance(70) { gap } else { 0 };
        if random.chance(15) {
            let ends = gathering.lines.iter().map(|line| line.step.end());
            time = ends.filter(|end| *end >= time).min().unwrap_or(time);
        }
        if random.chance(50) || gathering.touch(Some(time), random).is_none() {
            gathering.throw_at(time, random.chance(20), random);
        }
    }
    gathering.prune(random);
}

impl<'a> Gathering<'a> {
    fn of(world: &'a World, random: &mut Random) -> Option<Self> {
        let domain = plain(&write::domain(world, random));
        let problem = plain(&write::problem(world, random));
        let (domain, problem) = crate::load(&domain, &problem).ok()?;
        Some(Gathering {
            world,
            domain,
            problem,
            lines: Vec::new(),
        })
    }

    pub fn steps(&self) -> Result<Vec<plan::Step>, PlanRefusal> {
        let texts: Vec<&[u8]> = self.lines.iter().map(|line| &line.text[..]).collect();
        read_plan(&self.domain, &self.problem, &texts.concat())
    }

    pub fn ask(&self) -> Said {
        let steps = match self.steps() {
            Ok(steps) => steps,
            Err(refusal) => return Said::Refused { line: refusal.line },
        };
        let verdict = judge(&self.domain, &self.problem, &steps);
        match verdict.word {
            Word::Valid => Said::Valid,
            word => Said::Failed {
                word,
                time: verdict.time,
                line: verdict.line,
                second: verdict.second_line,
            },
        }
    }

    pub fn word(&self) -> Option<Word> {
        match self.ask() {
            Said::Valid => Some(Word::Valid),
            Said::Failed { word, .. } => Some(word),
            Said::Refused { .. } => None,
        }
    }

    /// A step at no time yet: an action with fitting objects, or an earlier step again, perhaps
    /// with one object changed.
    fn any_step(&self, random: &mut Random) -> Option<Step> {
        let world = self.world;
        let (action, objects) = if !self.lines.is_empty() && random.chance(45) {
            let like = &random.pick(&self.lines).step;
            let mut objects = like.objects.clone();
            let place = random.below(objects.len());
            if let Some(object) = objects.get_mut(place).filter(|_| random.chance(80)) {
                let wanted = world.actions[like.action].parameters[place].kind;
                *object = *random.pick(&world.fitting(wanted));
            }
            (like.action, objects)
        } else {
            let action = random.below(world.actions.len());
            let parameters = &world.actions[action].parameters;
            (action, binding(world, parameters, random)?)
        };
        let rule = world.actions[action].duration.as_ref();
        let duration = rule.map(|rule| {
            let value = world.value(rule, &objects);
            value
                .filter(|value| (1..=LARGEST).contains(value))
                .unwrap_or(1000)
        });
        let start = 0;
        Some(Step {
            start,
            action,
            objects,
            duration,
        })
    }

    /// A step that starts or ends at this time.
    pub fn step_at(&self, time: i64, random: &mut Random) -> Option<Step> {
        let mut step = self.any_step(random)?;
        let before = time - step.duration.unwrap_or(0);
        step.start = match before >= 0 && random.chance(45) {
            true => before,
            false => time,
        };
        Some(step)
    }

    /// Puts a step in at any place that its start allows, which is given.
    pub fn insert(&mut self, step: Step, random: &mut Random) -> usize {
        let low = self
            .lines
            .partition_point(|line| line.step.start < step.start);
        let high = self
            .lines
            .partition_point(|line| line.step.start <= step.start);
        let place = random.between(low, high);
        let mut text = plain(&write::step(self.world, &step, random));
        text.push(b'\n');
        self.lines.insert(place, Line { step, text });
        place
    }

    pub fn throw_in(&mut self, time: i64, random: &mut Random) -> Option<usize> {
        let step = self.step_at(time, random)?;
        Some(self.insert(step, random))
    }

    /// Throws in a step that starts at this time, durative or not as is wanted if one is found.
    fn throw_at(&mut self, time: i64, durative: bool, random: &mut Random) {
        let mut found = None;
        for _ in 0..4 {
            found = self.any_step(random).or(found);
            if found
                .as_ref()
                .is_some_and(|step| step.duration.is_some() == durative)
            {
                break;
            }
        }
        if let Some(mut step) = found {
            step.start = time;
            self.insert(step, random);
        }
    }

    /// Throws in a step that writes what a line watches, at this time or at one while it is under
    /// way; gives its place.
    pub fn touch(&mut self, time: Option<i64>, random: &mut Random) -> Option<usize> {
        let like = &self.lines.get(random.below(self.lines.len()))?.step;
        let moments = like.duration? as usize / 250 + 1;
        let within = like.start + 250 * random.below(moments) as i64;
        let step = touching(self.world, like, time.unwrap_or(within), random)?;
        Some(self.insert(step, random))
    }

    /// Takes out lines that the checker names until it names none.
    fn prune(&mut self, random: &mut Random) {
        loop {
            let named = match self.ask() {
                Said::Valid => return,
                Said::Refused { line } => line,
                Said::Failed {
                    word: Word::Conflict,
                    line,
                    second,
                    ..
                } => *random.pick(&[line, second]),
                Said::Failed {
                    word: Word::Invariant,
                    time,
                    line,
                    ..
                } => self.breaker(time, line, random),
                Said::Failed { line, .. } => line,
            };
            if named == 0 {
                return;
            }
            self.lines.remove(named - 1);
        }
    }

    /// A line with a point at this time, rather not the one given.
    fn breaker(&self, time: i64, line: usize, random: &mut Random) -> usize {
        let others = (1..=self.lines.len()).filter(|other| *other != line);
        let there: Vec<usize> = others
            .filter(|other| self.lines[other - 1].happens_at(time))
            .collect();
        match there.is_empty() || random.chance(30) {
            true => line,
            false => *random.pick(&there),
        }
    }

    /// A time at which something happens, rather one with many points.
    pub fn time(&self, random: &mut Random) -> i64 {
        let Some(line) = self.lines.get(random.below(self.lines.len())) else {
            return 0;
        };
        match random.chance(50) {
            true => line.step.start,
            false => line.step.end(),
        }
    }
}
