//! Worlds in which many points may share an instant, and `over all` conditions are touched without
//! being broken: each predicate and each function has a role that says how actions use it.

use super::acts::binding;
use super::invent::{add_object, add_type};
use super::names::{fresh, fresh_variable};
use super::random::Random;
use super::scene::Scene;
use super::world::{Action, Atom, Head, Named, Term, When, World};

/// How actions use the facts of a predicate or the numbers of a function.
#[derive(Clone, Copy, PartialEq)]
pub enum Role {
    /// read, never written
    Read,
    /// only added, or raised and lowered
    Given,
    /// only deleted, or raised and lowered
    Taken,
    /// read and written: points meet if they use it with the same arguments
    Own,
}

/// Every role.
pub const ALL: &[Role] = &[Role::Read, Role::Given, Role::Taken, Role::Own];

/// A world with the roles of its predicates and functions, and whether a predicate's facts hold at
/// first.
pub struct Stage {
    pub world: World,
    pub predicates: Vec<Role>,
    pub functions: Vec<Role>,
    pub at_first: Vec<bool>,
}

/// How many actions keep to no role: they interfere with most others.
const SPOILERS: usize = 2;

pub fn world(random: &mut Random) -> World {
    let mut stage = Stage::furnished(random);
    let count = random.between(4, 12);
    for index in 0..count + SPOILERS {
        let action = stage.action(index >= count, random);
        stage.world.actions.push(action);
    }
    stage.world
}

impl Stage {
    /// No actions yet.
    fn furnished(random: &mut Random) -> Self {
        let mut world = World::empty("");
        world.name = fresh(random, &world.types);
        for _ in 0..random.below(3) {
            add_type(&mut world, random);
        }
        for _ in 0..random.between(3, 6) {
            add_object(&mut world, random);
        }
        world.constants = random.between(1, world.objects.len());
        let mut stage = Stage {
            world,
            predicates: roles(random.between(4, 7), random),
            functions: roles(random.between(4, 6), random),
            at_first: Vec::new(),
        };
        stage.state_facts(random);
        stage.state_numbers(random);
        stage
    }

    /// Predicates; of each either all facts hold at first, with few exceptions, or none.
    fn state_facts(&mut self, random: &mut Random) {
        let world = &mut self.world;
        for head in 0..self.predicates.len() {
            let declared = declared(world, &world.predicates, &[1, 3, 4, 4], random);
            let hold = random.chance(55);
            for terms in grounds(world, &declared.wants) {
                if hold != random.chance(1) {
                    world.facts.push(Atom { head, terms });
                }
            }
            world.predicates.push(declared);
            self.at_first.push(hold);
        }
    }

    /// Functions; those that are only read have numbers that may be durations.
    fn state_numbers(&mut self, random: &mut Random) {
        const SPANS: &[i64] = &[500, 1000, 2000, 2000, 5000, 20_000, 60_000];
        const LEVELS: &[i64] = &[0, 0, 1000, 5000, -2000, 100_000];
        let world = &mut self.world;
        for head in 0..self.functions.len() {
            let declared = declared(world, &world.functions, &[2, 4, 5], random);
            let list = match self.functions[head] {
                Role::Read => SPANS,
                _ => LEVELS,
            };
            let (common, alike) = (*random.pick(list), random.chance(60));
            for terms in grounds(world, &declared.wants) {
                let own = *random.pick(list);
                if random.chance(99) {
                    let value = if alike { common } else { own };
                    world.numbers.push((Atom { head, terms }, value));
                }
            }
            world.functions.push(declared);
        }
    }

    fn action(&self, spoils: bool, random: &mut Random) -> Action {
        let world = &self.world;
        let parameters = self.parameters(random);
        let bound = binding(world, &parameters, random).unwrap_or_default();
        let scene = Scene {
            stage: self,
            parameters: &parameters,
            bound: &bound,
            spoils,
        };
        let duration = random.chance(50).then(|| scene.duration(random));
        let mut conditions = scene.conditions(duration.is_some(), random);
        let mut effects = scene.effects(random);
        if duration.is_some() && random.chance(40) {
            if let Some((condition, effect)) = scene.begun(random) {
                conditions.push((When::Through, condition));
                effects.push((When::Start, effect));
            }
        }
        random.shuffle(&mut conditions);
        random.shuffle(&mut effects);
        Action {
            name: fresh(random, &world.actions),
            duration,
            conditions,
            effects,
            parameters,
        }
    }

    fn parameters(&self, random: &mut Random) -> Vec<Named> {
        let mut list = Vec::new();
        for _ in 0..random.weighted(&[1, 2, 4, 5, 5]) {
            let name = fresh_variable(random, &list);
            let kind = random.pick(&self.world.objects).kind;
            list.push(Named { name, kind });
        }
        list
    }
}

/// So many roles, each at least once.
fn roles(count: usize, random: &mut Random) -> Vec<Role> {
    let mut list = ALL.to_vec();
    while list.len() < count {
        list.push(*random.pick(&[Role::Read, Role::Given, Role::Own, Role::Own, Role::Own]));
    }
    random.shuffle(&mut list);
    list
}

/// A head of 0, 1, 2 .. arguments, each number as likely as its weight says.
fn declared(world: &World, taken: &[Head], weights: &[usize], random: &mut Random) -> Head {
    let name = fresh(random, taken);
    let count = random.weighted(weights);
    let mut wants = Vec::new();
    for _ in 0..count {
        let kind = random.pick(&world.objects).kind;
        wants.push(if random.chance(60) { 0 } else { kind });
    }
    Head { name, wants }
}

/// All argument lists that fit.
fn grounds(world: &World, wants: &[usize]) -> Vec<Vec<Term>> {
    let mut lists = vec![Vec::new()];
    for wanted in wants {
        let fitting = world.fitting(*wanted);
        let longer = |list: &Vec<Term>| {
            let with = |object: &usize| [&list[..], &[Term::Object(*object)]].concat();
            fitting.iter().map(with).collect::<Vec<_>>()
        };
        lists = lists.iter().flat_map(longer).collect();
    }
    lists
}
