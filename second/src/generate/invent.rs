//! Random well-formed worlds: names and kinds first, then the initial state, then actions that
//! mostly apply in it.

use super::acts;
use super::names::{amount, fresh};
use super::random::Random;
use super::world::{Atom, Head, Named, Term, World};

/// The most of each that a world may get, and how its initial state looks.
#[derive(Clone)]
pub struct Shape {
    pub types: usize,
    pub objects: usize,
    pub predicates: usize,
    pub functions: usize,
    pub arguments: usize,
    pub actions: usize,
    pub parameters: usize,
    /// The most conditions and the most effects of an action, nested ones counted once.
    pub parts: usize,
    /// Numbers near the ends of the range.
    pub edge: bool,
    /// All facts of a predicate alike at first, all numbers of a function alike.
    pub uniform: bool,
}

pub const ORDINARY: Shape = Shape {
    types: 4,
    objects: 7,
    predicates: 5,
    functions: 4,
    arguments: 3,
    actions: 5,
    parameters: 4,
    parts: 4,
    edge: false,
    uniform: false,
};

/// Many types, so that few things fit by chance.
pub const TYPED: Shape = Shape {
    types: 9,
    objects: 9,
    ..ORDINARY
};

/// Few facts and numbers, so that actions meet at them.
pub const CLASH: Shape = Shape {
    types: 1,
    objects: 3,
    predicates: 3,
    functions: 3,
    arguments: 1,
    actions: 6,
    parameters: 2,
    parts: 2,
    edge: false,
    uniform: true,
};

pub const EDGE: Shape = Shape {
    functions: 4,
    predicates: 1,
    edge: true,
    ..CLASH
};

pub fn world(shape: &Shape, random: &mut Random) -> World {
    let mut world = vocabulary(shape, random);
    begin(&mut world, shape, random);
    let count = random.between(1, shape.actions);
    acts::add(&mut world, shape, count, random);
    world
}

/// A world with types, objects, predicates and functions only.
pub fn vocabulary(shape: &Shape, random: &mut Random) -> World {
    let mut world = World::empty("");
    world.name = fresh(random, &world.types);
    for _ in 0..random.below(shape.types + 1) {
        add_type(&mut world, random);
    }
    let least = usize::from(random.chance(95));
    for _ in 0..random.between(least, shape.objects) {
        add_object(&mut world, random);
    }
    world.constants = random.below(world.objects.len() + 1);
    let least = usize::from(shape.uniform);
    for _ in 0..random.between(least, shape.predicates) {
        let head = head(&world, &world.predicates, shape.arguments, random);
        world.predicates.push(head);
    }
    for _ in 0..random.between(least, shape.functions) {
        let head = head(&world, &world.functions, shape.arguments.min(2), random);
        world.functions.push(head);
    }
    world
}

pub fn add_type(world: &mut World, random: &mut Random) {
    let name = fresh(random, &world.types);
    let kind = random.below(world.types.len());
    world.types.push(Named { name, kind });
}

pub fn add_object(world: &mut World, random: &mut Random) {
    let name = fresh(random, &world.objects);
    let kind = random.below(world.types.len());
    world.objects.push(Named { name, kind });
}

/// A head of at most so many arguments, one that some object fits preferred.
pub fn head(world: &World, taken: &[Head], most: usize, random: &mut Random) -> Head {
    let name = fresh(random, taken);
    let count = random.below(most + 1);
    let kind = |random: &mut Random| match random.chance(30) {
        true => random.below(world.types.len()),
        false if world.objects.is_empty() => 0,
        false => random.pick(&world.objects).kind,
    };
    let wants = (0..count).map(|_| kind(random)).collect();
    Head { name, wants }
}

/// Sets the initial facts and numbers.
pub fn begin(world: &mut World, shape: &Shape, random: &mut Random) {
    for head in 0..world.predicates.len() {
        let share = share(shape, &[100, 0], 55, random);
        for terms in grounds(world, &world.predicates[head].wants, random) {
            if random.chance(share) {
                world.facts.push(Atom { head, terms });
            }
        }
    }
    for head in 0..world.functions.len() {
        let share = share(shape, &[100, 100, 100, 0], 88, random);
        let common = amount(random, shape.edge);
        for terms in grounds(world, &world.functions[head].wants, random) {
            let own = amount(random, shape.edge);
            let value = if shape.uniform { common } else { own };
            if random.chance(share) {
                world.numbers.push((Atom { head, terms }, value));
            }
        }
    }
}

/// How many in a hundred of a head's facts or numbers are given.
fn share(shape: &Shape, uniform: &[usize], otherwise: usize, random: &mut Random) -> usize {
    if shape.uniform {
        *random.pick(uniform)
    } else {
        otherwise
    }
}

/// The argument lists that fit, or some of them if they are many.
fn grounds(world: &World, wants: &[usize], random: &mut Random) -> Vec<Vec<Term>> {
    let fitting: Vec<Vec<usize>> = wants.iter().map(|kind| world.fitting(*kind)).collect();
    let total: usize = fitting.iter().map(Vec::len).product();
    let mut chosen: Vec<usize> = if total <= 64 {
        (0..total).collect()
    } else {
        (0..20).map(|_| random.below(total)).collect()
    };
    chosen.sort_unstable();
    chosen.dedup();
    let terms = |index: usize| {
        let mut rest = index;
        let mut digit = |list: &Vec<usize>| {
            let object = list[rest % list.len()];
            rest /= list.len();
            Term::Object(object)
        };
        fitting.iter().map(&mut digit).collect()
    };
    chosen.into_iter().map(terms).collect()
}
