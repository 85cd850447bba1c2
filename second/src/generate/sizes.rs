//! Worlds in which one size of what is declared stands at its limit or just past it.

use super::acts;
use super::bulk;
use super::invent::{self, Shape, ORDINARY};
use super::names::{fresh, long};
use super::random::Random;
use super::world::{Head, World};

/// Grows one size to its limit and `over` past it.
pub type Growth = fn(&mut World, usize, &mut Random);

/// Sizes that grow before the initial state and the actions are made.
const BEFORE: &[Growth] = &[
    types,
    objects,
    predicates,
    functions,
    predicate_arguments,
    function_arguments,
];

/// Small enough that no size but the grown one comes near its limit.
pub const SMALL: Shape = Shape {
    arguments: 1,
    actions: 3,
    parameters: 2,
    parts: 2,
    ..ORDINARY
};

pub fn grown(random: &mut Random) -> World {
    let over = *random.pick(&[0, 0, 0, 1, 1, 2]);
    let choice = random.below(BEFORE.len() + bulk::AFTER.len());
    let mut world = invent::vocabulary(&SMALL, random);
    if let Some(grow) = BEFORE.get(choice) {
        grow(&mut world, over, random);
    }
    let mut world = inhabited(world, random);
    if let Some(grow) = bulk::AFTER.get(choice.wrapping_sub(BEFORE.len())) {
        grow(&mut world, over, random);
    }
    world
}

fn inhabited(mut world: World, random: &mut Random) -> World {
    invent::begin(&mut world, &SMALL, random);
    let count = random.between(1, SMALL.actions);
    acts::add(&mut world, &SMALL, count, random);
    world
}

/// A name for the first thing too many, perhaps one that is refused for another reason as well.
pub fn surplus(own: &mut String, given: &str, random: &mut Random) {
    const REFUSED: &str = "or either #t * :metric ?x 5 1. a.b ( ) and not decrease object";
    match random.below(10) {
        0 => *own = given.to_string(),
        1 | 2 => *own = random.word(REFUSED).to_string(),
        3 => *own = long(random, 33),
        _ => {}
    }
}

fn types(world: &mut World, over: usize, random: &mut Random) {
    while world.types.len() <= 16 + over {
        invent::add_type(world, random);
    }
    let given = world.types[3].name.clone();
    if let Some(extra) = world.types.get_mut(17) {
        surplus(&mut extra.name, &given, random);
    }
}

fn objects(world: &mut World, over: usize, random: &mut Random) {
    while world.objects.len() < 64 + over {
        invent::add_object(world, random);
    }
    world.constants = random.below(world.objects.len() + 1);
    let given = world.objects[3].name.clone();
    if let Some(extra) = world.objects.get_mut(64) {
        surplus(&mut extra.name, &given, random);
    }
}

fn predicates(world: &mut World, over: usize, random: &mut Random) {
    let mut list = std::mem::take(&mut world.predicates);
    heads(world, &mut list, 32, over, random);
    world.predicates = list;
}

fn functions(world: &mut World, over: usize, random: &mut Random) {
    let mut list = std::mem::take(&mut world.functions);
    heads(world, &mut list, 16, over, random);
    world.functions = list;
}

fn heads(world: &World, list: &mut Vec<Head>, limit: usize, over: usize, random: &mut Random) {
    while list.len() < limit + over {
        let head = invent::head(world, list, 1, random);
        list.push(head);
    }
    let given = list[0].name.clone();
    if let Some(extra) = list.get_mut(limit) {
        surplus(&mut extra.name, &given, random);
        if random.chance(20) {
            extra.wants = vec![0; 4];
        }
    }
}

fn predicate_arguments(world: &mut World, over: usize, random: &mut Random) {
    let name = fresh(random, &world.predicates);
    let wants = vec![0; 3 + over];
    world.predicates.push(Head { name, wants });
}

fn function_arguments(world: &mut World, over: usize, random: &mut Random) {
    let name = fresh(random, &world.functions);
    let wants = vec![0; 2 + over];
    world.functions.push(Head { name, wants });
}

/// A world whose facts, or numbers, are just as many as the sum of powers may be, or one more.
pub fn summed(random: &mut Random) -> World {
    let facts = random.chance(60);
    let (limit, arguments, most) = if facts {
        (16_384, 3, 32)
    } else {
        (1_024, 2, 16)
    };
    let total = limit + random.below(2);
    let fits = |base: &usize| digits(total, *base, arguments).iter().sum::<usize>() <= most;
    let bases: Vec<usize> = (2..=64).filter(fits).collect();
    let base = *random.pick(&bases);
    let mut world = invent::vocabulary(&SMALL, random);
    world.objects.clear();
    while world.objects.len() < base {
        invent::add_object(&mut world, random);
    }
    // With every object a constant a sum is passed before the problem begins.
    world.constants = match random.chance(25) {
        true => base,
        false => random.below(base + 1),
    };
    let heads = powers(&world, &digits(total, base, arguments), random);
    if facts {
        world.predicates = heads;
    } else {
        world.functions = heads;
    }
    let mut world = inhabited(world, random);
    if random.chance(30) {
        world.facts.clear();
        world.numbers.clear();
    }
    world
}

/// So many heads without arguments, so many of one, and so on.
fn powers(world: &World, counts: &[usize], random: &mut Random) -> Vec<Head> {
    let mut list: Vec<Head> = Vec::new();
    for (power, count) in counts.iter().enumerate() {
        for _ in 0..*count {
            let name = fresh(random, &list);
            let wants = (0..power)
                .map(|_| random.below(world.types.len()))
                .collect();
            list.push(Head { name, wants });
        }
    }
    random.shuffle(&mut list);
    list
}

/// How often each power of `base` up to the given one is needed to make up `total`, lowest first.
fn digits(total: usize, base: usize, highest: usize) -> Vec<usize> {
    let mut rest = total;
    let mut counts = Vec::new();
    for power in (0..=highest as u32).rev() {
        counts.push(rest / base.pow(power));
        rest %= base.pow(power);
    }
    counts.reverse();
    counts
}
