//! Talent scheduling: an order of scenes with the least pay for actors on location.

use super::{all, sum_of, Family};
use crate::build::*;
use crate::generate::Random;

pub const TALENT: Family = Family {
    name: "talent-scheduling",
    what: "scenes with half as many actors, each in three tenths of the scenes, no bound",
    smallest: 1,
    usual: 24,
    largest: 60,
    model: talent,
};

/// The most actors there are.
const ACTORS: usize = 16;
const SHARE: usize = 30;

/// An actor: the scenes played in, and the pay for a day on location.
struct Actor {
    scenes: u64,
    pay: i32,
}

/// The pay for one day of shooting a scene: its actors, and those who have come and are still needed.
fn pay(actors: &[Actor], scenes: u8, scene: u8) -> Bytes {
    let plays = |actor: &Actor| actor.scenes >> scene & 1 == 1;
    let own = actors.iter().filter(|actor| plays(actor));
    let mut parts = vec![lit(own.map(|actor| actor.pay).sum())];
    for (number, actor) in actors.iter().enumerate() {
        if !plays(actor) {
            let come = member(obj(number as u8), set(1));
            let needed = not(empty(intersection(set_lit(scenes, actor.scenes), set(0))));
            parts.push(choice(and(come, needed), lit(actor.pay), lit(0)));
        }
    }
    sum_of(&parts)
}

/// Variables: 0 the scenes left, 1 the actors who have come.
pub fn talent(scenes: usize, seed: u64) -> Bytes {
    let mut random = Random::new(seed);
    let mut actor = || Actor {
        scenes: (0..scenes).fold(0, |set, scene| {
            set | u64::from(random.chance(SHARE)) << scene
        }),
        pay: random.between(1, 20),
    };
    let actors: Vec<Actor> = (0..scenes.div_ceil(2).min(ACTORS))
        .map(|_| actor())
        .collect();
    let (count, people) = (scenes as u8, actors.len() as u8);
    let mut build = Build::new(SUM).set(count, all(scenes)).set(people, 0);
    for scene in 0..count {
        let numbered = actors.iter().enumerate();
        let playing = numbered.fold(0, |set, (number, actor)| {
            set | (actor.scenes >> scene & 1) << number
        });
        build = build.transition(
            &[member(obj(scene), set(0))],
            product(lit(random.between(1, 5)), pay(&actors, count, scene)),
            &[
                (0, remove(obj(scene), set(0))),
                (1, union(set(1), set_lit(people, playing))),
            ],
        );
    }
    build.base(&[empty(set(0))]).end()
}
