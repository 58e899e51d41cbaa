//! Climbs from random shapes towards tasks that are slow to compile. The
//! same seed tries the same shapes until a choice between two is as close as
//! the times' noise.

use saqwillo_tests::generate::{self, Shape};
use saqwillo_tests::random::Random;
use saqwillo_tests::task::*;

use super::seconds;
use crate::compiling::Pair;
use crate::times::{readable, Clock};

/// A shape, how many operators name one of the last rows, and the seed of
/// its rows.
#[derive(Clone, Debug)]
struct Point {
    shape: Shape,
    near_the_top: usize,
    seed: u64,
}

/// A climb starts afresh after so many steps without success.
const PATIENCE: usize = 30;
/// Few operators, so that a step is short; the time grows with them.
const OPERATORS: usize = 4;

impl Point {
    fn new(random: &mut Random) -> Point {
        let shape = Shape {
            operators: OPERATORS,
            ..Shape::large(random)
        };
        Point {
            shape,
            near_the_top: random.pick(&[1, 16, 256]),
            seed: random.number(),
        }
    }

    fn task(&self) -> Task {
        let mut random = Random::new(self.seed);
        let mut task = generate::task(&mut random, &self.shape);
        for i in 0..self.shape.operators {
            let back = 1 + i % self.near_the_top.min(self.shape.effects);
            let [precondition, _, cost, percent] = task.operator(i);
            let root = (self.shape.effects - back) as u16;
            task.set_operator(i, [precondition, root, cost, percent]);
        }
        task
    }

    /// One count or leaning changed.
    fn neighbour(&self, random: &mut Random) -> Point {
        let mut next = self.clone();
        let shape = &mut next.shape;
        match random.below(9) {
            0 => shape.variables = near(random, shape.variables, MOST_VARIABLES),
            1 => shape.formulas = near(random, shape.formulas, MOST_FORMULAS),
            2 => shape.effects = near(random, shape.effects, MOST_EFFECTS),
            3 => shape.deep = near(random, shape.deep, 100),
            4 => shape.constants = near(random, shape.constants, 100),
            5 => shape.conflicts = near(random, shape.conflicts, 100),
            6 => shape.ground = near(random, shape.ground, 99),
            7 => shape.leaves = near(random, shape.leaves, 100),
            _ => next.seed = random.number(),
        }
        next
    }
}

/// A number from 1 to the most, more often near to the present one.
fn near(random: &mut Random, present: usize, most: usize) -> usize {
    let low = (present / 2).max(1).min(most);
    let high = (present * 2 + 1).clamp(low, most);
    match random.below(4) {
        0 => random.between(1, most),
        _ => random.between(low, high),
    }
}

pub fn print(seed: Option<&str>, limit: Option<&str>) {
    let seed = seed.map_or(1, |word| word.parse().expect("a seed"));
    let limit: f64 = limit.map_or(60.0, |word| word.parse().expect("seconds"));
    let mut random = Random::new(seed);
    let start = Clock::Thread.now();
    let mut worst = (0.0, Point::new(&mut random));
    while Clock::Thread.now() - start < limit {
        let climbed = climb(&mut random, start + limit);
        if climbed.0 > worst.0 {
            worst = climbed;
            print_point(&worst.1, worst.0);
        }
    }
}

/// From a random point upwards; the seconds of the last one.
fn climb(random: &mut Random, end: f64) -> (f64, Point) {
    let mut point = Point::new(random);
    let mut best = seconds(&point.task());
    let mut failures = 0;
    while failures < PATIENCE && Clock::Thread.now() < end {
        let next = point.neighbour(random);
        let spent = seconds(&next.task());
        failures += 1;
        if spent > best {
            (best, point, failures) = (spent, next, 0);
        }
    }
    (best, point)
}

fn print_point(point: &Point, spent: f64) {
    let task = point.task();
    let mut pair = Pair::new(&task);
    let number = pair.library();
    let form = pair.quicker();
    let other = pair.seconds(form);
    println!(
        "{} for {} operators (other {}, ratio {:.1}, answer {number}): {point:?}",
        readable(spent),
        OPERATORS,
        readable(other),
        spent / other
    );
}
