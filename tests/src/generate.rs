//! Random valid tasks, with the properties that matter to compiling.

use crate::random::Random;
use crate::task::*;

/// Sizes and leanings of a random task.
#[derive(Clone, Copy, Debug)]
pub struct Shape {
    pub variables: usize,
    pub twins: usize,
    pub formulas: usize,
    pub effects: usize,
    pub operators: usize,
    /// Percent of references to the rows just before: deep rows.
    pub deep: usize,
    /// Percent of formula rows that are constants: joins fold.
    pub constants: usize,
    /// Percent of atoms on one of the first two variables: conflicts.
    pub conflicts: usize,
    /// Percent of rows at a table's start that have no references.
    pub ground: usize,
    /// Percent of the later rows that have none.
    pub leaves: usize,
}

impl Shape {
    /// A few rows of everything; twins only if asked.
    pub fn small(random: &mut Random, with_twins: bool) -> Shape {
        let variables = random.below(7);
        let twins = if with_twins {
            random.below(variables / 2 + 1)
        } else {
            0
        };
        Shape {
            variables,
            twins,
            formulas: random.between(1, 14),
            effects: random.below(15),
            operators: random.below(5),
            ..Shape::leaning(random)
        }
    }

    /// Some dozens of rows.
    pub fn middle(random: &mut Random, with_twins: bool) -> Shape {
        let variables = random.between(1, 40);
        let twins = if with_twins {
            random.below(variables / 2 + 1)
        } else {
            0
        };
        Shape {
            variables,
            twins,
            formulas: random.between(1, 90),
            effects: random.below(90),
            operators: random.below(20),
            ..Shape::leaning(random)
        }
    }

    /// Hundreds of rows, no twins; compiled they may pass the limits.
    pub fn large(random: &mut Random) -> Shape {
        Shape {
            variables: random.between(1, 400),
            formulas: random.between(1, 3000),
            effects: random.between(1, 2500),
            operators: random.between(1, 120),
            deep: random.pick(&[0, 50, 70, 80]),
            ground: random.pick(&[20, 40]),
            leaves: random.pick(&[0, 2, 10]),
            ..Shape::leaning(random)
        }
    }

    /// Every count at its limit.
    pub fn largest(random: &mut Random) -> Shape {
        Shape {
            variables: MOST_VARIABLES,
            twins: MOST_VARIABLES / 2,
            formulas: MOST_FORMULAS,
            effects: MOST_EFFECTS,
            operators: MOST_OPERATORS,
            ..Shape::leaning(random)
        }
    }

    /// Leanings alone; the counts are 0.
    pub fn leaning(random: &mut Random) -> Shape {
        Shape {
            variables: 0,
            twins: 0,
            formulas: 0,
            effects: 0,
            operators: 0,
            deep: random.pick(&[0, 30, 90]),
            constants: random.pick(&[0, 5, 30]),
            conflicts: random.pick(&[0, 30, 90]),
            ground: random.pick(&[0, 20, 40]),
            leaves: random.pick(&[0, 5, 30, 60]),
        }
    }
}

/// A random task of the given shape; its tables pass the check.
pub fn task(random: &mut Random, shape: &Shape) -> Task {
    let operators = if shape.effects == 0 {
        0
    } else {
        shape.operators
    };
    let head = Head {
        variables: shape.variables as u16,
        twin_count: shape.twins as u16,
        formula_count: shape.formulas as u16,
        effect_count: shape.effects as u16,
        operator_count: operators as u16,
        goal: high(random, shape.formulas),
    };
    let mut task = Task {
        head,
        tables: Tables::zeros(&head.needs()),
    };
    task.tables.initial = state(random, shape.variables);
    task.tables.twins = originals(random, shape.variables - shape.twins, shape.twins);
    for i in 0..shape.formulas {
        task.set_formula(i, formula_row(random, shape, i));
    }
    for i in 0..shape.effects {
        task.set_effect(i, effect_row(random, shape, i));
    }
    // percents have a source of their own: the other words do not hang on them
    let mut percents = Random::named(random.clone().number(), "percents");
    for i in 0..operators {
        let [precondition, effect, cost] = operator_words(random, shape);
        let row = [precondition, effect, cost, percent(&mut percents)];
        task.set_operator(i, row);
    }
    task
}

/// The same task with a goal that negates some variables too: it may bring
/// twins that no operator brought. The number of formulas must allow it.
pub fn with_twins_in_goal(random: &mut Random, mut task: Task) -> Task {
    for variable in 0..task.head.variables {
        if random.chance(60) {
            continue;
        }
        let next = task.head.formula_count;
        let rows = [
            [formula::VARIABLE, variable, 0],
            [formula::NOT, next, 0],
            [formula::AND, task.head.goal, next + 1],
        ];
        task.tables.formulas.extend(rows.concat());
        task.head.formula_count = next + 3;
        task.head.goal = next + 2;
    }
    task
}

/// A task of these counts with the plainest rows: all formulas true, all
/// effects empty, twin k of variable k, operators that cost nothing. Its
/// counts may break the limits.
pub fn plain(head: Head) -> Task {
    let mut tables = Tables::zeros(&head.needs());
    for (k, original) in tables.twins.iter_mut().enumerate() {
        *original = k as u16;
    }
    for row in tables.formulas.chunks_mut(ROW) {
        row[0] = formula::TRUE;
    }
    for row in tables.operators.chunks_mut(OPERATOR_ROW) {
        row.copy_from_slice(&full_price(0, 0, 0));
    }
    Task { head, tables }
}

/// A random state: one byte per variable, 0 or 1.
pub fn state(random: &mut Random, variables: usize) -> Vec<u8> {
    (0..variables).map(|_| random.bit()).collect()
}

/// `count` different originals below `end`, in random order.
fn originals(random: &mut Random, end: usize, count: usize) -> Vec<u16> {
    let mut all: Vec<u16> = (0..end as u16).collect();
    for k in 0..count {
        let other = random.between(k, end - 1);
        all.swap(k, other);
    }
    all.truncate(count);
    all
}

/// A number below `end`, more often a high one: the tops of the trees.
fn high(random: &mut Random, end: usize) -> u16 {
    let one = random.below(end);
    let other = random.below(end);
    one.max(other) as u16
}

/// A row below `number`: one of the few just before it, or any.
fn lower(random: &mut Random, shape: &Shape, number: usize) -> u16 {
    if random.chance(shape.deep) {
        (number - 1 - random.below(number.min(4))) as u16
    } else {
        random.below(number) as u16
    }
}

/// Whether row `number` of `count` has no references.
fn is_leaf(random: &mut Random, shape: &Shape, number: usize, count: usize) -> bool {
    number == 0 || 100 * number < shape.ground * count || random.chance(shape.leaves)
}

fn formula_row(random: &mut Random, shape: &Shape, number: usize) -> [u16; 3] {
    let constant = shape.variables == 0 || random.chance(shape.constants);
    if is_leaf(random, shape, number, shape.formulas) {
        if constant {
            return [random.pick(&[formula::FALSE, formula::TRUE]), 0, 0];
        }
        return [formula::VARIABLE, random.below(shape.variables) as u16, 0];
    }
    let kind = random.between(3, 7) as u16;
    let a = lower(random, shape, number);
    if kind == formula::NOT {
        return [kind, a, 0];
    }
    [kind, a, lower(random, shape, number)]
}

fn effect_row(random: &mut Random, shape: &Shape, number: usize) -> [u16; 3] {
    if is_leaf(random, shape, number, shape.effects) {
        if shape.variables == 0 || random.chance(10) {
            return [effect::EMPTY, 0, 0];
        }
        let kind = random.pick(&[effect::SET, effect::CLEAR]);
        return [kind, atom_variable(random, shape), 0];
    }
    let b = lower(random, shape, number);
    if random.chance(50) {
        return [effect::BOTH, lower(random, shape, number), b];
    }
    [effect::UNDER, random.below(shape.formulas) as u16, b]
}

fn atom_variable(random: &mut Random, shape: &Shape) -> u16 {
    if random.chance(shape.conflicts) {
        random.below(shape.variables.min(2)) as u16
    } else {
        random.below(shape.variables) as u16
    }
}

/// Precondition, effect, cost.
fn operator_words(random: &mut Random, shape: &Shape) -> [u16; 3] {
    let cost = match random.below(4) {
        0 => random.pick(&[0, 1, 65_534, 65_535]),
        _ => random.below(100) as u16,
    };
    let precondition = high(random, shape.formulas);
    [precondition, high(random, shape.effects), cost]
}

/// A percent that an operator may have: often the full one, else mostly one
/// at which rounding, the file or the limit turns.
pub fn percent(random: &mut Random) -> u16 {
    match random.below(6) {
        0 | 1 => FULL_PERCENT,
        2 => random.below(usize::from(MOST_PERCENT) + 1) as u16,
        _ => random.pick(&[0, 1, 49, 50, 51, 99, 101, 150, 199, 200]),
    }
}

/// A short list of operator numbers; now and then one outside the task.
pub fn sequence(random: &mut Random, operator_count: u16) -> Vec<u16> {
    let length = random.below(9);
    let operators = usize::from(operator_count);
    (0..length)
        .map(|_| match random.below(20) {
            0 => random.pick(&[operator_count, operator_count.saturating_add(1), 65_535]),
            _ => random.below(operators.max(1)) as u16,
        })
        .collect()
}
