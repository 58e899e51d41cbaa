//! Tasks whose operators all come to one core of effect rows above all atoms:
//! what a walk finds there is worth keeping for the next operator, and there
//! may be more such rows than room to keep them. Every operator's effect
//! stands under false, so no rule comes of it, but each condition is built.

use crate::draft::Draft;
use crate::random::Random;
use crate::task::*;

/// The counts, and how the rows are wired.
#[derive(Clone, Copy, Debug)]
pub struct SharedCore {
    pub variables: usize,
    /// The first set a variable each; those above the variables clear one.
    pub atoms: usize,
    /// The atoms are joined by halves, or else one after the other.
    pub halved: bool,
    /// Each atom stands under one of so many variables; 0: under none.
    pub conditions: usize,
    /// Of 1,000 atoms so many stand under another variable than the first.
    pub others: usize,
    /// All effect rows: the core has what atoms and operators leave.
    pub effects: usize,
    pub operators: usize,
    /// So many rows of the core are joined by each operator, and by the last.
    pub entered: usize,
    pub entered_last: usize,
    /// Each operator has a "when" of its own above what it joins.
    pub own_when: bool,
    /// The left effect of a row is at most so many rows back, and the right.
    pub left: usize,
    pub right: usize,
    /// Percent of the rows "under a variable", and "under true"; the others
    /// are "both".
    pub whens: usize,
    pub idle_whens: usize,
    /// Operators enter the last rows of the core, so many percent of it.
    pub near_the_top: usize,
    pub seed: u64,
}

/// A line of rows "under true" above all atoms, at the limits.
pub const IDLE_WHENS: SharedCore = SharedCore {
    variables: MOST_VARIABLES,
    atoms: 2 * MOST_VARIABLES,
    halved: false,
    conditions: 0,
    others: 0,
    effects: MOST_EFFECTS,
    operators: MOST_OPERATORS,
    entered: 1,
    entered_last: 1,
    own_when: true,
    left: 1,
    right: 1,
    whens: 0,
    idle_whens: 100,
    near_the_top: 1,
    seed: 1,
};

/// Found by a search: each row "both" of the one before it and any one far
/// back, now and then a "when"; operators enter the upper half.
pub const FOUND_CHAIN: SharedCore = SharedCore {
    atoms: 457,
    entered: 6,
    entered_last: 6,
    own_when: false,
    right: 2000,
    whens: 1,
    idle_whens: 0,
    near_the_top: 50,
    seed: 9_112_879_721_585_745_305,
    ..IDLE_WHENS
};

/// Found by a search: rows "both" of one nearer and one further back, above
/// atoms that are joined by halves; operators enter everywhere.
pub const FOUND_NET: SharedCore = SharedCore {
    atoms: 388,
    halved: true,
    conditions: 1,
    entered: 2,
    entered_last: 2,
    own_when: false,
    left: 58,
    right: 462,
    whens: 1,
    idle_whens: 0,
    near_the_top: 100,
    seed: 17_024_116_996_496_175_014,
    ..IDLE_WHENS
};

/// The first formula rows; then comes one for each variable.
const YES: u16 = 0;
const NO: u16 = 1;

fn variable(v: usize) -> u16 {
    2 + v as u16
}

/// Rows entered one after the other are so far apart.
const STRIDE: usize = 37;

impl SharedCore {
    pub fn task(&self) -> Task {
        let mut random = Random::new(self.seed);
        let mut draft = Draft::new(&vec![0; self.variables]);
        draft.yes();
        draft.formula(formula::FALSE, 0, 0);
        (0..self.variables).for_each(|v| {
            draft.variable(v as u16);
        });
        let mut rows = vec![self.all_atoms(&mut draft, &mut random)];
        for _ in 0..self.length() {
            let row = self.row(&mut draft, &mut random, &rows);
            rows.push(row);
        }
        for i in 0..self.operators {
            let root = self.root(&mut draft, &mut random, &rows, i);
            draft.operator(YES, root, i as u16);
        }
        draft.finish(YES)
    }

    /// The rows of the core: atoms and their joins, conditions and theirs, and
    /// what each operator has of its own are taken off.
    fn length(&self) -> usize {
        let below = 2 * self.atoms + 2 * self.conditions.max(1);
        let each = self.entered + usize::from(self.own_when);
        let above = self.operators * each + self.entered_last - self.entered;
        self.effects.saturating_sub(below + above + 1)
    }

    fn all_atoms(&self, draft: &mut Draft, random: &mut Random) -> u16 {
        let mut groups = vec![Vec::new(); self.conditions.max(1)];
        for k in 0..self.atoms {
            let clears = k >= self.variables;
            let kind = [effect::SET, effect::CLEAR][usize::from(clears)];
            let atom = draft.effect(kind, (k % self.variables) as u16, 0);
            let other = groups.len() > 1 && random.below(1000) < self.others;
            let group = if other {
                random.between(1, groups.len() - 1)
            } else {
                0
            };
            groups[group].push(atom);
        }
        groups.retain(|group| !group.is_empty());
        let mut parts = Vec::new();
        for (k, group) in groups.iter().enumerate() {
            let whole = self.joined(draft, group);
            parts.push(match self.conditions {
                0 => whole,
                _ => draft.under(variable(k % self.variables), whole),
            });
        }
        draft.all(&parts)
    }

    fn joined(&self, draft: &mut Draft, effects: &[u16]) -> u16 {
        if !self.halved {
            return draft.all(effects);
        }
        let mut line = effects.to_vec();
        while line.len() > 1 {
            line = line.chunks(2).map(|pair| draft.all(pair)).collect();
        }
        line[0]
    }

    /// The next row of the core.
    fn row(&self, draft: &mut Draft, random: &mut Random, rows: &[u16]) -> u16 {
        let mut back = |most: usize| rows[rows.len() - 1 - random.below(most.min(rows.len()))];
        let (left, right) = (back(self.left), back(self.right));
        match random.below(100) {
            dice if dice < self.whens => draft.under(variable(random.below(self.variables)), left),
            dice if dice < self.whens + self.idle_whens => draft.under(YES, left),
            _ => draft.effect(effect::BOTH, left, right),
        }
    }

    /// The effect of operator `i`.
    fn root(&self, draft: &mut Draft, random: &mut Random, rows: &[u16], i: usize) -> u16 {
        let last = i + 1 == self.operators;
        let count = [self.entered, self.entered_last][usize::from(last)];
        let among = (rows.len() * self.near_the_top / 100).max(1);
        let mut place = |k: usize| {
            let back = (i * self.entered + k) * STRIDE + random.below(3);
            rows[rows.len() - 1 - back % among]
        };
        let named: Vec<u16> = (0..count).map(&mut place).collect();
        let mut inner = draft.all(&named);
        if self.own_when {
            inner = draft.under(variable(i % self.variables), inner);
        }
        draft.under(NO, inner)
    }
}
