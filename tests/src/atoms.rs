//! Which atomic effects stand below which effect rows.

use crate::task::*;

/// An atomic effect: set or clear, and its variable.
pub type Atom = (u16, u16);

/// A set of atoms, two bits for each variable.
#[derive(Clone, Copy, Default)]
pub struct AtomSet {
    bits: [u64; 2 * MOST_VARIABLES / 64],
}

impl AtomSet {
    fn place((kind, variable): Atom) -> (usize, u64) {
        let bit = 2 * usize::from(variable) + usize::from(kind == effect::SET);
        (bit / 64, 1 << (bit % 64))
    }

    pub fn holds(&self, atom: Atom) -> bool {
        let (word, bit) = AtomSet::place(atom);
        self.bits[word] & bit != 0
    }

    fn add(&mut self, atom: Atom) {
        let (word, bit) = AtomSet::place(atom);
        self.bits[word] |= bit;
    }

    fn join(&mut self, other: &AtomSet) {
        for (word, more) in self.bits.iter_mut().zip(other.bits) {
            *word |= more;
        }
    }
}

/// For each effect row the atoms that stand in it or below it.
pub fn atoms_below(task: &Task) -> Vec<AtomSet> {
    let mut all: Vec<AtomSet> = Vec::new();
    for i in 0..usize::from(task.head.effect_count) {
        let [kind, a, b] = task.effect(i);
        let mut set = AtomSet::default();
        match kind {
            effect::SET | effect::CLEAR => set.add((kind, a)),
            effect::BOTH => {
                set.join(&all[usize::from(a)]);
                set.join(&all[usize::from(b)]);
            }
            effect::UNDER => set.join(&all[usize::from(b)]),
            _ => {}
        }
        all.push(set);
    }
    all
}
