//! Buffers to lend: dirty at first, and guarded at both ends.

use crate::random::Random;
use crate::task::{Lengths, Tables};

const GUARDS: usize = 4;

/// An element of a lent buffer.
pub trait Element: Copy + PartialEq + std::fmt::Debug {
    const GUARD: Self;
    fn from_number(number: u64) -> Self;
}

impl Element for u8 {
    const GUARD: u8 = 0xa5;
    fn from_number(number: u64) -> u8 {
        number as u8
    }
}

impl Element for u16 {
    const GUARD: u16 = 0xa55a;
    fn from_number(number: u64) -> u16 {
        number as u16
    }
}

impl Element for u32 {
    const GUARD: u32 = 0xa55a_a55a;
    fn from_number(number: u64) -> u32 {
        number as u32
    }
}

impl Element for u64 {
    const GUARD: u64 = 0xa55a_a55a_a55a_a55a;
    fn from_number(number: u64) -> u64 {
        number
    }
}

pub struct Lent<T: Element> {
    all: Vec<T>,
}

impl<T: Element> Lent<T> {
    pub fn of(values: &[T]) -> Lent<T> {
        let mut all = vec![T::GUARD; values.len() + 2 * GUARDS];
        all[GUARDS..][..values.len()].copy_from_slice(values);
        Lent { all }
    }

    pub fn filled(length: usize, value: T) -> Lent<T> {
        let mut all = vec![value; length + 2 * GUARDS];
        all[..GUARDS].fill(T::GUARD);
        all[GUARDS + length..].fill(T::GUARD);
        Lent { all }
    }

    /// Garbage: the largest numbers, small ones that pass for rows and
    /// truth values, or any.
    pub fn dirty(random: &mut Random, length: usize) -> Lent<T> {
        let first = random.number();
        match first % 4 {
            0 => Lent::filled(length, T::from_number(u64::MAX)),
            1 => Lent::filled(length, T::from_number(1 + first / 4 % 3)),
            _ => {
                let mut lent = Lent::filled(length, T::GUARD);
                let mut number = first;
                for value in &mut lent.all[GUARDS..][..length] {
                    number = number
                        .wrapping_mul(6_364_136_223_846_793_005)
                        .wrapping_add(1);
                    *value = T::from_number(number >> 32);
                }
                lent
            }
        }
    }

    pub fn len(&self) -> usize {
        self.all.len() - 2 * GUARDS
    }

    pub fn is_empty(&self) -> bool {
        self.len() == 0
    }

    pub fn slice(&mut self) -> &mut [T] {
        let end = self.all.len() - GUARDS;
        &mut self.all[GUARDS..end]
    }

    /// What it holds now. Panics if a guard was touched.
    pub fn taken(mut self) -> Vec<T> {
        let end = self.all.len() - GUARDS;
        let mut guards = self.all[..GUARDS].iter().chain(&self.all[end..]);
        assert!(
            guards.all(|&value| value == T::GUARD),
            "a write outside a lent buffer"
        );
        self.all.truncate(end);
        self.all.drain(..GUARDS);
        self.all
    }
}

/// Five dirty tables to lend.
pub struct LentTables {
    pub initial: Lent<u8>,
    pub words: [Lent<u16>; 4],
}

impl LentTables {
    pub fn dirty(random: &mut Random, lent: &Lengths) -> LentTables {
        let [initial, words @ ..] = lent.list();
        LentTables {
            initial: Lent::dirty(random, initial),
            words: words.map(|length| Lent::dirty(random, length)),
        }
    }

    pub fn taken(self) -> Tables {
        let initial = self.initial.taken();
        let [twins, formulas, effects, operators] = self.words.map(Lent::taken);
        Tables {
            initial,
            twins,
            formulas,
            effects,
            operators,
        }
    }
}
