//! The check of tables (01, "Where each number is given", Head to Operator
//! row). The row checks serve the reader too.

use crate::task::*;

pub fn check(head: &Head, tables: &Tables) -> Result<(), Refusal> {
    check_head(head)?;
    check_lengths(head, &tables.lengths())?;
    check_initial(&tables.initial[..usize::from(head.variables)])?;
    for k in 0..usize::from(head.twin_count) {
        check_twin(head, &tables.twins[..k], tables.twins[k])?;
    }
    for i in 0..usize::from(head.formula_count) {
        check_formula(head, i, row(&tables.formulas, i))?;
    }
    for i in 0..usize::from(head.effect_count) {
        check_effect(head, i, row(&tables.effects, i))?;
    }
    for i in 0..usize::from(head.operator_count) {
        check_operator(head, operator_row(&tables.operators, i))?;
    }
    Ok(())
}

/// 0, or the number of the refusal.
pub fn number(answer: Result<(), Refusal>) -> u16 {
    answer.err().unwrap_or(0)
}

fn refuse_if(wrong: bool, number: Refusal) -> Result<(), Refusal> {
    if wrong {
        Err(number)
    } else {
        Ok(())
    }
}

/// 6, then 7.
pub fn check_head(head: &Head) -> Result<(), Refusal> {
    let [v, w, f, e, o, goal] = head.words().map(usize::from);
    let inside = v <= MOST_VARIABLES
        && 2 * w <= v
        && (1..=MOST_FORMULAS).contains(&f)
        && e <= MOST_EFFECTS
        && o <= MOST_OPERATORS;
    refuse_if(!inside, 6)?;
    refuse_if(goal >= f, 7)
}

/// 5: a lent table too short for its count.
pub fn check_lengths(head: &Head, lent: &Lengths) -> Result<(), Refusal> {
    refuse_if(!lent.cover(&head.needs()), 5)
}

fn check_initial(initial: &[u8]) -> Result<(), Refusal> {
    refuse_if(initial.iter().any(|&byte| byte > 1), 8)
}

/// `before` holds the originals of the twin rows before this one.
pub fn check_twin(head: &Head, before: &[u16], original: u16) -> Result<(), Refusal> {
    let originals = head.variables - head.twin_count;
    refuse_if(original >= originals || before.contains(&original), 9)
}

/// What a word of a row may be.
enum Word {
    Unused,
    Below(usize),
}

fn fits(rule: Word, word: u16) -> bool {
    match rule {
        Word::Unused => word == 0,
        Word::Below(end) => usize::from(word) < end,
    }
}

pub fn check_formula(head: &Head, number: usize, row: &[u16]) -> Result<(), Refusal> {
    let variable = || Word::Below(usize::from(head.variables));
    let lower = || Word::Below(number);
    let (a, b) = match row[0] {
        formula::FALSE | formula::TRUE => (Word::Unused, Word::Unused),
        formula::VARIABLE => (variable(), Word::Unused),
        formula::NOT => (lower(), Word::Unused),
        formula::AND | formula::OR | formula::IMPLIES | formula::EQUIVALENT => (lower(), lower()),
        _ => return Err(10),
    };
    refuse_if(!fits(a, row[1]) || !fits(b, row[2]), 10)
}

pub fn check_effect(head: &Head, number: usize, row: &[u16]) -> Result<(), Refusal> {
    let variable = || Word::Below(usize::from(head.variables));
    let lower = || Word::Below(number);
    let condition = Word::Below(usize::from(head.formula_count));
    let (a, b) = match row[0] {
        effect::EMPTY => (Word::Unused, Word::Unused),
        effect::SET | effect::CLEAR => (variable(), Word::Unused),
        effect::BOTH => (lower(), lower()),
        effect::UNDER => (condition, lower()),
        _ => return Err(11),
    };
    refuse_if(!fits(a, row[1]) || !fits(b, row[2]), 11)
}

/// 12, then 24.
pub fn check_operator(head: &Head, row: &[u16]) -> Result<(), Refusal> {
    let known = row[0] < head.formula_count && row[1] < head.effect_count;
    refuse_if(!known, 12)?;
    refuse_if(row[3] > MOST_PERCENT, 24)
}
