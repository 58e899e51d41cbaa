//! Group `compiling`: rows as deep as the limits allow, in formulas and in
//! effects at once, within 8 MiB of stack.

use saqwillo_tests::compile::compile;
use saqwillo_tests::deep::{deep_task, EFFECTS, FORMULAS};
use saqwillo_tests::harness::{same, Test, Trial, Verdict};
use saqwillo_tests::stack;

use crate::calls::compiling as calls;
use crate::compiling::{needs, scratch_of};

pub fn tests() -> Vec<Test> {
    let test = |name, body| Test {
        group: "compiling",
        name,
        body,
    };
    vec![test("deep rows", deep_rows)]
}

const STACK: usize = 8 << 20;

fn deep_rows(trial: &mut Trial) -> Verdict {
    let mut most = (0, String::new());
    for (formula_name, formula_row) in FORMULAS {
        for (effect_name, effect_row) in EFFECTS {
            trial.case();
            let task = deep_task(formula_row, effect_row);
            let (lent, scratch) = (needs(&task), scratch_of(&task));
            let random = &mut trial.random;
            let (found, used) =
                stack::measured(STACK, || calls::compile(random, &task, &lent, scratch));
            let what = format!("{formula_name}; {effect_name}");
            same(&what, found == compile(&task, &lent, scratch), true)?;
            most = most.max((used, what));
        }
    }
    let (used, what) = most;
    println!("deepest rows: {used} bytes of stack ({what})");
    Ok(())
}
