//! Files made to be slow: how their times grow with each count, and beside
//! the other implementation's.

mod alike;
pub mod families;
pub mod hostile;
pub mod nets;
pub mod search;

use saqwillo_tests::best::compile::Form;
use saqwillo_tests::task::Task;

use crate::compiling::Pair;
use crate::times::{least_of_three, readable};
use families::{Family, Size, FAMILIES, LIMITS};

/// Where growth is measured: half of each count is taken beside it.
const MEASURED: Size = Size {
    variables: 256,
    formulas: 2048,
    effects: 2048,
    operators: 8,
};

/// Longer calls at the limits are not made, but foretold from fewer operators.
const PATIENCE: f64 = 3.0;

/// The family that was the worst of all before the index had trees.
const WORST: usize = FAMILIES.len() - 1;

/// The library's seconds on this task.
pub fn seconds(task: &Task) -> f64 {
    let mut pair = Pair::new(task);
    least_of_three(|| {
        pair.library();
    })
}

/// The library's seconds at the limits; from fewer operators, if it is long,
/// and how many those were.
fn at_the_limits(family: &Family) -> (f64, usize) {
    let mut size = Size {
        operators: 1,
        ..LIMITS
    };
    loop {
        let spent = seconds(&(family.make)(&size));
        let whole = LIMITS.operators as f64 / size.operators as f64;
        if size.operators == LIMITS.operators || spent > PATIENCE / 4.0 {
            return (spent * whole, size.operators);
        }
        size.operators *= 4;
    }
}

/// How often the time doubles when the count does.
fn growth(family: &Family, whole: f64, half: Size) -> f64 {
    (whole / seconds(&(family.make)(&half))).log2()
}

pub fn print_families(only: Option<&str>) {
    println!(
        "{:<52} {:>5} {:>5} {:>5} {:>5} {:>10} {:>10} {:>8}  answer",
        "powers of the counts; time at the limits", "V", "F", "E", "O", "library", "other", "ratio"
    );
    for family in &FAMILIES {
        if only.is_none_or(|only| family.name.contains(only)) {
            print_family(family);
        }
    }
    println!("* foretold from fewer operators, since it takes longer than {PATIENCE} s");
}

fn print_family(family: &Family) {
    let whole = seconds(&(family.make)(&MEASURED));
    let m = MEASURED;
    let halves = [
        Size {
            variables: m.variables / 2,
            ..m
        },
        Size {
            formulas: m.formulas / 2,
            ..m
        },
        Size {
            effects: m.effects / 2,
            ..m
        },
        Size {
            operators: m.operators / 2,
            ..m
        },
    ];
    let [v, f, e, o] = halves.map(|half| growth(family, whole, half));
    let (library, measured) = at_the_limits(family);
    let task = (family.make)(&LIMITS);
    let mut pair = Pair::new(&task);
    pair.check();
    let other = pair.seconds(Form::Kept);
    let answer = pair.other(Form::Kept).err().unwrap_or(0);
    let foretold = if measured < LIMITS.operators {
        "*"
    } else {
        " "
    };
    println!(
        "{:<52} {v:>5.1} {f:>5.1} {e:>5.1} {o:>5.1} {:>10}{foretold}{:>9} {:>8.1} {answer:>7}",
        family.name,
        readable(library),
        readable(other),
        library / other
    );
}

/// The worst family, small enough for a table of times.
pub fn worst_found() -> Task {
    (FAMILIES[WORST].make)(&Size {
        variables: 8,
        operators: 1,
        ..LIMITS
    })
}
