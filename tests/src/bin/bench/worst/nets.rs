//! Nets of effect rows that operators enter at many rows: there are fewer
//! columns than rows worth one, so what is kept depends on the counts.

use saqwillo_tests::best::compile::Form;
use saqwillo_tests::draft::Draft;
use saqwillo_tests::random::Random;
use saqwillo_tests::task::*;

use super::families::{atoms, Size, LIMITS};
use super::seconds;
use crate::compiling::Pair;
use crate::times::readable;

/// On both sides of the counts at which compiling takes other tables of its
/// own: 96 and 256 variables, 1,024 effects.
const COUNTS: [(usize, usize); 7] = [
    (16, 4096),
    (96, 4096),
    (97, 4096),
    (256, 4096),
    (257, 4096),
    (512, 4096),
    (512, 1024),
];
const ABREAST: [usize; 6] = [2, 3, 12, 48, 160, 1024];
const ENTERED: [usize; 5] = [1, 2, 3, 5, 7];

/// Above all atoms a net of rows, so many abreast, each "both" of two of the
/// line below it; the operators enter it at so many rows far apart, each under
/// a false top.
pub fn net(abreast: usize, entered: usize, size: &Size) -> Task {
    wired(entered, size, abreast, |line, _| (line[0], line[1]))
}

/// The same, each row "both" of the one before it and one of the line chosen
/// at random: a cut through it is as wide as the line.
fn chain(abreast: usize, entered: usize, size: &Size) -> Task {
    wired(entered, size, abreast, |line, random| {
        (line[abreast - 1], random.pick(line))
    })
}

fn wired(
    entered: usize,
    size: &Size,
    abreast: usize,
    wire: impl Fn(&[u16], &mut Random) -> (u16, u16),
) -> Task {
    let mut random = Random::new(1);
    let mut draft = Draft::new(&vec![0; size.variables]);
    let yes = draft.yes();
    let no = draft.formula(formula::FALSE, 0, 0);
    let all = atoms(&mut draft, size, size.effects / 8);
    let bottom = draft.all(&all);
    let mut rows = vec![bottom; abreast];
    let spare = (entered + 1) * size.operators;
    while usize::from(*rows.last().expect("a row")) + 1 + spare < size.effects {
        let (left, right) = wire(&rows[rows.len() - abreast..], &mut random);
        let row = draft.effect(effect::BOTH, left, right);
        rows.push(row);
    }
    for i in 0..size.operators {
        let place = |k: usize| rows[rows.len() - 1 - (i * entered + k) * 37 % rows.len()];
        let named: Vec<u16> = (0..entered).map(place).collect();
        let inner = draft.all(&named);
        let root = draft.under(no, inner);
        draft.operator(yes, root, i as u16);
    }
    draft.finish(yes)
}

type Make = fn(usize, usize, &Size) -> Task;

/// For each kind, count and width the slowest, and the slowest of all.
pub fn print() {
    println!(
        "{:>5} {:>5} {:>5} {:>8} {:>8} {:>5} {:>10} {:>10} {:>8}",
        "", "V", "E", "abreast", "entered", "O", "library", "other", "ratio"
    );
    let mut slowest = 0.0;
    for (kind, make) in [("net", net as Make), ("chain", chain as Make)] {
        for (variables, effects) in COUNTS {
            for abreast in ABREAST {
                print!("{kind:>5} ");
                let spent = print_slowest(make, variables, effects, abreast);
                slowest = f64::max(slowest, spent);
            }
        }
    }
    println!("the slowest: {}", readable(slowest));
}

/// The slowest of these counts and width, over how many rows an operator
/// enters. Both sides must compile each to the same tables.
fn print_slowest(make: Make, variables: usize, effects: usize, abreast: usize) -> f64 {
    let mut slowest = (0.0, 0, LIMITS);
    for entered in ENTERED {
        // half of the effects are left for the net
        let operators = LIMITS.operators.min(effects / 2 / (entered + 1));
        let size = Size {
            variables,
            effects,
            operators,
            ..LIMITS
        };
        let task = make(abreast, entered, &size);
        Pair::new(&task).check();
        let spent = seconds(&task);
        if spent > slowest.0 {
            slowest = (spent, entered, size);
        }
    }
    let (library, entered, size) = slowest;
    let other = Pair::new(&make(abreast, entered, &size)).seconds(Form::Kept);
    println!(
        "{variables:>5} {effects:>5} {abreast:>8} {entered:>8} {:>5} {:>10} {:>10} {:>8.1}",
        size.operators,
        readable(library),
        readable(other),
        library / other
    );
    library
}
