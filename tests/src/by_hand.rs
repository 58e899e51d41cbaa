//! Small tasks compiled by hand, one for each building rule that is easy to
//! get wrong (01, "Building the compiled task").

use crate::task::*;

/// A source task and what the compiling program prints for it.
pub struct ByHand {
    pub rule: &'static str,
    pub task: Task,
    pub printed: &'static str,
}

pub fn all() -> Vec<ByHand> {
    vec![
        folding_builds_both(),
        row_one_still_builds_n(),
        row_zero_builds_no_n(),
        goal_brings_a_twin(),
        equivalence_in_order(),
        implication_in_order(),
        inner_effect_first(),
        clear_then_not_set(),
        unreached_rows(),
        only_equal_rows_are_one(),
        false_precondition(),
        rules_in_order(),
        percents_are_kept(),
    ]
}

fn task(
    head: [u16; 6],
    initial: &[u8],
    formulas: &[[u16; 3]],
    effects: &[[u16; 3]],
    operators: &[[u16; 3]],
) -> Task {
    let operators = operators.iter();
    let operators = operators.flat_map(|&[a, b, cost]| full_price(a, b, cost));
    Task {
        head: Head::from_words(head),
        tables: Tables {
            initial: initial.to_vec(),
            twins: Vec::new(),
            formulas: formulas.concat(),
            effects: effects.concat(),
            operators: operators.collect(),
        },
    }
}

fn folding_builds_both() -> ByHand {
    ByHand {
        rule: "false and not v0 appends the twin and its row",
        task: task(
            [1, 0, 4, 0, 0, 3],
            &[0],
            &[[0, 0, 0], [2, 0, 0], [3, 1, 0], [4, 0, 2]],
            &[],
            &[],
        ),
        printed: "t 2 1 3 1 0 0\ni 01\nw 1 0\n\
            f 0 0 0 0\nf 1 1 0 0\nf 2 2 1 0\ne 0 0 0 0\n",
    }
}

fn row_one_still_builds_n() -> ByHand {
    ByHand {
        rule: "A is row 1: N comes to row 0, its rows and twins stay",
        task: task(
            [2, 0, 2, 5, 1, 0],
            &[0, 0],
            &[[1, 0, 0], [2, 1, 0]],
            &[[1, 0, 0], [4, 1, 0], [3, 0, 1], [2, 0, 0], [3, 2, 3]],
            &[[0, 4, 7]],
        ),
        printed: "t 3 1 4 3 1 1\ni 001\nw 2 1\n\
            f 0 0 0 0\nf 1 1 0 0\nf 2 2 1 0\nf 3 2 2 0\n\
            e 0 0 0 0\ne 1 1 0 0\ne 2 4 1 1\no 0 1 2 7 100\n",
    }
}

fn row_zero_builds_no_n() -> ByHand {
    ByHand {
        rule: "A is row 0 after folding: no N, so no twin",
        task: task(
            [2, 0, 4, 4, 1, 1],
            &[1, 1],
            &[[1, 0, 0], [2, 1, 0], [0, 0, 0], [4, 1, 2]],
            &[[1, 0, 0], [4, 3, 0], [2, 0, 0], [3, 1, 2]],
            &[[0, 3, 0]],
        ),
        printed: "t 2 0 3 3 1 2\ni 11\n\
            f 0 0 0 0\nf 1 1 0 0\nf 2 2 1 0\n\
            e 0 0 0 0\ne 1 2 0 0\ne 2 4 1 1\no 0 1 2 0 100\n",
    }
}

fn goal_brings_a_twin() -> ByHand {
    ByHand {
        rule: "a twin met in the goal gets rules in earlier operators",
        task: task(
            [1, 0, 3, 1, 1, 2],
            &[0],
            &[[1, 0, 0], [2, 0, 0], [3, 1, 0]],
            &[[1, 0, 0]],
            &[[0, 0, 1]],
        ),
        printed: "t 2 1 3 6 1 2\ni 01\nw 1 0\n\
            f 0 0 0 0\nf 1 1 0 0\nf 2 2 1 0\n\
            e 0 0 0 0\ne 1 1 0 0\ne 2 4 1 1\ne 3 2 1 0\ne 4 4 1 3\ne 5 3 2 4\n\
            o 0 1 5 1 100\n",
    }
}

fn equivalence_in_order() -> ByHand {
    ByHand {
        rule: "equivalence, negated first, then plain",
        task: task(
            [2, 0, 4, 1, 1, 2],
            &[1, 0],
            &[[2, 0, 0], [2, 1, 0], [7, 0, 1], [3, 2, 0]],
            &[[0, 0, 0]],
            &[[3, 0, 9]],
        ),
        printed: "t 4 2 12 1 1 11\ni 1010\nw 2 1\nw 3 0\n\
            f 0 0 0 0\nf 1 1 0 0\nf 2 2 0 0\nf 3 2 2 0\nf 4 4 2 3\nf 5 2 3 0\n\
            f 6 2 1 0\nf 7 4 5 6\nf 8 5 4 7\nf 9 4 2 6\nf 10 4 5 3\nf 11 5 9 10\n\
            e 0 0 0 0\no 0 8 0 9 100\n",
    }
}

fn implication_in_order() -> ByHand {
    ByHand {
        rule: "implication, negated first, then plain",
        task: task(
            [2, 0, 5, 0, 0, 4],
            &[0, 1],
            &[[2, 0, 0], [2, 1, 0], [6, 0, 1], [3, 2, 0], [4, 3, 2]],
            &[],
            &[],
        ),
        printed: "t 4 2 9 1 0 8\ni 0101\nw 2 1\nw 3 0\n\
            f 0 0 0 0\nf 1 1 0 0\nf 2 2 0 0\nf 3 2 2 0\nf 4 4 2 3\nf 5 2 3 0\n\
            f 6 2 1 0\nf 7 5 5 6\nf 8 4 4 7\ne 0 0 0 0\n",
    }
}

fn inner_effect_first() -> ByHand {
    ByHand {
        rule: "the inner effect is built first, the formula stands left",
        task: task(
            [3, 0, 3, 3, 1, 2],
            &[0, 0, 0],
            &[[2, 0, 0], [2, 1, 0], [1, 0, 0]],
            &[[1, 2, 0], [4, 1, 0], [4, 0, 1]],
            &[[2, 2, 5]],
        ),
        printed: "t 3 0 5 3 1 1\ni 000\n\
            f 0 0 0 0\nf 1 1 0 0\nf 2 2 1 0\nf 3 2 0 0\nf 4 4 3 2\n\
            e 0 0 0 0\ne 1 1 2 0\ne 2 4 4 1\no 0 1 2 5 100\n",
    }
}

fn clear_then_not_set() -> ByHand {
    ByHand {
        rule: "D is built before N and stands left of it",
        task: task(
            [3, 0, 3, 5, 1, 0],
            &[0, 1, 1],
            &[[1, 0, 0], [2, 1, 0], [2, 2, 0]],
            &[[1, 0, 0], [2, 0, 0], [4, 1, 0], [4, 2, 1], [3, 2, 3]],
            &[[0, 4, 2]],
        ),
        printed: "t 4 1 6 6 1 1\ni 0110\nw 3 1\n\
            f 0 0 0 0\nf 1 1 0 0\nf 2 2 1 0\nf 3 2 2 0\nf 4 2 3 0\nf 5 4 3 4\n\
            e 0 0 0 0\ne 1 1 0 0\ne 2 4 2 1\ne 3 2 0 0\ne 4 4 5 3\ne 5 3 2 4\n\
            o 0 1 5 2 100\n",
    }
}

fn unreached_rows() -> ByHand {
    ByHand {
        rule: "rows that nothing reaches are not built",
        task: task(
            [1, 0, 3, 2, 0, 0],
            &[0],
            &[[1, 0, 0], [2, 0, 0], [3, 1, 0]],
            &[[1, 0, 0], [4, 2, 0]],
            &[],
        ),
        printed: "t 1 0 2 1 0 1\ni 0\nf 0 0 0 0\nf 1 1 0 0\ne 0 0 0 0\n",
    }
}

fn only_equal_rows_are_one() -> ByHand {
    ByHand {
        rule: "a and b, b and a, a and a are three rows; a again is none",
        task: task(
            [2, 0, 8, 0, 0, 7],
            &[0, 0],
            &[
                [2, 0, 0],
                [2, 1, 0],
                [4, 0, 1],
                [4, 1, 0],
                [5, 2, 3],
                [2, 0, 0],
                [4, 5, 0],
                [5, 4, 6],
            ],
            &[],
            &[],
        ),
        printed: "t 2 0 9 1 0 8\ni 00\n\
            f 0 0 0 0\nf 1 1 0 0\nf 2 2 0 0\nf 3 2 1 0\nf 4 4 2 3\nf 5 4 3 2\n\
            f 6 5 4 5\nf 7 4 2 2\nf 8 5 6 7\ne 0 0 0 0\n",
    }
}

/// The first operator can never be applied, and is built whole.
fn false_precondition() -> ByHand {
    ByHand {
        rule: "a false precondition changes nothing else",
        task: task(
            [1, 0, 3, 3, 2, 0],
            &[1],
            &[[0, 0, 0], [2, 0, 0], [3, 1, 0]],
            &[[2, 0, 0], [4, 2, 0], [0, 0, 0]],
            &[[0, 1, 4], [2, 2, 6]],
        ),
        printed: "t 2 1 3 6 2 0\ni 10\nw 1 0\n\
            f 0 0 0 0\nf 1 1 0 0\nf 2 2 1 0\n\
            e 0 0 0 0\ne 1 2 0 0\ne 2 4 2 1\ne 3 1 1 0\ne 4 4 2 3\ne 5 3 2 4\n\
            o 0 0 5 4 100\no 1 2 0 6 100\n",
    }
}

/// Operators of the same cost, an empty effect and three percents.
fn percents_are_kept() -> ByHand {
    let mut kept = task(
        [0, 0, 1, 1, 3, 0],
        &[],
        &[[1, 0, 0]],
        &[[0, 0, 0]],
        &[[0, 0, 9]; 3],
    );
    kept.set_percent(0, 0);
    kept.set_percent(2, 200);
    ByHand {
        rule: "the compiled operator keeps cost and percent",
        task: kept,
        printed: "t 0 0 2 1 3 1\ni\nf 0 0 0 0\nf 1 1 0 0\ne 0 0 0 0\n\
            o 0 1 0 9 0\no 1 1 0 9 100\no 2 1 0 9 200\n",
    }
}

/// 01's "set v under not v, clear v under v".
fn rules_in_order() -> ByHand {
    ByHand {
        rule: "set v, clear its twin, clear v, set its twin",
        task: task(
            [1, 0, 3, 5, 1, 0],
            &[0],
            &[[1, 0, 0], [2, 0, 0], [3, 1, 0]],
            &[[1, 0, 0], [2, 0, 0], [4, 2, 0], [4, 1, 1], [3, 2, 3]],
            &[[0, 4, 1]],
        ),
        printed: "t 2 1 5 12 1 1\ni 01\nw 1 0\n\
            f 0 0 0 0\nf 1 1 0 0\nf 2 2 1 0\nf 3 2 0 0\nf 4 4 3 3\n\
            e 0 0 0 0\ne 1 1 0 0\ne 2 4 2 1\ne 3 2 1 0\ne 4 4 2 3\ne 5 3 2 4\n\
            e 6 2 0 0\ne 7 4 4 6\ne 8 3 5 7\ne 9 1 1 0\ne 10 4 4 9\ne 11 3 8 10\n\
            o 0 1 11 1 100\n",
    }
}
