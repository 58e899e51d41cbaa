//! The tables of a task (01, "The tables").

/// A number of 01's table of refusals.
pub type Refusal = u16;

pub const MOST_VARIABLES: usize = 512;
pub const MOST_FORMULAS: usize = 4096;
pub const MOST_EFFECTS: usize = 4096;
pub const MOST_OPERATORS: usize = 256;

/// Words in a formula or effect row: kind, a, b.
pub const ROW: usize = 3;
/// Words in an operator row: precondition, effect, cost, percent.
pub const OPERATOR_ROW: usize = 4;

/// The greatest percent of an operator.
pub const MOST_PERCENT: u16 = 200;
/// The percent that charges the cost itself.
pub const FULL_PERCENT: u16 = 100;

/// What the fields of an operator are if the file does not have them.
pub const ABSENT_OPERATOR: [u16; OPERATOR_ROW] = [0, 0, 0, FULL_PERCENT];

/// Formula kinds.
pub mod formula {
    pub const FALSE: u16 = 0;
    pub const TRUE: u16 = 1;
    pub const VARIABLE: u16 = 2;
    pub const NOT: u16 = 3;
    pub const AND: u16 = 4;
    pub const OR: u16 = 5;
    pub const IMPLIES: u16 = 6;
    pub const EQUIVALENT: u16 = 7;
}

/// Effect kinds.
pub mod effect {
    pub const EMPTY: u16 = 0;
    pub const SET: u16 = 1;
    pub const CLEAR: u16 = 2;
    pub const BOTH: u16 = 3;
    pub const UNDER: u16 = 4;
}

#[derive(Clone, Copy, Debug, Default, PartialEq, Eq)]
pub struct Head {
    pub variables: u16,
    pub twin_count: u16,
    pub formula_count: u16,
    pub effect_count: u16,
    pub operator_count: u16,
    pub goal: u16,
}

impl Head {
    /// The fields in 01's order: V W F E O goal.
    pub fn words(&self) -> [u16; 6] {
        [
            self.variables,
            self.twin_count,
            self.formula_count,
            self.effect_count,
            self.operator_count,
            self.goal,
        ]
    }

    pub fn from_words(words: [u16; 6]) -> Head {
        Head {
            variables: words[0],
            twin_count: words[1],
            formula_count: words[2],
            effect_count: words[3],
            operator_count: words[4],
            goal: words[5],
        }
    }

    /// The lengths that the five tables need for these counts.
    pub fn needs(&self) -> Lengths {
        Lengths {
            initial: usize::from(self.variables),
            twins: usize::from(self.twin_count),
            formulas: usize::from(self.formula_count) * ROW,
            effects: usize::from(self.effect_count) * ROW,
            operators: usize::from(self.operator_count) * OPERATOR_ROW,
        }
    }
}

/// Lengths of lent tables, in bytes (initial) and words (the others).
#[derive(Clone, Copy, Debug, Default, PartialEq, Eq)]
pub struct Lengths {
    pub initial: usize,
    pub twins: usize,
    pub formulas: usize,
    pub effects: usize,
    pub operators: usize,
}

impl Lengths {
    pub fn list(&self) -> [usize; 5] {
        [
            self.initial,
            self.twins,
            self.formulas,
            self.effects,
            self.operators,
        ]
    }

    /// Whether each length is at least the other's.
    pub fn cover(&self, needs: &Lengths) -> bool {
        let pairs = self.list().into_iter().zip(needs.list());
        pairs.into_iter().all(|(lent, need)| lent >= need)
    }
}

/// Lent tables; they may be longer than the head's counts ask.
#[derive(Clone, Debug, Default, PartialEq, Eq)]
pub struct Tables {
    pub initial: Vec<u8>,
    pub twins: Vec<u16>,
    pub formulas: Vec<u16>,
    pub effects: Vec<u16>,
    pub operators: Vec<u16>,
}

impl Tables {
    /// Tables of these lengths, all 0.
    pub fn zeros(lengths: &Lengths) -> Tables {
        Tables {
            initial: vec![0; lengths.initial],
            twins: vec![0; lengths.twins],
            formulas: vec![0; lengths.formulas],
            effects: vec![0; lengths.effects],
            operators: vec![0; lengths.operators],
        }
    }

    pub fn lengths(&self) -> Lengths {
        Lengths {
            initial: self.initial.len(),
            twins: self.twins.len(),
            formulas: self.formulas.len(),
            effects: self.effects.len(),
            operators: self.operators.len(),
        }
    }

    /// Cuts or fills up each table to the given length.
    pub fn resized(mut self, lengths: &Lengths) -> Tables {
        self.initial.resize(lengths.initial, 0);
        self.twins.resize(lengths.twins, 0);
        self.formulas.resize(lengths.formulas, 0);
        self.effects.resize(lengths.effects, 0);
        self.operators.resize(lengths.operators, 0);
        self
    }

    /// The twin, formula, effect and operator table.
    pub fn word_tables(&mut self) -> [&mut Vec<u16>; 4] {
        [
            &mut self.twins,
            &mut self.formulas,
            &mut self.effects,
            &mut self.operators,
        ]
    }
}

#[derive(Clone, Debug, Default, PartialEq, Eq)]
pub struct Task {
    pub head: Head,
    pub tables: Tables,
}

impl Task {
    pub fn formula(&self, number: usize) -> [u16; 3] {
        words(&self.tables.formulas, number)
    }

    pub fn effect(&self, number: usize) -> [u16; 3] {
        words(&self.tables.effects, number)
    }

    pub fn operator(&self, number: usize) -> [u16; OPERATOR_ROW] {
        words(&self.tables.operators, number)
    }

    pub fn set_formula(&mut self, number: usize, row: [u16; 3]) {
        self.tables.formulas[number * ROW..][..ROW].copy_from_slice(&row);
    }

    pub fn set_effect(&mut self, number: usize, row: [u16; 3]) {
        self.tables.effects[number * ROW..][..ROW].copy_from_slice(&row);
    }

    pub fn set_operator(&mut self, number: usize, row: [u16; OPERATOR_ROW]) {
        self.tables.operators[number * OPERATOR_ROW..][..OPERATOR_ROW].copy_from_slice(&row);
    }

    pub fn set_percent(&mut self, number: usize, percent: u16) {
        self.tables.operators[number * OPERATOR_ROW + 3] = percent;
    }

    /// The same task, every operator at this percent.
    pub fn at_percent(mut self, percent: u16) -> Task {
        for i in 0..usize::from(self.head.operator_count) {
            self.set_percent(i, percent);
        }
        self
    }

    /// The variables that are no twins: V - W of them.
    pub fn originals(&self) -> usize {
        usize::from(self.head.variables) - usize::from(self.head.twin_count)
    }
}

fn words<const WIDTH: usize>(table: &[u16], number: usize) -> [u16; WIDTH] {
    let row = &table[number * WIDTH..][..WIDTH];
    row.try_into().expect("as long as the row")
}

/// An operator row that charges its cost.
pub fn full_price(precondition: u16, effect: u16, cost: u16) -> [u16; OPERATOR_ROW] {
    [precondition, effect, cost, FULL_PERCENT]
}

/// The formula or effect row handed back on request: empty unless it lies
/// wholly inside.
pub fn row(table: &[u16], number: usize) -> &[u16] {
    part(table, number, ROW)
}

/// The same of an operator row.
pub fn operator_row(table: &[u16], number: usize) -> &[u16] {
    part(table, number, OPERATOR_ROW)
}

fn part(table: &[u16], number: usize, width: usize) -> &[u16] {
    let start = number as u128 * width as u128;
    if start + width as u128 > table.len() as u128 {
        return &[];
    }
    &table[start as usize..][..width]
}
