//! Inputs: shapes that are counted through, so that every combination has its turn, with contents from the dice.

mod blocks;
mod channels;
mod fields;
mod texts;

use crate::cases::Case;
use crate::dice::Dice;

pub struct Generator {
    dice: Dice,
    channel_dice: Dice,
    carried_dice: Dice,
    values: u64,
    validities: u64,
    boths: u64,
    doubles: u64,
    texts: u64,
    carried: u64,
}

impl Generator {
    pub fn new(seed: u64) -> Generator {
        let mut dice = Dice::new(seed);
        // Where the counting starts hangs on the seed, so that short runs with different seeds see different shapes.
        let mut start = || dice.below(1 << 32);
        let (values, validities, boths, doubles, texts) = (start(), start(), start(), start(), start());
        let (channel_dice, mut carried_dice) = (Dice::new(!seed), Dice::new(seed.rotate_left(32)));
        let carried = carried_dice.below(1 << 32);
        Generator { dice, channel_dice, carried_dice, values, validities, boths, doubles, texts, carried }
    }

    /// All inputs of a run: each type code once, then the other kinds by the dice.
    pub fn cases(mut self) -> impl Iterator<Item = Case> {
        let types = (0..=255).map(|code| Case::Type { code });
        types.chain(std::iter::repeat_with(move || self.next_case()))
    }

    /// Values that are carried have dice of their own, and so have channel blocks, so that the others are the same with them
    /// and without.
    fn next_case(&mut self) -> Case {
        if self.carried_dice.one_in(20) {
            return fields::carried(&mut self.carried_dice, turn(&mut self.carried));
        }
        match self.channel_dice.below(40) {
            0..=2 => channels::channel_read(&mut self.channel_dice),
            3 => channels::channel_write(&mut self.channel_dice),
            _ => self.next_other(),
        }
    }

    fn next_other(&mut self) -> Case {
        let dice = &mut self.dice;
        match dice.below(100) {
            0..=3 => blocks::header_read(dice),
            4..=6 => blocks::header_write(dice),
            7..=14 => blocks::list_read(dice),
            15..=17 => blocks::list_write_equal(dice),
            18..=20 => blocks::list_write_variable(dice),
            21..=49 => Case::Value(fields::field(dice, turn(&mut self.values))),
            50..=55 => Case::Validity(fields::field(dice, turn(&mut self.validities))),
            56..=63 => Case::Both(fields::field(dice, turn(&mut self.boths))),
            64..=81 => Case::Double(fields::mostly_number(dice, turn(&mut self.doubles))),
            _ => texts::text(dice, turn(&mut self.texts)),
        }
    }
}

fn turn(counter: &mut u64) -> u64 {
    *counter += 1;
    *counter
}

/// Takes numbers apart into choices. A step that shares no factor with the number of combinations visits them all, far
/// from the last one each time.
struct Shape(u64);

impl Shape {
    fn new(turn: u64, combinations: u64) -> Shape {
        const STEP: u64 = 0x9E37_79B1;
        Shape((u128::from(turn) * u128::from(STEP) % u128::from(combinations)) as u64)
    }

    fn choose(&mut self, choices: u64) -> u64 {
        let choice = self.0 % choices;
        self.0 /= choices;
        choice
    }
}

/// Room for `needed` bytes: just enough, one too few, none, or some to spare.
fn room(dice: &mut Dice, needed: usize) -> usize {
    match dice.below(8) {
        0 => needed.saturating_sub(1),
        1 => 0,
        2 => dice.below(needed as u64 + 1) as usize,
        3 => needed + dice.between(1, 20) as usize,
        4 => needed + 1,
        _ => needed,
    }
}

/// A 64-bit number, often one near an end.
fn number(dice: &mut Dice) -> u64 {
    match dice.below(6) {
        0 => dice.below(256),
        1 => u64::MAX - dice.below(3),
        2 => (1 << dice.below(64)) - dice.below(2),
        _ => dice.word(),
    }
}
