//! Times by the clock, and the passes that callgrind or an emulator counts.

use std::hint::black_box;
use std::time::Instant;

use crate::row::{Pass, Plan, Row};

const ROUNDS: usize = 31;

/// A pass is timed in so many parts.
const PARTS: usize = 20;

/// Nanoseconds an item, of the sides of `Row::sides` and then of the copy. They take turns, and of each part the least
/// time counts: whatever else the machine does can only add to it.
pub fn times(plan: &Plan) -> Result<Vec<f64>, String> {
    let row = checked(plan, plan.items)?;
    let mut passes: Vec<&Pass> = row.sides().into_iter().map(|(_, pass)| pass).collect();
    passes.push(&row.copy);
    let mut least = vec![[f64::INFINITY; PARTS]; passes.len()];
    for turn in 0..ROUNDS * passes.len() {
        let side = turn % passes.len();
        time_parts(passes[side], plan.items / PARTS, &mut least[side]);
    }
    Ok(least.iter().map(|parts| parts.iter().sum::<f64>() / plan.items as f64).collect())
}

fn time_parts(pass: &Pass, items: usize, least: &mut [f64; PARTS]) {
    for (part, least) in least.iter_mut().enumerate() {
        let begin = Instant::now();
        black_box(pass(part * items..(part + 1) * items));
        *least = least.min(begin.elapsed().as_nanos() as f64);
    }
}

/// Two passes of each side, the second with twice the items, so that their difference is that of the items alone.
pub fn count(plans: &[Plan]) -> Result<(), String> {
    for plan in plans {
        let row = checked(plan, 2 * plan.counted)?;
        for (side, pass) in row.sides() {
            counted_pass(pass, plan.counted);
            counted_pass(pass, 2 * plan.counted);
            println!("{}\t{side}\t{}", plan.name, plan.counted);
        }
    }
    Ok(())
}

/// A row whose sides have given the same answers once. That has warmed what they read, and memory that they take in each
/// pass is used memory from then on, which costs the same every time.
fn checked(plan: &Plan, items: usize) -> Result<Row, String> {
    let row = (plan.make)(items);
    row.check(items).map_err(|said| format!("{}: {said}", plan.name))?;
    Ok(row)
}

// callgrind knows this function by its name, and so does count.c.
#[no_mangle]
#[inline(never)]
fn counted_pass(pass: &Pass, items: usize) {
    black_box(pass(0..items));
}
