//! The table, as Markdown.

use std::collections::HashMap;
use std::fs;

use crate::row::Plan;
use crate::rows;

const OF_CRATE: &str = "\
| What | ours ns | crate ns | inlined ns | copy ns | ours / crate | ours / inlined | ours instr. | crate instr. | inlined instr. |
|---|--:|--:|--:|--:|--:|--:|--:|--:|--:|";

const OF_TABLES: &str = "\
| What | table ns | chain ns | copy ns | table / chain | table / copy | table instr. | chain instr. |
|---|--:|--:|--:|--:|--:|--:|--:|";

const OF_STORES: &str = "\
| What | ours ns | plain C ns | copy ns | ours / plain C | ours instr. | plain C instr. |
|---|--:|--:|--:|--:|--:|--:|";

/// The instructions an item takes, by row and side.
type Counts = HashMap<(String, String), f64>;

/// A line of the row, with its counts and the times of its sides.
type Line = fn(&Plan, &Counts, &[f64]) -> String;

/// A table of the rows beside the crate, one of those through a table of fragments, and one of those beside plain stores.
pub fn print(counts: &str, times: impl Fn(&Plan) -> Result<Vec<f64>, String>) -> Result<(), String> {
    let text = fs::read_to_string(counts).map_err(|said| format!("{counts}: {said}"))?;
    let counts = text.lines().map(counted).collect::<Option<Counts>>().ok_or(format!("{counts}: a strange line"))?;
    let parts: [(&str, Vec<Plan>, Line); 3] = [
        (OF_CRATE, rows::of_crate(), line),
        (OF_TABLES, rows::of_tables(), line_of_tables),
        (OF_STORES, rows::of_stores(), line_of_stores),
    ];
    for (heading, plans, line) in parts {
        println!("{heading}");
        for plan in plans {
            println!("{}", line(&plan, &counts, &times(&plan)?));
        }
        println!();
    }
    Ok(())
}

/// A line of the row, the side, the items, and the instructions of so many and of twice as many.
fn counted(line: &str) -> Option<((String, String), f64)> {
    let words: Vec<&str> = line.split('\t').collect();
    let [row, side, items, once, twice] = words[..] else {
        return None;
    };
    let [items, once, twice] = [items, once, twice].map(|word| word.parse::<f64>().ok());
    Some(((row.to_string(), side.to_string()), (twice? - once?) / items?))
}

fn line(plan: &Plan, counts: &Counts, times: &[f64]) -> String {
    let (ours, border, inlined, copy) = match *times {
        [ours, border, inlined, copy] => (Some(ours), Some(border), Some(inlined), Some(copy)),
        [ours, copy] => (Some(ours), None, None, Some(copy)),
        [] => (None, None, None, None),
        _ => panic!("a row with another number of sides"),
    };
    let cells = [
        number(ours),
        number(border),
        number(inlined),
        number(copy),
        ratio(ours, border),
        ratio(ours, inlined),
        instructions(plan, counts, "ours"),
        instructions(plan, counts, "border"),
        instructions(plan, counts, "inlined"),
    ];
    cells_of(plan, &cells)
}

fn line_of_tables(plan: &Plan, counts: &Counts, times: &[f64]) -> String {
    line_beside_plain(plan, counts, times, true)
}

fn line_of_stores(plan: &Plan, counts: &Counts, times: &[f64]) -> String {
    line_beside_plain(plan, counts, times, false)
}

/// Times, the ratio of ours to the plain side, that to the copy if it is wanted, and instructions.
fn line_beside_plain(plan: &Plan, counts: &Counts, times: &[f64], to_copy: bool) -> String {
    let (ours, plain, copy) = match *times {
        [ours, plain, copy] => (Some(ours), Some(plain), Some(copy)),
        [ours, copy] => (Some(ours), None, Some(copy)),
        [] => (None, None, None),
        _ => panic!("a row with another number of sides"),
    };
    let mut cells = vec![number(ours), number(plain), number(copy), ratio(ours, plain)];
    cells.extend(to_copy.then(|| ratio(ours, copy)));
    cells.extend(["ours", "plain"].map(|side| instructions(plan, counts, side)));
    cells_of(plan, &cells)
}

fn cells_of(plan: &Plan, cells: &[String]) -> String {
    format!("| {} | {} |", plan.name, cells.join(" | "))
}

/// Three digits, more or less: a time of a few nanoseconds has two places.
fn number(time: Option<f64>) -> String {
    match time {
        None => "-".to_string(),
        Some(time) if time < 100.0 => format!("{time:.2}"),
        Some(time) => format!("{time:.0}"),
    }
}

fn ratio(ours: Option<f64>, theirs: Option<f64>) -> String {
    ours.zip(theirs).map_or("-".to_string(), |(ours, theirs)| format!("{:.2}", ours / theirs))
}

fn instructions(plan: &Plan, counts: &Counts, side: &str) -> String {
    let count = counts.get(&(plan.name.clone(), side.to_string()));
    count.map_or("-".to_string(), |count| format!("{count:.0}"))
}
