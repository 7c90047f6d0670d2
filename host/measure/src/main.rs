//! Measures the proved endpoint beside the plain program: compares every answer, then times both. `host/bench` builds and runs it.

mod alike;
mod calls;
mod compare;
mod made;
mod ours;
mod rows;
mod rule;
mod theirs;
mod timing;

use rows::{Row, NAMES};
use std::process::ExitCode;
use timing::{Room, Side, SIDES};

const USAGE: &str = "measure [--seed N] [--calls N] [--runs N]: compares and times every row
measure --once ROW SIDE [--seed N] [--calls N]: makes a row's calls once, so that instructions can be counted
    ROW is a row's place from 0, SIDE 0 (ours), 1 (plain) or 2 (plain without the check)
measure --rows: the rows' names, a line each";

/// What was asked for.
struct Asked {
    seed: u64,
    calls: usize,
    runs: usize,
    once: Option<(usize, Side)>,
    names: bool,
}

fn asked() -> Option<Asked> {
    let mut asked = Asked { seed: 20_130, calls: 200_000, runs: 31, once: None, names: false };
    let mut words = std::env::args().skip(1);
    while let Some(word) = words.next() {
        let mut number = || words.next()?.parse::<u64>().ok();
        match word.as_str() {
            "--seed" => asked.seed = number()?,
            "--calls" => asked.calls = number()? as usize,
            "--runs" => asked.runs = number()?.max(1) as usize,
            "--once" => {
                let (row, side) = (number()? as usize, number()? as usize);
                asked.once = Some((row, *SIDES.get(side)?));
                NAMES.get(row)?;
            }
            "--rows" => asked.names = true,
            _ => return None,
        }
    }
    Some(asked)
}

fn main() -> ExitCode {
    let Some(asked) = asked() else {
        eprintln!("{USAGE}");
        return ExitCode::from(2);
    };
    if asked.names {
        println!("{}", NAMES.join("\n"));
        return ExitCode::SUCCESS;
    }
    if let Some((place, side)) = asked.once {
        let row = Row::made(place, asked.seed, asked.calls);
        timing::run(&row, side, &mut Room::new(&row));
        println!("{}", row.calls());
        return ExitCode::SUCCESS;
    }
    println!("seed {}, {} calls a row, {} runs of each side", asked.seed, asked.calls, asked.runs);
    let rows: Vec<Row> =
        (0..NAMES.len()).map(|place| Row::made(place, asked.seed, asked.calls)).collect();
    for row in &rows {
        match compare::row(row, asked.seed) {
            Ok(compared) => {
                let given: Vec<String> =
                    compared.answers.iter().map(|(n, times)| format!("{n}: {times}")).collect();
                println!(
                    "{}: {} calls, all equal ({})",
                    row.name,
                    compared.calls,
                    given.join(", ")
                );
            }
            Err(difference) => {
                println!("{difference}");
                return ExitCode::FAILURE;
            }
        }
    }
    println!();
    println!("| nanoseconds a call | ours | plain | plain without 13 | ratio | without 13 |");
    println!("|---|---|---|---|---|---|");
    for row in &rows {
        if let Err(difference) = timed(row, asked.runs) {
            println!("{difference}");
            return ExitCode::FAILURE;
        }
    }
    ExitCode::SUCCESS
}

/// Times a row, the sides in turn, and prints its line: medians, with the quartiles.
fn timed(row: &Row, runs: usize) -> Result<(), String> {
    let mut room = Room::new(row);
    let mut times = [const { Vec::new() }; SIDES.len()];
    let mut answers = None;
    for run in 0..=runs {
        for (side, times) in SIDES.into_iter().zip(&mut times) {
            let took = timing::run(row, side, &mut room);
            let given = timing::answers(&room);
            if answers.get_or_insert_with(|| given.clone()) != &given {
                return Err(format!("{}: {side:?} answers otherwise in a timed run", row.name));
            }
            // The first run of each side warms the caches.
            if run > 0 {
                times.push(took);
            }
        }
    }
    let [ours, plain, unchecked] = &times;
    println!(
        "| {} | {} | {} | {} | {} | {} |",
        row.name,
        shown(ours.clone(), 1),
        shown(plain.clone(), 1),
        shown(unchecked.clone(), 1),
        shown(ratios(ours, plain), 2),
        shown(ratios(ours, unchecked), 2)
    );
    Ok(())
}

/// The ratios of two sides, round by round: what disturbs the machine for longer than a run disturbs both sides of a round.
fn ratios(ours: &[f64], plain: &[f64]) -> Vec<f64> {
    ours.iter().zip(plain).map(|(a, b)| a / b).collect()
}

/// The median, with the lower and the upper quartile.
fn shown(mut values: Vec<f64>, digits: usize) -> String {
    values.sort_by(f64::total_cmp);
    let at = |quarters: usize| values[(values.len() - 1) * quarters / 4];
    format!("{:.digits$} ({:.digits$} to {:.digits$})", at(2), at(1), at(3))
}
