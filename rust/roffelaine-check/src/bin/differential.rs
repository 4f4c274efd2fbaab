//! Compares the archive with the model on random cases.
//!
//! Arguments: seed, days, texts. Ends with failure at the first difference.

use roffelaine_check::archive::Archive;
use roffelaine_check::compare::Comparison;
use roffelaine_check::differential::Plan;
use roffelaine_check::engine::Model;
use std::process::ExitCode;

fn main() -> ExitCode {
    let Some(plan) = plan_from_arguments() else {
        eprintln!("usage: differential [seed] [days] [texts]");
        return ExitCode::FAILURE;
    };
    println!(
        "seed {}, {} days, {} texts",
        plan.seed, plan.days, plan.texts
    );
    let mut comparison = Comparison::new(&Model, &Archive);
    let outcome = plan.run(&mut comparison);
    println!("{}", comparison.tally.table());
    println!(
        "{} calls and {} texts compared",
        comparison.calls, comparison.texts
    );
    match outcome {
        Ok(()) => {
            println!("no difference");
            ExitCode::SUCCESS
        }
        Err(difference) => {
            println!("first difference, model and archive:\n{}", difference.0);
            ExitCode::FAILURE
        }
    }
}

/// The plan that the arguments say, with defaults for those left out.
fn plan_from_arguments() -> Option<Plan> {
    let mut numbers = [1, 2_000, 100_000];
    let arguments: Vec<String> = std::env::args().skip(1).collect();
    if arguments.len() > numbers.len() {
        return None;
    }
    for (number, argument) in numbers.iter_mut().zip(&arguments) {
        *number = argument.parse().ok()?;
    }
    let [seed, days, texts] = numbers;
    Some(Plan { seed, days, texts })
}
