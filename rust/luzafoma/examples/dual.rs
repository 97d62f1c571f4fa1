//! Prints a shortest plan and the dual of the sheet in a file.
//!
//! `cargo run -p luzafoma --example dual -- FILE`

use std::env;
use std::error::Error;
use std::fs;
use std::process::ExitCode;

fn main() -> ExitCode {
    match run() {
        Ok(()) => ExitCode::SUCCESS,
        Err(error) => {
            eprintln!("{error}");
            ExitCode::FAILURE
        }
    }
}

fn run() -> Result<(), Box<dyn Error>> {
    let path = env::args_os().nth(1).ok_or("give the path of a sheet")?;
    let text = fs::read(path)?;

    match luzafoma::plan_to_vec(&text)? {
        Some(plan) => {
            let names = action_names(std::str::from_utf8(&text)?);
            println!("plan of {} actions:", plan.len());
            for action in plan {
                println!("  {}", names[usize::from(action)]);
            }
        }
        None => println!("there is no plan"),
    }

    println!("dual:");
    print!("{}", String::from_utf8(luzafoma::dual(&text)?)?);
    Ok(())
}

/// The first words of the lines after the third, in an accepted text.
fn action_names(text: &str) -> Vec<&str> {
    text.lines()
        .skip(3)
        .filter_map(|line| line.split(' ').next())
        .collect()
}
