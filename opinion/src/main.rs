//! A second opinion on the desk: the paper read once more, independently.

mod cases;
mod check;
mod compare;
mod desk;
mod draft;
mod paper;
mod random;
mod special;

use std::error::Error;
use std::fs;
use std::path::Path;
use std::process::ExitCode;

const USAGE: &str = "usage:
  opinion desk FOLDER
  opinion cases SEED COUNT OUT_CASES OUT_EXPECTED [EXAMPLES_FOLDER]
  opinion answer CASES OUT_EXPECTED
  opinion compare EXPECTED ACTUAL
  opinion check SEED COUNT";

fn main() -> ExitCode {
    let arguments: Vec<String> = std::env::args().skip(1).collect();
    let arguments: Vec<&str> = arguments.iter().map(String::as_str).collect();
    match run(&arguments) {
        Ok(true) => ExitCode::SUCCESS,
        Ok(false) => ExitCode::from(1),
        Err(error) => {
            eprintln!("opinion: {error}");
            ExitCode::from(2)
        }
    }
}

fn run(arguments: &[&str]) -> Result<bool, Box<dyn Error>> {
    match *arguments {
        ["desk", folder] => {
            let read = |name| fs::read(Path::new(folder).join(name)).unwrap_or_default();
            print!("{}", desk::desk(&read("table.bin"), &read("sched.bin")));
            Ok(true)
        }
        ["cases", seed, count, out_cases, out_expected] => {
            write_cases(seed.parse()?, count.parse()?, out_cases, out_expected, None)
        }
        ["cases", seed, count, out_cases, out_expected, examples] => {
            let examples = Some(Path::new(examples));
            write_cases(
                seed.parse()?,
                count.parse()?,
                out_cases,
                out_expected,
                examples,
            )
        }
        ["answer", cases, out_expected] => {
            let cases = cases::read_cases(&fs::read(cases)?).ok_or("not a file of cases")?;
            fs::write(out_expected, cases::expected(&cases).0)?;
            Ok(true)
        }
        ["compare", expected, actual] => Ok(compare::compare(
            &fs::read_to_string(expected)?,
            &fs::read_to_string(actual)?,
        )),
        ["check", seed, count] => {
            let summary = check::self_check(seed.parse()?, count.parse()?)?;
            println!(
                "{} cases, {} of them refused files",
                summary.cases, summary.refused_files
            );
            println!(
                "{} states audited, {} quiet ends",
                summary.states, summary.quiet_ends
            );
            println!("longest channel {}", summary.longest_channel);
            println!("longest waiting list {}", summary.longest_waiting_list);
            println!("all promises kept");
            Ok(true)
        }
        _ => Err(USAGE.into()),
    }
}

fn write_cases(
    seed: u64,
    count: usize,
    out_cases: &str,
    out_expected: &str,
    examples: Option<&Path>,
) -> Result<bool, Box<dyn Error>> {
    let cases = cases::all_cases(seed, count, examples)?;
    let bytes = cases::cases_file(&cases);
    let (text, desk, whole) = cases::expected(&cases);
    fs::write(out_cases, &bytes)?;
    fs::write(out_expected, &text)?;
    println!(
        "{} cases, {} bytes, {} bytes expected",
        cases.len(),
        bytes.len(),
        text.len()
    );
    cases::print_tallies(&desk, &whole);
    Ok(true)
}
