//! The command line. Results go to standard output, messages to standard error; exit status 1 where a
//! comparison or a count fails, 2 where a file or the command cannot be read.

use std::error::Error;
use std::fs::File;
use std::io::{self, BufReader, BufWriter, Write};
use std::process::ExitCode;

use host::{amounts, compare, conversions, coverage, days, program, recipe, report};

const USAGE: &str = "usage:
  host cases SEED N FILE        make N calls with the results expected of them
  host answer FILE RESULTS      write the reference's own results, as the proved side would
  host compare FILE RESULTS     hold the results of the proved side against them
  host coverage FILE [TIMES]    count what the cases reach; each code alone at least TIMES (5)
  host days SEED N FILE         make N days of lines, judged and noted, with the results expected of them
  host answer-days FILE RESULTS, host compare-days FILE RESULTS, host coverage-days FILE
                                the same for days
  host amounts SEED N           N texts for cells 30, 33 and 38, with what is to be read in them
  host conversions SEED N       N registers to be converted, with what comes of it
  host program [--summary]      the paper's program: standard input to standard output
  host report SEED N [FIRMS]    an input for it of N lines, of every kind; of so many executing entities
  host drip SEED                standard input to standard output, in short pieces with pauses between
The files are described in docs/CASES.md.";

fn open(path: &str) -> Result<BufReader<File>, String> {
    File::open(path).map(BufReader::new).map_err(|error| format!("{path}: {error}"))
}

fn create(path: &str) -> Result<BufWriter<File>, String> {
    File::create(path).map(BufWriter::new).map_err(|error| format!("{path}: {error}"))
}

fn seed_in(word: &str) -> Result<u64, String> {
    word.parse().map_err(|_| format!("{word}: not a seed"))
}

fn lines_in(word: &str) -> Result<usize, String> {
    word.parse().map_err(|_| format!("{word}: not a number of lines"))
}

fn run(arguments: &[&str]) -> Result<bool, Box<dyn Error>> {
    let mut output = BufWriter::new(io::stdout().lock());
    match arguments {
        ["cases", seed, count, path] => {
            let count = count.parse().map_err(|_| format!("{count}: not a number of cases"))?;
            recipe::run(seed_in(seed)?, count, create(path)?, output)?;
            Ok(true)
        }
        ["answer", cases, results] => {
            compare::answer(open(cases)?, create(results)?)?;
            Ok(true)
        }
        ["compare", cases, results] => Ok(compare::run(open(cases)?, open(results)?, output)?),
        ["coverage", cases] => Ok(coverage::run(open(cases)?, 5, output)?),
        ["coverage", cases, times] => {
            let times = times.parse().map_err(|_| format!("{times}: not a number"))?;
            Ok(coverage::run(open(cases)?, times, output)?)
        }
        ["days", seed, count, path] => {
            let count = count.parse().map_err(|_| format!("{count}: not a number of days"))?;
            days::run(seed_in(seed)?, count, create(path)?, output)?;
            Ok(true)
        }
        ["answer-days", days, results] => {
            days::answer(open(days)?, create(results)?)?;
            Ok(true)
        }
        ["compare-days", days, results] => Ok(days::compare(open(days)?, open(results)?, output)?),
        ["coverage-days", days] => {
            days::coverage(open(days)?, output)?;
            Ok(true)
        }
        ["amounts", seed, count] => {
            let count = count.parse().map_err(|_| format!("{count}: not a number of texts"))?;
            output.write_all(&amounts::cases(seed_in(seed)?, count))?;
            output.flush()?;
            Ok(true)
        }
        ["conversions", seed, count] => {
            let count = count.parse().map_err(|_| format!("{count}: not a number of conversions"))?;
            output.write_all(conversions::cases(seed_in(seed)?, count).as_bytes())?;
            output.flush()?;
            Ok(true)
        }
        ["program"] => {
            program::run(io::stdin().lock(), output, false)?;
            Ok(true)
        }
        ["program", "--summary"] => {
            program::run(io::stdin().lock(), output, true)?;
            Ok(true)
        }
        ["report", seed, count] => {
            output.write_all(&report::report(seed_in(seed)?, lines_in(count)?, None))?;
            output.flush()?;
            Ok(true)
        }
        ["report", seed, count, firms] => {
            let firms = firms.parse().map_err(|_| format!("{firms}: not a number of firms"))?;
            output.write_all(&report::report(seed_in(seed)?, lines_in(count)?, Some(firms)))?;
            output.flush()?;
            Ok(true)
        }
        ["drip", seed] => {
            report::drip(seed_in(seed)?, io::stdin().lock(), output)?;
            Ok(true)
        }
        ["--help" | "-h" | "help"] => {
            println!("{USAGE}");
            Ok(true)
        }
        _ => Err(USAGE.into()),
    }
}

fn main() -> ExitCode {
    let arguments: Vec<String> = std::env::args().skip(1).collect();
    let arguments: Vec<&str> = arguments.iter().map(String::as_str).collect();
    match run(&arguments) {
        Ok(true) => ExitCode::SUCCESS,
        Ok(false) => ExitCode::from(1),
        Err(message) => {
            eprintln!("{message}");
            ExitCode::from(2)
        }
    }
}
