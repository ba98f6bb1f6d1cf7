//! The commands of the second program.

use second::cases::{self, Case};
use second::gen::{self, Which};
use std::io::{self, Read, Write};
use std::process::ExitCode;

/// What is printed for unknown words.
const USAGE: &str = "usage: second answers < cases
       second gen SEED COUNT [tables|findings|names|programs|all]
       second named
       second only KIND.. < cases
       second line < input
       second complete SELECT < model
       second histogram < cases
       second brute SEED COUNT
";

/// Runs the command that the words name.
fn main() -> ExitCode {
    let words: Vec<String> = std::env::args().skip(1).collect();
    let words: Vec<&str> = words.iter().map(String::as_str).collect();
    match run(&words) {
        Ok(Some(code)) => code,
        Ok(None) => {
            eprint!("{USAGE}");
            ExitCode::from(2)
        }
        Err(error) => {
            eprintln!("second: {error}");
            ExitCode::from(1)
        }
    }
}

/// Runs one command; nothing if the words name none.
fn run(words: &[&str]) -> io::Result<Option<ExitCode>> {
    let code = match *words {
        ["answers"] => answers()?,
        ["gen", seed, count] => return generate(seed, count, "all"),
        ["gen", seed, count, which] => return generate(seed, count, which),
        ["named"] => write_cases(second::named::cases().into_iter())?,
        ["only", ref kinds @ ..] => only(kinds)?,
        ["line"] => {
            io::stdout().write_all(&second::line(&input()?))?;
            ExitCode::SUCCESS
        }
        ["complete", select] => return complete(select),
        ["histogram"] => histogram()?,
        ["brute", seed, count] => return brute(seed, count),
        _ => return Ok(None),
    };
    Ok(Some(code))
}

/// All of standard input.
fn input() -> io::Result<Vec<u8>> {
    let mut bytes = Vec::new();
    io::stdin().lock().read_to_end(&mut bytes)?;
    Ok(bytes)
}

/// Every case of standard input; an error if bytes at the end are no case.
fn input_cases() -> io::Result<Vec<Case>> {
    let (cases, left) = Case::read_all(&input()?);
    if left > 0 {
        let message = format!("{left} bytes after case {} are no case", cases.len());
        return Err(io::Error::new(io::ErrorKind::InvalidData, message));
    }
    Ok(cases)
}

/// Prints the answer line of each case.
fn answers() -> io::Result<ExitCode> {
    let mut out = io::BufWriter::new(io::stdout().lock());
    for case in input_cases()? {
        out.write_all(&case.answer())?;
    }
    out.flush()?;
    Ok(ExitCode::SUCCESS)
}

/// Writes cases to standard output.
fn write_cases(cases: impl Iterator<Item = Case>) -> io::Result<ExitCode> {
    let mut out = io::BufWriter::new(io::stdout().lock());
    let mut bytes = Vec::new();
    for case in cases {
        bytes.clear();
        case.write(&mut bytes);
        out.write_all(&bytes)?;
    }
    out.flush()?;
    Ok(ExitCode::SUCCESS)
}

/// Writes those cases of standard input whose kind is named: 0 table, 1 finding, 2 name, 3 program.
fn only(kinds: &[&str]) -> io::Result<ExitCode> {
    let cases = input_cases()?.into_iter();
    write_cases(cases.filter(|case| kinds.contains(&case.kind.to_string().as_str())))
}

/// Writes generated cases.
fn generate(seed: &str, count: &str, which: &str) -> io::Result<Option<ExitCode>> {
    let which = match which {
        "tables" => Which::Tables,
        "findings" => Which::Findings,
        "names" => Which::Names,
        "programs" => Which::Programs,
        "all" => Which::All,
        _ => return Ok(None),
    };
    match (seed.parse(), count.parse()) {
        (Ok(seed), Ok(count)) => write_cases(gen::cases_of(seed, count, which)).map(Some),
        _ => Ok(None),
    }
}

/// Writes the complete clearance of a select of the model on standard input.
fn complete(select: &str) -> io::Result<Option<ExitCode>> {
    let Ok(select) = select.parse() else {
        return Ok(None);
    };
    match second::complete_clearance(&input()?, select) {
        Some(finding) => io::stdout().write_all(&finding)?,
        None => return Err(io::Error::other("no complete clearance")),
    }
    Ok(Some(ExitCode::SUCCESS))
}

/// Prints, for each kind of case, how many drew each answer.
fn histogram() -> io::Result<ExitCode> {
    let cases = input_cases()?;
    print!("{}", cases::histogram(&cases));
    Ok(ExitCode::SUCCESS)
}

/// Runs the brute force and prints what it counted.
fn brute(seed: &str, count: &str) -> io::Result<Option<ExitCode>> {
    let (Ok(seed), Ok(count)) = (seed.parse(), count.parse()) else {
        return Ok(None);
    };
    let counts = second::brute::run(seed, count);
    print!("{}", counts.lines());
    for violation in &counts.violations {
        eprintln!("{violation}");
    }
    let code = u8::from(!counts.violations.is_empty());
    Ok(Some(ExitCode::from(code)))
}
