//! The fuzzer's cases without a fuzzer.
//!
//! usage: plain seeds FOLDER COUNT    writes the named cases and COUNT generated ones as inputs
//!        plain replay FOLDER..       runs every input of the folders

use second::gen::{self, Which};
use second::named;
use std::path::Path;
use std::process::ExitCode;
use std::{fs, io};

/// The longest input that is written: fuzzers do best on short ones.
const LONGEST: usize = 1000;

fn main() -> ExitCode {
    let words: Vec<String> = std::env::args().skip(1).collect();
    let done = match &words[..] {
        [word, folder, count] if word == "seeds" => seeds(Path::new(folder), count),
        [word, folders @ ..] if word == "replay" => replay(folders),
        _ => {
            eprintln!("usage: plain seeds FOLDER COUNT | plain replay FOLDER..");
            return ExitCode::from(2);
        }
    };
    match done {
        Ok(good) => ExitCode::from(u8::from(!good)),
        Err(error) => {
            eprintln!("plain: {error}");
            ExitCode::from(2)
        }
    }
}

/// Writes a file for each case; every second generated one asks for mending.
fn seeds(folder: &Path, count: &str) -> io::Result<bool> {
    let count: u64 = count.parse().map_err(io::Error::other)?;
    fs::create_dir_all(folder)?;
    let generated = gen::cases_of(1, count as usize, Which::All).enumerate();
    let generated = generated.map(|(index, case)| (case, if index % 2 == 0 { 4 } else { 0 }));
    for (case, first) in named::cases().into_iter().map(|case| (case, 0)).chain(generated) {
        let input = fuzz::input(&case, first);
        if input.len() <= LONGEST {
            fs::write(folder.join(&case.name), input)?;
        }
    }
    Ok(true)
}

/// Runs every file of the folders.
fn replay(folders: &[String]) -> io::Result<bool> {
    let (mut run, mut differ) = (0, 0);
    for folder in folders {
        for file in fs::read_dir(folder)? {
            run += 1;
            differ += usize::from(!fuzz::alike(&fs::read(file?.path())?));
        }
    }
    println!("fuzz: {run} inputs replayed, {differ} differ");
    Ok(differ == 0 && run > 0)
}
