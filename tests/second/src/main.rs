//! A second listing program, written from document 01 alone, to be compared
//! with another: it lists one input, generates inputs with their listings from
//! a seed, and tallies what generated listings hold. It also generates calls of
//! a whole schedule (document 02, E1) with what each leaves.

mod block;
mod generate;
mod image;
mod job;
mod listing;
mod machine;
mod numbers;
mod schedule;
mod state;
mod tally;
mod text;

use std::error::Error;
use std::io::{Read, Write};
use std::path::Path;
use std::process::ExitCode;
use std::{env, fs, io};

use tally::Tally;

const USAGE: &str = "usage: second list < INPUT
       second generate SEED COUNT DIR
       second tally DIR
       second schedules SEED COUNT FILE";

/// No file of blocks is longer.
const FILE_LIMIT: usize = 60_000;

type Done = Result<(), Box<dyn Error>>;

fn main() -> ExitCode {
    let arguments: Vec<String> = env::args().skip(1).collect();
    let arguments: Vec<&str> = arguments.iter().map(String::as_str).collect();
    let done = match arguments.as_slice() {
        ["list"] => list(),
        ["generate", seed, count, dir] => generate(seed, count, Path::new(dir)),
        ["tally", dir] => tally(Path::new(dir)),
        ["schedules", seed, count, file] => schedules(seed, count, Path::new(file)),
        _ => Err(USAGE.into()),
    };
    match done {
        Ok(()) => ExitCode::SUCCESS,
        Err(error) => {
            eprintln!("{error}");
            ExitCode::FAILURE
        }
    }
}

/// Standard input to standard output; one byte past the limit is enough to
/// know that the input is too long.
fn list() -> Done {
    let mut input = Vec::new();
    let most = listing::INPUT_LIMIT as u64 + 1;
    io::stdin().take(most).read_to_end(&mut input)?;
    io::stdout().write_all(listing::list(&input).as_bytes())?;
    Ok(())
}

fn generate(seed: &str, count: &str, dir: &Path) -> Done {
    let (seed, count): (u64, u64) = (seed.parse()?, count.parse()?);
    fs::create_dir_all(dir)?;
    for index in 0..count {
        let input = generate::input(seed, index);
        fs::write(dir.join(format!("{index:06}.in")), &input)?;
        let listing = listing::list(&input);
        fs::write(dir.join(format!("{index:06}.out")), listing)?;
    }
    Ok(())
}

/// Tallies every .out file of a directory.
fn tally(dir: &Path) -> Done {
    let mut tally = Tally::new();
    for entry in fs::read_dir(dir)? {
        let path = entry?.path();
        if path.extension().is_some_and(|extension| extension == "out") {
            tally.count(&fs::read_to_string(path)?);
        }
    }
    print!("{tally}");
    Ok(())
}

/// Writes blocks of calls, up to a count or until the next would make the file
/// too long.
fn schedules(seed: &str, count: &str, file: &Path) -> Done {
    let (seed, count): (u64, u64) = (seed.parse()?, count.parse()?);
    let mut blocks = String::new();
    for index in 0..count {
        let name = format!("seed-{seed}-{index}");
        let block = block::block(&name, &generate::schedules::call(seed, index));
        if blocks.len() + block.len() >= FILE_LIMIT {
            break;
        }
        blocks += &block;
        blocks.push('\n');
    }
    fs::write(file, blocks)?;
    Ok(())
}
