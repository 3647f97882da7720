//! Compares another implementation with this one, to the byte.

use second::census::{count_journal, count_script, table, Counts};
use second::comparison::{compare_journal, compare_script, Tally};
use second::scripts::script;
use std::io::{self, Write};
use std::process::ExitCode;

const USAGE: &str = "\
usage: compare --console CMD --replay CMD [--seed S] [--scripts N] [--lines N] [--journals N]
       compare --census [--seed S] [--scripts N] [--lines N] [--journals N]
       compare --show SEED [--lines N]
";

struct Options {
    console: Option<String>,
    replay: Option<String>,
    seed: u64,
    scripts: u64,
    lines: usize,
    journals: u64,
    census: bool,
    show: Option<u64>,
}

impl Options {
    fn usual() -> Options {
        Options {
            console: None,
            replay: None,
            seed: 1,
            scripts: 64,
            lines: 2000,
            journals: 400,
            census: false,
            show: None,
        }
    }

    /// The options of a command line; none if there is something wrong with it.
    fn parse(mut words: impl Iterator<Item = String>) -> Option<Options> {
        let mut options = Options::usual();
        while let Some(word) = words.next() {
            if word == "--census" {
                options.census = true;
            } else {
                options.set(&word, words.next()?)?;
            }
        }
        let something_to_do = options.console.is_some()
            || options.replay.is_some()
            || options.census
            || options.show.is_some();
        Some(options).filter(|_| something_to_do)
    }

    fn set(&mut self, word: &str, value: String) -> Option<()> {
        match word {
            "--console" => self.console = Some(value),
            "--replay" => self.replay = Some(value),
            "--seed" => self.seed = value.parse().ok()?,
            "--scripts" => self.scripts = value.parse().ok()?,
            "--lines" => self.lines = value.parse().ok()?,
            "--journals" => self.journals = value.parse().ok()?,
            "--show" => self.show = Some(value.parse().ok()?),
            _ => return None,
        }
        Some(())
    }

    fn seeds(&self, count: u64) -> impl Iterator<Item = u64> {
        let first = self.seed;
        (0..count).map(move |number| first.wrapping_add(number))
    }
}

fn compare(options: &Options, report: &mut impl Write) -> io::Result<Tally> {
    let mut tallies = Vec::new();
    if let Some(command) = &options.console {
        for seed in options.seeds(options.scripts) {
            tallies.push(compare_script(command, seed, options.lines, report)?);
        }
    }
    if let Some(command) = &options.replay {
        for seed in options.seeds(options.journals) {
            tallies.push(compare_journal(command, seed, report)?);
        }
    }
    let sum = tallies.iter().fold(Tally::default(), |sum, one| Tally {
        calls: sum.calls + one.calls,
        journals: sum.journals + one.journals,
        differences: sum.differences + one.differences,
    });
    writeln!(
        report,
        "{} calls and {} journals compared, {} differences",
        sum.calls, sum.journals, sum.differences
    )?;
    Ok(sum)
}

fn census(options: &Options) -> String {
    let mut counts = Counts::new();
    for seed in options.seeds(options.scripts) {
        count_script(&mut counts, seed, options.lines);
    }
    for seed in options.seeds(options.journals) {
        count_journal(&mut counts, seed);
    }
    table(&counts)
}

fn run(options: &Options, report: &mut impl Write) -> io::Result<ExitCode> {
    if let Some(seed) = options.show {
        report.write_all(&script(seed, options.lines))?;
        return Ok(ExitCode::SUCCESS);
    }
    if options.census {
        report.write_all(census(options).as_bytes())?;
        return Ok(ExitCode::SUCCESS);
    }
    let tally = compare(options, report)?;
    if tally.differences == 0 {
        Ok(ExitCode::SUCCESS)
    } else {
        Ok(ExitCode::FAILURE)
    }
}

fn main() -> ExitCode {
    let words = std::env::args_os().skip(1);
    let words = words.map(|word| word.to_string_lossy().into_owned());
    let options = match Options::parse(words) {
        Some(options) => options,
        None => {
            // Nothing can be done about a reader that is gone.
            let _unread = io::stderr().write_all(USAGE.as_bytes());
            return ExitCode::from(2);
        }
    };
    // A report that nobody reads any more ends the run without a word.
    run(&options, &mut io::stdout().lock()).unwrap_or(ExitCode::FAILURE)
}
