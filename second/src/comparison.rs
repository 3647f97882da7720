//! Runs another implementation on the same scripts and journals and reports every difference.

use crate::journals::journal;
use crate::printed::printed_replay;
use crate::scripts::script;
use crate::talk::answers;
use std::io::{self, Write};
use std::process::{Child, Command, Stdio};

/// Differences of one script that are shown; the others are only counted.
const MOST_SHOWN: usize = 5;

/// Bytes of a line that are shown.
const MOST_BYTES_SHOWN: usize = 300;

/// What was compared and how often it differed.
#[derive(Clone, Copy, Debug, Default, PartialEq, Eq)]
pub struct Tally {
    pub calls: usize,
    pub journals: usize,
    pub differences: usize,
}

/// Runs a command with the input on its standard input; gives its output, or what went wrong.
pub fn run_command(command: &str, input: Vec<u8>) -> Result<Vec<u8>, String> {
    let mut shell = Command::new("sh");
    shell.arg("-c").arg(command);
    shell.stdin(Stdio::piped()).stdout(Stdio::piped());
    let child = shell
        .spawn()
        .map_err(|error| format!("not started: {}", error))?;
    let output = feed(child, input).map_err(|error| format!("not run: {}", error))?;
    if output.status.success() {
        Ok(output.stdout)
    } else {
        Err(format!("ended with {}", output.status))
    }
}

/// Writes from a thread of its own, for the command may answer before it has read everything.
fn feed(mut child: Child, input: Vec<u8>) -> io::Result<std::process::Output> {
    let writer = child.stdin.take().map(|mut stdin| {
        // A command that stops reading is judged by its output, not by the pipe.
        std::thread::spawn(move || stdin.write_all(&input).is_ok())
    });
    let output = child.wait_with_output();
    if let Some(thread) = writer {
        let _all_was_read = thread.join();
    }
    output
}

fn shown(bytes: &[u8]) -> String {
    let part = bytes.get(..MOST_BYTES_SHOWN).unwrap_or(bytes);
    let rest = bytes.len() - part.len();
    let text = part.escape_ascii().to_string();
    if rest == 0 {
        text
    } else {
        format!("{} ... and {} bytes more", text, rest)
    }
}

fn lines_of(text: &[u8]) -> Vec<&[u8]> {
    text.split_inclusive(|byte| *byte == b'\n').collect()
}

/// Compares the answers to one script line by line.
pub fn compare_script(
    command: &str,
    seed: u64,
    lines: usize,
    report: &mut impl Write,
) -> io::Result<Tally> {
    let text = script(seed, lines);
    let here = answers(&text);
    let mut tally = Tally {
        calls: lines_of(&here).len(),
        ..Tally::default()
    };
    match run_command(command, text.clone()) {
        Err(problem) => {
            tally.differences = 1;
            writeln!(report, "script seed {}\n  there: {}", seed, problem)?;
        }
        Ok(there) => tally.differences = compare_lines(seed, &text, &here, &there, report)?,
    }
    Ok(tally)
}

fn compare_lines(
    seed: u64,
    text: &[u8],
    here: &[u8],
    there: &[u8],
    report: &mut impl Write,
) -> io::Result<usize> {
    let (commands, here, there) = (lines_of(text), lines_of(here), lines_of(there));
    let line = |lines: &[&[u8]], place: usize| -> String {
        lines
            .get(place)
            .map_or("(nothing)".to_string(), |line| shown(line))
    };
    let all = 0..here.len().max(there.len());
    let differing: Vec<usize> = all
        .filter(|place| here.get(*place) != there.get(*place))
        .collect();
    for place in differing.iter().take(MOST_SHOWN) {
        writeln!(report, "script seed {} line {}", seed, place + 1)?;
        writeln!(report, "  command: {}", line(&commands, *place))?;
        writeln!(report, "  here:    {}", line(&here, *place))?;
        writeln!(report, "  there:   {}", line(&there, *place))?;
    }
    if differing.len() > MOST_SHOWN {
        let more = differing.len() - MOST_SHOWN;
        writeln!(report, "script seed {}: {} lines more", seed, more)?;
    }
    Ok(differing.len())
}

/// Compares the printed replay of one journal.
pub fn compare_journal(command: &str, seed: u64, report: &mut impl Write) -> io::Result<Tally> {
    let bytes = journal(seed);
    let here = printed_replay(&bytes).into_bytes();
    let there = run_command(command, bytes.clone());
    let same = there.as_ref().map_or(false, |output| *output == here);
    if !same {
        let there = there.map_or_else(
            |problem| problem,
            |output| output.escape_ascii().to_string(),
        );
        writeln!(report, "journal seed {}", seed)?;
        writeln!(report, "  bytes: {}", hex(&bytes))?;
        writeln!(report, "  here:  {}", here.escape_ascii())?;
        writeln!(report, "  there: {}", there)?;
    }
    Ok(Tally {
        calls: 0,
        journals: 1,
        differences: usize::from(!same),
    })
}

fn hex(bytes: &[u8]) -> String {
    bytes.iter().map(|byte| format!("{:02X}", byte)).collect()
}
