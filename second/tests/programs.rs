//! The programs themselves: what they read and print, and what they do when they cannot.

use second::comparison::{compare_journal, compare_script, run_command};
use second::journals::journal;
use second::printed::printed_replay;
use std::io::{BufRead, BufReader, Write};
use std::process::{Child, ChildStdin, Command, Output, Stdio};
use std::sync::mpsc::{channel, Receiver};
use std::thread;
use std::time::Duration;

const CONSOLE: &str = env!("CARGO_BIN_EXE_console");
const PRINTED_REPLAY: &str = env!("CARGO_BIN_EXE_printed_replay");

fn shell(command: &str) -> Output {
    let mut shell = Command::new("sh");
    shell.arg("-c").arg(command);
    shell.output().expect("a shell")
}

#[test]
fn an_input_that_cannot_be_read_is_said_so() {
    for program in [CONSOLE, PRINTED_REPLAY] {
        for input in ["< .", "<&-", "0> /dev/null"] {
            let output = shell(&format!("'{}' {}", program, input));
            assert_eq!(output.stdout, b"unreadable input\n", "{}", input);
            assert_eq!(output.stderr, b"");
            assert_eq!(output.status.code(), Some(1));
        }
    }
}

#[test]
fn an_empty_input_is_an_input() {
    let output = shell(&format!("'{}' < /dev/null", PRINTED_REPLAY));
    assert_eq!(output.stdout, b"tiles 0 undone 0 stopped 0 at 0\n");
    assert_eq!(output.status.code(), Some(0));
    let output = shell(&format!("'{}' < /dev/null", CONSOLE));
    assert_eq!(output.stdout, b"");
    assert_eq!(output.status.code(), Some(0));
}

#[test]
fn an_output_that_nobody_reads_is_no_reason_to_complain() {
    let lines = "yes address 2 4 0 0 | head -n 60000";
    let output = shell(&format!("{} | '{}' | head -n 1", lines, CONSOLE));
    assert_eq!(output.stdout, b"reply 0 key 1073741824 turns 0\n");
    assert_eq!(output.stderr, b"");
}

#[test]
fn the_programs_answer_as_the_library_does() {
    let mut report = Vec::new();
    for seed in [1, 2, 17] {
        let tally = compare_script(CONSOLE, seed, 200, &mut report).expect("a report");
        assert_eq!(tally.differences, 0);
    }
    for seed in 1..20 {
        let tally = compare_journal(PRINTED_REPLAY, seed, &mut report).expect("a report");
        assert_eq!(tally.differences, 0);
    }
    assert_eq!(report, b"");
}

#[test]
fn differences_are_reported() {
    let wrong_answer = format!("'{}' | sed 's/answer 1/answer 2/'", CONSOLE);
    let mut report = Vec::new();
    let tally = compare_script(&wrong_answer, 1, 400, &mut report).expect("a report");
    let text = String::from_utf8_lossy(&report).into_owned();
    assert!(tally.differences > 0);
    assert!(text.starts_with("script seed 1 line "), "{}", text);
    assert!(text.contains("answer 1") && text.contains("answer 2"));
    for command in ["exit 3", "true", "/no/such/program 2> /dev/null"] {
        let tally = compare_script(command, 1, 50, &mut report).expect("a report");
        assert!(tally.differences > 0);
        let tally = compare_journal(command, 1, &mut report).expect("a report");
        assert_eq!(tally.differences, 1);
    }
}

#[test]
fn a_command_that_stops_reading_is_judged_by_its_output() {
    let bytes = journal(17);
    let output = run_command("head -c 3", vec![b'x'; 3_000_000]);
    assert_eq!(output, Ok(b"xxx".to_vec()));
    let output = run_command(PRINTED_REPLAY, bytes.clone());
    assert_eq!(output, Ok(printed_replay(&bytes).into_bytes()));
}

/// A console that one types into, and the lines that it has answered so far.
struct Typed {
    child: Child,
    keys: ChildStdin,
    lines: Receiver<String>,
}

impl Typed {
    fn start() -> Typed {
        let mut console = Command::new(CONSOLE);
        console.stdin(Stdio::piped()).stdout(Stdio::piped());
        let mut child = console.spawn().expect("the console");
        let keys = child.stdin.take().expect("its input");
        let output = BufReader::new(child.stdout.take().expect("its output"));
        let (sender, lines) = channel();
        thread::spawn(move || {
            let mut read = output.lines().map_while(Result::ok);
            read.all(|line| sender.send(line).is_ok())
        });
        Typed { child, keys, lines }
    }

    fn write(&mut self, text: &[u8]) {
        self.keys.write_all(text).expect("a console that reads");
        self.keys.flush().expect("a console that reads");
    }

    /// The next line, which has to come though nothing more is written.
    fn read(&self) -> String {
        let long = Duration::from_secs(60);
        self.lines.recv_timeout(long).expect("an answer")
    }

    fn says_nothing(&self) -> bool {
        self.lines.recv_timeout(Duration::from_millis(200)).is_err()
    }
}

#[test]
fn lines_are_answered_as_one_types() {
    let mut console = Typed::start();
    for (line, due) in [
        ("lend 2 3 60", "lent 2 3 60"),
        ("start 0 1", "reply 0 answer 0 holder 0 sheet 0 turns 0"),
        ("open 1", "reply 0 answer 0 holder 0 sheet 0 turns 0"),
        ("", "?"),
        (
            "ins 1 7 2 4 -1 5",
            "reply 0 answer 1 holder 0 sheet 0 turns -1",
        ),
        ("read 4", "sheeted 1 1 1 1073987589 7 next 16"),
        ("abort 1", "reply 0 answer 0 holder 0 sheet 0 turns 0"),
    ] {
        console.write(line.as_bytes());
        console.write(b"\n");
        assert_eq!(console.read(), due);
    }
    console.write(b"read ");
    assert!(console.says_nothing());
    console.write(b"0\nread 16\nread 20");
    assert_eq!(console.read(), "open 1 next 4");
    assert_eq!(console.read(), "abort 1 next 20");
    assert!(console.says_nothing());
    let Typed {
        mut child,
        keys,
        lines,
    } = console;
    drop(keys);
    assert!(child.wait().expect("an end").success());
    assert!(lines.recv().is_err());
}

#[test]
fn a_line_is_answered_where_a_buffer_ends() {
    let mut console = Typed::start();
    for length in [
        255, 256, 257, 4095, 4096, 4097, 65_535, 65_536, 65_537, 1_048_577,
    ] {
        let mut line = vec![b'x'; length];
        console.write(&line);
        console.write(b"\n");
        assert_eq!(console.read(), "?", "{}", length);
        line[length - 5..].copy_from_slice(b"\nsum\n");
        console.write(&line);
        assert_eq!(console.read(), "?", "{}", length);
        assert_eq!(console.read(), "sum 623557158", "{}", length);
    }
}

#[test]
fn a_long_script_is_answered_to_its_end() {
    let lines = "yes address 2 4 0 0 | head -n 200000";
    let output = shell(&format!("{} | '{}' | sort | uniq -c", lines, CONSOLE));
    let text = String::from_utf8_lossy(&output.stdout).into_owned();
    assert_eq!(text.trim(), "200000 reply 0 key 1073741824 turns 0");
}

#[test]
fn help_is_for_a_person() {
    let output = shell(&format!("echo help | '{}'", CONSOLE));
    assert!(output.stdout.iter().filter(|byte| **byte == b'\n').count() > 10);
}
