//! Talks with the console.

use second::talk::answers;

/// All that a console answers to an input.
pub fn talk(input: &str) -> String {
    String::from_utf8_lossy(&answers(input.as_bytes())).into_owned()
}

/// Holds a talk: lines of commands, each with its answer behind an arrow.
pub fn holds(lines: &str) {
    let lines = lines.lines().map(str::trim);
    let pairs: Vec<(&str, &str)> = lines
        .map(|line| line.split_once(" => ").expect("an arrow"))
        .collect();
    let whole = |text: &str| format!("{}\n", text);
    let input: String = pairs.iter().map(|(command, _)| whole(command)).collect();
    let output = talk(&input);
    for ((command, due), answer) in pairs.iter().zip(output.lines()) {
        assert_eq!(answer, *due, "{}", command);
    }
    let due: String = pairs.iter().map(|(_, due)| whole(due)).collect();
    assert_eq!(output, due);
}
