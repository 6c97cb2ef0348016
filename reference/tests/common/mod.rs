//! What the tests share: playing lines and comparing the answers.
#![allow(dead_code)]

/// What the console writes for an input.
pub fn output_of(input: &[u8]) -> String {
    let mut output = Vec::new();
    reference::console::run(input, &mut output).unwrap();
    String::from_utf8(output).unwrap()
}

/// Plays lines on a fresh console, each with the answer that it must have.
pub fn play(script: &[(&str, &str)]) {
    let mut console = reference::console::Console::new();
    for (line, answer) in script {
        assert_eq!(
            console.answer(line.as_bytes(), false).as_deref(),
            Some(*answer),
            "line: {line}"
        );
    }
}
