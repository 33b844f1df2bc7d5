//! The session that 01 prints, letter for letter.

use crate::Case;

const INPUT: &str = "\
60000002 00000007 00000000
40000002 00000007 00000000
2000000A 00000007 00000000 00000000 20000010 00000000 00000005 00000064 00000000 00000000 00000000
60000002 00000007 00000001
C0000002 00000009 FFFFFFFF";

const OUTPUT: &str = "\
40000000
no 6
00000000
10000009 00000000 00000000 20000010 00000000 00000005 00000064 00000000 00000000 00000000
no 4";

pub fn cases() -> Vec<Case> {
    vec![printed("the printed session", INPUT, OUTPUT)]
}

/// A case from text: a ticket a line, a line a line.
pub fn printed(name: &str, input: &str, output: &str) -> Case {
    let word = |digits: &str| u32::from_str_radix(digits, 16).expect("eight hexadecimal digits");
    let words = |line: &str| line.split_whitespace().map(word).collect();
    Case {
        name: name.to_string(),
        tickets: input.lines().map(words).collect(),
        lines: output.lines().map(String::from).collect(),
    }
}
