//! The program itself: what it reads from standard input and prints.

use std::io::Write;
use std::process::{Command, Stdio};

fn program(word: &str, input: &[u8]) -> String {
    let mut child = Command::new(env!("CARGO_BIN_EXE_second"))
        .arg(word)
        .stdin(Stdio::piped())
        .stdout(Stdio::piped())
        .spawn()
        .unwrap();
    // The program stops reading where more is too much.
    let _ = child.stdin.take().unwrap().write_all(input);
    String::from_utf8(child.wait_with_output().unwrap().stdout).unwrap()
}

const SETUP: [u8; 11] = [3, 1, 0, 2, 2, 4, 7, 4, 4, 5, 0];

#[test]
fn one_rehearsal_in_full() {
    let events = [
        [1, 2, 2, 2, 0],
        [1, 3, 3, 3, 0],
        [3, 2, 0, 1, 1],
        [3, 2, 1, 1, 4],
        [2, 1, 0, 1, 1],
        [1, 3, 3, 3, 0],
        [2, 1, 0, 1, 0],
        [1, 1, 1, 1, 0],
    ];
    let script = [&SETUP[..], &events.concat()].concat();
    let printed = "setup 0\n1 0 2 0 0 -\n2 14 2 0 0 -\n3 18 2 0 0 -\n4 0 2 0 1 -\n5 0 2 1 1 -\n\
                   6 15 2 1 1 -\n7 0 2 1 1 -\n8 0 3 1 1 -\n";
    assert_eq!(program("rehearse", &script), printed);
}

#[test]
fn sizes() {
    assert_eq!(program("rehearse", &[]), "script 21\n");
    assert_eq!(program("rehearse", &[0]), "setup 1\n");
    assert_eq!(program("rehearse", &[0x80]), "script 21\n");
    assert_eq!(program("rehearse", &[12]), "script 21\n");
    let mut script = SETUP.to_vec();
    while script.len() < 65_536 {
        script.extend([2, 1, 0, 1, 0]);
    }
    assert!(program("rehearse", &script).ends_with("\n13105 16 0 0 0 -\n"));
    script.push(2);
    assert_eq!(script.len(), 65_537);
    assert_eq!(program("rehearse", &script), "script 26\n");
    script.resize(1 << 20, 0);
    assert_eq!(program("rehearse", &script), "script 26\n");
    assert_eq!(program("rehearse", &vec![0x80; 65_537]), "script 26\n");
    assert_eq!(program("single", &[]), "script 21\n");
}
