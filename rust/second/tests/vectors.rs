//! Every pair of paper 01's vectors up to the first answer that paper 02 changes, and the paper's transcript.
//! Paper: "Program `rehearse`" in "Figures to check".

use second::beside::pairs;
use second::rehearse::rehearse;
use std::io::Write;
use std::process::{Command, Stdio};

fn run(input: &[u8]) -> Vec<u8> {
    let mut output = Vec::new();
    rehearse(&mut &input[..], &mut output).unwrap();
    output
}

/// Whether the answers are those of the list up to the first that differs: of a take or clear with an odd kWh, or of an
/// order that found no place.
fn same_to_the_change(list: &[u8], said: &[u8], answers: &[u8]) -> bool {
    let lines = |text| <[u8]>::split(text, |&byte| byte == b'\n');
    let row = |line: &[u8]| line.starts_with(b"t ");
    // The call whose answer or row a line is: each has one answer, and then its rows.
    let mut calls = lines(list);
    let mut call: &[u8] = b"";
    for (one, other) in lines(said).zip(lines(answers)) {
        if !row(one) && !row(other) {
            call = calls.next().unwrap_or_default();
        }
        if one != other {
            let placeless = call.starts_with(b"R ") && other == b"no 17";
            return call.starts_with(b"T ") || call == b"C" || placeless;
        }
    }
    said.len() == answers.len()
}

#[test]
fn every_pair_to_the_first_change() {
    let pairs = pairs("CENDUXARI_VECTORS", "shared/vectors", "");
    assert!(pairs.is_empty() || pairs.len() >= 100, "only {} pairs found", pairs.len());
    let mut whole = 0;
    for (path, list, answers) in &pairs {
        let said = run(list);
        assert!(same_to_the_change(list, &said, answers), "{}", path.display());
        whole += u64::from(said == *answers);
    }
    assert!(pairs.is_empty() || whole >= 10, "only {whole} pairs are equal to their end");
}

const TRANSCRIPT: &str = "O 1 0 1000000\nE 2 100 0\nE 3 100 0\nC\nR 1 0 8 455000 5\n\
                          R 2 1 8 460000 7\nD\n";
const PRINTED: &str = "ok 0\nok 1\nok 2\nok 0\nok 1\nok 2\nt 4 8 1 2 5 455000\nok 0\n";

#[test]
fn transcript() {
    assert_eq!(run(TRANSCRIPT.as_bytes()), PRINTED.as_bytes());
}

#[test]
fn transcript_of_the_program() {
    let mut program = Command::new(env!("CARGO_BIN_EXE_second"))
        .stdin(Stdio::piped())
        .stdout(Stdio::piped())
        .spawn()
        .unwrap();
    let mut input = program.stdin.take().unwrap();
    input.write_all(TRANSCRIPT.as_bytes()).unwrap();
    input.write_all(b"\xff\0\r nonsense").unwrap();
    drop(input);
    let end = program.wait_with_output().unwrap();
    assert_eq!(end.stdout, [PRINTED.as_bytes(), b"no 0\n"].concat());
    assert_eq!(end.status.code(), Some(0));
}

/// Lines in, expected lines out; `; ` stands for a line end.
fn prints(input: &[u8], expected: &str) {
    let printed = String::from_utf8(run(input)).unwrap();
    assert_eq!(printed.trim_end_matches('\n').replace('\n', "; "), expected, "{input:?}");
}

#[test]
fn lines_of_any_bytes() {
    assert_eq!(run(b""), b"");
    prints(b"\n", "no 0");
    prints(b"O 1 0 9\n\nC\n", "ok 0; no 0; ok 0");
    prints(b"O 1 0 9", "ok 0");
    prints(b"O 1 0 9\nC\r\nC", "ok 0; no 0; ok 0");
    prints(b"O 1 0 9\r\n", "no 0");
    prints(b"O 1 0 9\n C\nC \nC\t\n\tC\nC", "ok 0; no 0; no 0; no 0; no 0; ok 0");
    prints(b"O  1 0 9\nO 1\t0 9\n", "no 0; no 0");
    prints(b"O 01 000 0000000000000000000000000000009\n", "ok 0");
    for bad in ["+1", "-0", "-1", "1_0", "0x1", "1.0", "", "\u{661}", "a", "1e0"] {
        prints(format!("O {bad} 0 9\n").as_bytes(), "no 0");
    }
    prints(b"O 1 0 4294967295\nO 1 0 4294967296\n", "no 2; no 0");
    prints(b"O 1 0 18446744073709551616\nO 1 0 18446744073709551617\n", "no 0; no 0");
    prints(b"o 1 0 9\nOO 1 0 9\nO1 0 9\n", "no 0; no 0; no 0");
    prints(b"O 1 0 9\nc\nCC\nC1\nC 1\nD 0\n", "ok 0; no 0; no 0; no 0; no 0; no 0");
    prints(b"\xef\xbb\xbfO 1 0 9\nO 1 0 9\n\0\nC\0\n\xff\xfe\n", "no 0; ok 0; no 0; no 0; no 0");
    prints(b"D\nE 2 1 0\nX 1 1\nO 1 9 0\nC\n", "no 0; no 0; no 0; no 2; no 0");
    prints(b"O 2 0 9\nO 32 9 0\nO 0 0 9\nO 1 9 0\n", "no 0; no 0; no 2; no 2");
}

#[test]
fn lines_of_any_length() {
    let mut zeros = b"O 1 0 ".to_vec();
    zeros.extend(vec![b'0'; 1_000_000]);
    let mut long = zeros.clone();
    zeros.extend(b"9\n");
    prints(&zeros, "ok 0");
    long.extend(vec![b'9'; 1_000_000]);
    long.push(b'\n');
    prints(&long, "no 0");
    let mut fields = b"O 1 0 9\nC".to_vec();
    for _ in 0..100_000 {
        fields.extend(b" 1");
    }
    fields.extend(b"\nC\n");
    prints(&fields, "ok 0; no 0; ok 0");
}

#[test]
fn lists_of_amounts_have_24() {
    let listing = |amounts: usize| format!("L 1 0 5{}\n", " 1".repeat(amounts));
    let start = "O 1 0 9\nE 2 9 0\n";
    for (amounts, expected) in [(23, "no 0"), (24, "ok 1"), (25, "no 0"), (0, "no 0")] {
        let input = format!("{start}{}", listing(amounts));
        prints(input.as_bytes(), &format!("ok 0; ok 1; {expected}"));
    }
}
