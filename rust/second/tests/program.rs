//! The proved program `rehearse` against the second engine, byte for byte: the shared vectors, bytes of any kind, lines
//! of any length, and inputs cut at every place. Left out where target/bin/rehearse is not built (.ci/setup).

use second::beside::pairs;
use second::random::Random;
use second::rehearse::rehearse;
use std::io::Write;
use std::path::{Path, PathBuf};
use std::process::{Command, Stdio};
use std::time::Duration;

const LETTERS: &[u8] = b"ELLTTTTWRRRRRRRRRRRRRXXCD";
const BYTES: &[u8] = b"0123456789 \n\r\t\0+-.OELTWRXCD\xff";

/// The built program, if it is there.
fn program() -> Option<PathBuf> {
    let path = Path::new(env!("CARGO_MANIFEST_DIR")).join("../../target/bin/rehearse");
    if !path.exists() {
        println!("{} is not built: left out", path.display());
        return None;
    }
    Some(path)
}

fn second(input: &[u8]) -> Vec<u8> {
    let mut output = Vec::new();
    rehearse(&mut &input[..], &mut output).unwrap();
    output
}

/// What the program prints for an input that is written in these parts, with a pause between them.
fn printed(program: &Path, parts: &[&[u8]]) -> Vec<u8> {
    let mut child =
        Command::new(program).stdin(Stdio::piped()).stdout(Stdio::piped()).spawn().unwrap();
    let mut input = child.stdin.take().unwrap();
    let parts: Vec<Vec<u8>> = parts.iter().map(|part| part.to_vec()).collect();
    let writer = std::thread::spawn(move || {
        for (k, part) in parts.iter().enumerate() {
            if k > 0 {
                std::thread::sleep(Duration::from_millis(3));
            }
            input.write_all(part).unwrap();
            input.flush().unwrap();
        }
    });
    let end = child.wait_with_output().unwrap();
    writer.join().unwrap();
    assert_eq!(end.status.code(), Some(0));
    end.stdout
}

/// Both print the same.
fn agree(program: &Path, input: &[u8]) {
    let expected = second(input);
    let found = printed(program, &[input]);
    if found != expected {
        let line = found
            .iter()
            .zip(&expected)
            .take_while(|(a, b)| a == b)
            .filter(|(a, _)| **a == b'\n')
            .count();
        panic!(
            "line {} of the output differs for {:?}",
            line + 1,
            String::from_utf8_lossy(&input[..input.len().min(2000)])
        );
    }
}

#[test]
fn vectors_agree() {
    let Some(program) = program() else { return };
    for (_, list, _) in pairs("CENDUXARI_VECTORS", "shared/vectors", "") {
        agree(&program, &list);
    }
}

#[test]
fn any_bytes_agree() {
    let Some(program) = program() else { return };
    let mut random = Random::new(7);
    for _ in 0..300 {
        let mut input = b"O 1 0 9\nE 2 9 0\nE 3 9 0\n".to_vec();
        for _ in 0..random.below(2000) {
            match random.below(3) {
                0 => input.push(random.below(256) as u8),
                1 => input.push(BYTES[random.below(BYTES.len() as u64) as usize]),
                _ => line(&mut random, &mut input),
            }
        }
        agree(&program, &input);
    }
}

/// A line of a letter and small numbers, mostly of the right count.
fn line(random: &mut Random, input: &mut Vec<u8>) {
    let letter = LETTERS[random.below(LETTERS.len() as u64) as usize];
    let count = match letter {
        b'O' | b'E' | b'T' => 3,
        b'L' => 27,
        b'W' | b'X' => 2,
        b'R' => 5,
        _ => 0,
    };
    input.push(letter);
    for _ in 0..count + random.below(20) / 19 {
        input.extend(format!(" {}", random.below(9)).bytes());
    }
    input.push(b'\n');
}

#[test]
fn lists_agree() {
    let Some(program) = program() else { return };
    let mut random = Random::new(8);
    for _ in 0..100 {
        let mut input = b"O 1 0 9\nE 2 9 0\nE 3 9 0\nE 1 9 0\nE 4 9 40\n".to_vec();
        for _ in 0..500 {
            line(&mut random, &mut input);
        }
        agree(&program, &input);
    }
}

#[test]
fn any_lengths_agree() {
    let Some(program) = program() else { return };
    for length in [1, 4_094, 4_095, 4_096, 4_097, 8_192, 65_535, 65_536, 65_537, 100_000, 1_000_000]
    {
        for byte in [b'0', b'9', b' ', b'C', 0, 255, b'\r'] {
            let mut input = b"O 1 0 9\nE 2 9 0\nR ".to_vec();
            input.extend(vec![byte; length]);
            input.extend(b"1 0 0 5 1\nC\n");
            input.extend(vec![byte; length]);
            agree(&program, &input);
        }
    }
}

#[test]
fn line_ends_agree() {
    let Some(program) = program() else { return };
    for input in [
        &b""[..],
        b"\n",
        b"\n\n",
        b"C",
        b"O 1 0 9",
        b"O 1 0 9\r\nC\r\n",
        b"O 1 0 9\nC\n\nC",
        b"\0",
        b"\n\0\n",
    ] {
        agree(&program, input);
    }
}

#[test]
fn cuts_agree() {
    let Some(program) = program() else { return };
    let input = b"O 1 0 1000000\nE 2 100 0\nE 3 100 0\nL 1 0 5 1 2 3 4 5 6 7 8 9 0 1 2 3 4 5 6 7 8 9 0 1 2 3 4\nT 2 1 9\n\nC \nC\nR 1 0 8 455000 5\nR 2 1 8 460000 7\nD";
    let expected = second(input);
    for at in 0..=input.len() {
        assert_eq!(printed(&program, &[&input[..at], &input[at..]]), expected, "cut at {at}");
    }
    let bytes: Vec<&[u8]> = input.chunks(1).collect();
    assert_eq!(printed(&program, &bytes), expected, "byte by byte");
}
