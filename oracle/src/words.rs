//! What the words of a line stand for. An `Err` is the answer to the line.
use crate::position::{Position, PositionError};
use std::str::{FromStr, from_utf8};

/// The word before the first space, and all after that space.
pub fn cut(line: &[u8]) -> (&[u8], &[u8]) {
    match line.iter().position(|&b| b == b' ') {
        Some(i) => (&line[..i], &line[i + 1..]),
        None => (line, &[]),
    }
}

/// The word with its escapes undone: `\\ \s \t \n \r \xHH`. Rust takes a sign as the first of two digits.
fn undone(word: &[u8]) -> Option<Vec<u8>> {
    let mut bytes = Vec::with_capacity(word.len());
    let mut rest = word.iter();
    while let Some(&b) = rest.next() {
        bytes.push(match b {
            b'\\' => match rest.next()? {
                b'\\' => b'\\',
                b's' => b' ',
                b't' => b'\t',
                b'n' => b'\n',
                b'r' => b'\r',
                b'x' => {
                    let digits = [*rest.next()?, *rest.next()?];
                    u8::from_str_radix(from_utf8(&digits).ok()?, 16).ok()?
                }
                _ => return None,
            },
            b => b,
        });
    }
    Some(bytes)
}

/// A text. Refusal 1 is not dame-rs's: its texts have no limit and may hold any character.
pub fn text(word: &[u8]) -> Result<String, String> {
    let bytes = undone(word).ok_or("bad escape")?;
    if bytes.len() > 4096 || !bytes.is_ascii() {
        return Err("err 1 0".into());
    }
    Ok(String::from_utf8(bytes).expect("ASCII"))
}

/// The number of a refusal and its square, or 0.
fn refused(e: PositionError) -> String {
    let (number, square) = match e {
        PositionError::Overlap(square) => (7, square.number()),
        PositionError::ManOnPromotionRow(square) => (8, square.number()),
        PositionError::Syntax(why) => {
            let ends = [
                "as the side to move",
                "a piece list starting with `W` or `B`",
                "expected a number from 1 to 50",
                "expected one of `w b W B e` per square",
                "expected exactly 50 squares",
            ];
            (ends.iter().position(|end| why.ends_with(end)).map_or(0, |i| i + 2), 0)
        }
    };
    format!("err {number} {square}")
}

pub fn placed(position: Result<Position, PositionError>) -> Result<Position, String> {
    position.map_err(refused)
}

/// A position from a FEN, or from a Hub text: 51 bytes without a colon.
pub fn position(word: &[u8]) -> Result<Position, String> {
    let text = text(word)?;
    let hub = text.len() == 51 && !text.contains(':');
    placed(if hub { Position::from_hub(&text) } else { Position::from_fen(&text) })
}

fn read<T>(word: &[u8], parse: impl Fn(&str) -> Option<T>) -> Result<T, String> {
    from_utf8(word).ok().and_then(parse).ok_or_else(|| "bad number".into())
}

pub fn number<T: FromStr>(word: &[u8]) -> Result<T, String> {
    read(word, |s| s.parse().ok())
}

/// A set of squares in hexadecimal.
pub fn set(word: &[u8]) -> Result<u64, String> {
    read(word, |s| u64::from_str_radix(s.trim_start_matches("0x"), 16).ok())
}
