//! Answers one request a line, as README.md says, by the rules of dame-rs.
//!
//! The files of dame-rs are taken unchanged from the checkout that DAME_RS names. They name each other by `crate::`,
//! and `list` and `keys` need items that only their own crate may use, so they and the protocol are one crate.
#![allow(dead_code)]

mod answers;
mod list;
mod plays;
mod words;

include!(concat!(env!("OUT_DIR"), "/modules.rs"));

use std::io::{BufRead, Write};

fn main() {
    // A panic of dame-rs is an answer; its message is not wanted.
    std::panic::set_hook(Box::new(|_| {}));
    let mut input = std::io::stdin().lock();
    let mut output = std::io::stdout().lock();
    let mut line = Vec::new();
    while input.read_until(b'\n', &mut line).is_ok_and(|n| n > 0) {
        if line.last() == Some(&b'\n') {
            line.pop();
        }
        if writeln!(output, "{}", answers::answer(&line)).is_err() {
            break;
        }
        line.clear();
    }
}
