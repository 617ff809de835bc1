//! The requests about games.
use crate::game::{Game, IllegalMoveError, Outcome, Termination};
use crate::notation::ParseMoveError;
use crate::piece::Color;
use crate::words::{cut, position, text};
use std::fmt::Write;

pub fn outcome(outcome: Option<Outcome>) -> &'static str {
    match outcome.map(|o| (o.termination, o.winner)) {
        None => "none",
        Some((Termination::NoMoves, Some(Color::White))) => "white",
        Some((Termination::NoMoves, _)) => "black",
        Some((Termination::Repetition, _)) => "draw3",
        Some((Termination::TwentyFiveMoves, _)) => "draw50",
        Some((Termination::SixteenMoves, _)) => "draw32",
        Some((Termination::FiveMoves, _)) => "draw10",
    }
}

pub fn number(e: &ParseMoveError) -> u32 {
    match e {
        ParseMoveError::Syntax(_) => 9,
        ParseMoveError::Illegal(_) => 15,
        ParseMoveError::Ambiguous(_) => 16,
    }
}

/// A game, and the plies since its last capture or promotion up to 32, which dame-rs keeps to itself.
struct Counted {
    game: Game,
    still: u32,
}

impl Counted {
    /// Plays one word; the answer is the move, or the number of its refusal after `!`.
    fn play(&mut self, word: &[u8]) -> String {
        let text = match text(word) {
            Ok(text) => text,
            // "err 1 0" becomes "!1"
            Err(e) => return format!("!{}", e.split(' ').nth(1).unwrap()),
        };
        let (before, over) = (*self.game.position(), self.game.is_over());
        match self.game.play_str(&text) {
            Ok(mv) => {
                let us = before.side_to_move();
                let promoted = before.men(us).contains(mv.from()) && self.game.position().kings(us).contains(mv.to());
                self.still = if promoted || mv.is_capture() { 0 } else { (self.still + 1).min(32) };
                format!("{}{}", mv.to_hub(), self.state('/'))
            }
            // That the game is over is reported before 15 and 16, and after 9.
            Err(IllegalMoveError::Parse(e)) if number(&e) == 9 || !over => format!("!{}", number(&e)),
            Err(_) => "!14".into(),
        }
    }

    fn state(&self, mark: char) -> String {
        let (outcome, game) = (outcome(self.game.outcome()), &self.game);
        format!("{mark}{outcome}{mark}{}{mark}{}{mark}{}", game.reversible_plies(), self.still, game.repetitions())
    }
}

pub fn play(arg: &[u8]) -> Result<String, String> {
    let (fen, mut rest) = cut(arg);
    let mut played = Counted { game: Game::from_position(position(fen)?), still: 0 };
    let mut out = String::from("ok");
    while !rest.is_empty() {
        let (word, next) = cut(rest);
        write!(out, " {}", played.play(word)).unwrap();
        rest = next;
    }
    let game = &played.game;
    write!(out, " | {}{} {}", game.position().fen(), played.state(' '), game.legal_moves().len()).unwrap();
    Ok(out)
}
