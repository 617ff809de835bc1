//! The requests and their answers; README.md lists them.
use crate::bitboard::Bitboard;
use crate::eval::{Classical, Evaluate};
use crate::game::Game;
use crate::list::list;
use crate::moves::Move;
use crate::perft::{divide, perft};
use crate::piece::{Color, Piece, PieceKind};
use crate::plays::{self, outcome, play};
use crate::position::Position;
use crate::square::Square;
use crate::words::{cut, number, placed, position, set, text};
use crate::zobrist;
use std::panic::catch_unwind;

/// A count and the moves.
fn listed(moves: &[Move]) -> Result<String, String> {
    Ok(format!("ok {}", moves.len()) + &moves.iter().map(|m| format!(" {}", m.to_hub())).collect::<String>())
}

/// The sets of White, Black and kings and the side to move.
fn parts(arg: &[u8]) -> Result<String, String> {
    let words: Vec<_> = arg.split(|&b| b == b' ').collect();
    let [white, black, kings, side] = words[..] else { return Err("bad request".into()) };
    let sets = (set(white)?, set(black)?, set(kings)?);
    let (Some(white), Some(black), Some(kings)) =
        (Bitboard::from_bits(sets.0), Bitboard::from_bits(sets.1), Bitboard::from_bits(sets.2))
    else {
        return Err("err 11 0".into());
    };
    let side = if side == b"W" { Color::White } else { Color::Black };
    Ok(format!("ok {}", placed(Position::from_parts(white, black, kings, side))?.fen()))
}

fn bits(p: &Position) -> String {
    let (white, black) = (p.pieces(Color::White).bits(), p.pieces(Color::Black).bits());
    let kings = (p.kings(Color::White) | p.kings(Color::Black)).bits();
    format!("{white:x} {black:x} {kings:x} {} {:016x}", p.side_to_move().to_char(), p.hash())
}

/// `parse` and `after`: what is said of the move that the text means.
fn moved(arg: &[u8], say: fn(&Position, Move) -> String) -> Result<String, String> {
    let (fen, word) = cut(arg);
    let position = position(fen)?;
    match position.parse_move(&text(word)?) {
        Ok(mv) => Ok(format!("ok {}", say(&position, mv))),
        Err(e) => Err(format!("err {} 0", plays::number(&e))),
    }
}

fn parsed(_: &Position, m: Move) -> String {
    format!("{} {},{},{:x}", m.to_hub(), m.from(), m.to(), m.captured().bits())
}

fn after(position: &Position, m: Move) -> String {
    let after = position.after(m);
    format!("{} {:016x}", after.fen(), after.hash())
}

fn divided(arg: &[u8]) -> Result<String, String> {
    let (fen, depth) = cut(arg);
    let counts = divide(&position(fen)?, number(depth)?);
    let each = counts.iter().map(|(m, n)| format!(" {}={n}", m.to_hub())).collect::<String>();
    Ok(format!("ok {}{each}", counts.len()))
}

fn weighed(arg: &[u8]) -> Result<String, String> {
    let words: Vec<_> = arg.split(|&b| b == b' ').collect();
    let [fen, man, king, advance, center, guard] = words[..] else { return Err("bad request".into()) };
    let weights = Classical {
        man: number(man)?,
        king: number(king)?,
        advance: number(advance)?,
        center: number(center)?,
        guard: number(guard)?,
    };
    Ok(format!("ok {}", weights.evaluate(&position(fen)?)))
}

/// The 200 keys of pieces and the key of the side to move.
fn keys() -> String {
    let mut out = String::from("ok");
    for kind in [PieceKind::Man, PieceKind::King] {
        for color in [Color::White, Color::Black] {
            for square in Square::all() {
                out += &format!(" {:016x}", zobrist::piece_key(Piece { color, kind }, square));
            }
        }
    }
    out + &format!(" {:016x}", zobrist::SIDE_KEY)
}

fn told(line: &[u8]) -> Result<String, String> {
    let (name, arg) = cut(line);
    let ok = |s: String| Ok(format!("ok {s}"));
    match name {
        b"fen" => ok(placed(Position::from_fen(&text(arg)?))?.fen()),
        b"hub" => ok(placed(Position::from_hub(&text(arg)?))?.hub()),
        b"fen2hub" => ok(placed(Position::from_fen(&text(arg)?))?.hub()),
        b"hub2fen" => ok(placed(Position::from_hub(&text(arg)?))?.fen()),
        b"square" => match text(arg)?.parse::<Square>() {
            Ok(square) => ok(format!("{} {} {}", square.number(), square.bit(), square.row())),
            Err(_) => Err("err 4 0".into()),
        },
        b"parts" => parts(arg),
        b"bits" => ok(bits(&position(arg)?)),
        b"moves" => listed(&position(arg)?.legal_moves()),
        b"list" => listed(&list(&position(arg)?)),
        b"parse" => moved(arg, parsed),
        b"after" => moved(arg, after),
        b"perft" => {
            let (fen, depth) = cut(arg);
            ok(perft(&position(fen)?, number(depth)?).to_string())
        }
        b"divide" => divided(arg),
        b"eval" => ok(Classical::default().evaluate(&position(arg)?).to_string()),
        b"evalw" => weighed(arg),
        b"hash" => ok(format!("{:016x}", position(arg)?.hash())),
        b"flip" => ok(position(arg)?.flipped().fen()),
        b"caps" => ok(u8::from(position(arg)?.has_captures()).to_string()),
        b"quiet" => ok(u8::from(position(arg)?.has_quiet_moves()).to_string()),
        b"play" => play(arg),
        b"outcome" => ok(outcome(Game::from_position(position(arg)?).outcome()).into()),
        b"keys" => Ok(keys()),
        _ => Err("bad request".into()),
    }
}

/// The answer to one line, without line feeds.
pub fn answer(line: &[u8]) -> String {
    match catch_unwind(|| told(line)) {
        Ok(Ok(answer) | Err(answer)) => answer,
        Err(_) => "panic".into(),
    }
}
