//! What is measured: each entry of the core beside what the Rust has for it, over the same input. Both hand back a sum
//! over their answers, and the sums must agree.
use crate::boards::{
    self, Boards, Line, Material, Texts, move_numbers, move_sum, position, position_numbers, position_sum,
};
use crate::core;
use dame::eval::{Classical, Evaluate};
use dame::game::Game;
use dame::moves::Move;
use dame::perft::perft;
use dame::piece::Color;
use dame::position::Position;
use std::hint::black_box;

/// What a refusal adds to a sum, as in loops.txt.
const REFUSED: u64 = 1_000_000_007;

type Run = Box<dyn Fn() -> u64>;

pub struct Entry {
    pub name: String,
    /// How many calls one run makes.
    pub calls: usize,
    pub rust: Run,
    pub core: Run,
}

fn entry(
    name: impl Into<String>,
    calls: usize,
    rust: impl Fn() -> u64 + 'static,
    core: impl Fn() -> u64 + 'static,
) -> Entry {
    Entry { name: name.into(), calls, rust: Box::new(rust), core: Box::new(core) }
}

/// The sum of one number for each item.
fn sum<T>(items: &[T], number: impl Fn(&T) -> u64) -> u64 {
    black_box(items).iter().fold(0, |sum, item| sum.wrapping_add(number(black_box(item))))
}

fn depth_count(name: &str, boards: &Boards, depth: u32) -> Entry {
    let (ps, numbers) = (boards.positions.clone(), position_numbers(&boards.positions));
    entry(
        format!("perft {depth}, {name}"),
        ps.len(),
        move || sum(&ps, |p| perft(p, black_box(depth))),
        move || core::perft(&numbers, depth),
    )
}

fn list(name: &str, boards: &Boards) -> Entry {
    let (ps, numbers) = (boards.positions.clone(), position_numbers(&boards.positions));
    entry(
        format!("legal_moves, {name}"),
        ps.len(),
        move || {
            black_box(&ps).iter().fold(0, |sum: u64, p| {
                let list = black_box(p).legal_moves();
                sum.wrapping_add(list.len() as u64).wrapping_add(list.last().map_or(0, move_sum))
            })
        },
        move || core::legal_moves(&numbers),
    )
}

/// The core tests that the move is legal. The Rust's `after` does not: `listed` has it look into its list first.
fn after(name: &str, boards: &Boards, listed: bool) -> Entry {
    let (ps, numbers) = (boards.positions.clone(), position_numbers(&boards.positions));
    let (ms, moves) = (boards.moves.clone(), move_numbers(&boards.moves));
    entry(
        format!("after, {name}"),
        ps.len(),
        move || {
            black_box(&ps).iter().zip(&ms).fold(0, |sum: u64, (p, m)| {
                if listed && !p.legal_moves().contains(m) {
                    return sum.wrapping_add(REFUSED);
                }
                sum.wrapping_add(position_sum(&black_box(p).after(*m)))
            })
        },
        move || core::after(&numbers, &moves),
    )
}

/// A number of each position.
fn each(name: &str, boards: &Boards, rust: fn(&Position) -> u64, core: fn(&[u64]) -> u64) -> Entry {
    let (ps, numbers) = (boards.positions.clone(), position_numbers(&boards.positions));
    entry(name, ps.len(), move || sum(&ps, rust), move || core(&numbers))
}

/// The Rust has no test of a position: it makes one of the sets and compares the hashes.
fn same_hash(p: &Position) -> u64 {
    let (white, black) = (p.pieces(Color::White), p.pieces(Color::Black));
    let made = Position::from_parts(white, black, p.kings(Color::White) | p.kings(Color::Black), p.side_to_move());
    u64::from(made.is_ok_and(|made| made.hash() == p.hash()))
}

fn score(p: &Position) -> u64 {
    (Classical::default().evaluate(p) + 32768) as u64
}

/// A position read from each text.
fn reading(name: String, texts: Texts, rust: fn(&str) -> u64, core: fn(&[u8], &[u64]) -> u64) -> Entry {
    let lent = texts.clone();
    entry(
        name,
        texts.ends.len(),
        move || black_box(&texts).iter().fold(0, |sum: u64, text| sum.wrapping_add(rust(text))),
        move || core(lent.text.as_bytes(), &lent.ends),
    )
}

fn read_fen(text: &str) -> u64 {
    Position::from_fen(text).as_ref().map_or(REFUSED, position_sum)
}

fn read_hub(text: &str) -> u64 {
    Position::from_hub(text).as_ref().map_or(REFUSED, position_sum)
}

/// A text of each item, into lent bytes; the Rust makes a String.
fn writing<T: Clone + 'static>(
    name: &str,
    items: &[T],
    numbers: Vec<u64>,
    rust: fn(&T) -> String,
    core: fn(&[u64], &mut [u8]) -> u64,
) -> Entry {
    let items = items.to_vec();
    entry(
        name,
        items.len(),
        move || {
            sum(&items, |item| {
                let text = rust(item);
                text.len() as u64 + u64::from(*text.as_bytes().last().unwrap())
            })
        },
        move || core(&numbers, &mut [0; 256]),
    )
}

fn parse(name: &str, boards: &Boards, text: fn(&Move) -> String) -> Entry {
    let (ps, numbers) = (boards.positions.clone(), position_numbers(&boards.positions));
    let texts = Texts::of(&boards.moves, text);
    let lent = texts.clone();
    entry(
        format!("parse_move, {name}"),
        ps.len(),
        move || {
            black_box(&ps)
                .iter()
                .zip(black_box(&texts).iter())
                .fold(0, |sum: u64, (p, text)| sum.wrapping_add(p.parse_move(text).as_ref().map_or(REFUSED, move_sum)))
        },
        move || core::parse_move(&numbers, lent.text.as_bytes(), &lent.ends),
    )
}

/// Whole games: one call a move.
fn playing(name: &str, lines: &[Line]) -> Entry {
    let lines = lines.to_vec();
    let numbers: Vec<_> = lines.iter().map(|l| (position_numbers(&[l.start]), move_numbers(&l.moves))).collect();
    entry(
        format!("play, {name}"),
        lines.iter().map(|l| l.moves.len()).sum(),
        move || {
            sum(&lines, |line| {
                let mut game = Game::from_position(line.start);
                let mut accepted: u64 = 0;
                for m in &line.moves {
                    accepted = accepted.wrapping_add(if game.play(*m).is_ok() { 1 } else { REFUSED });
                }
                accepted.wrapping_add(position_sum(game.position()))
            })
        },
        move || numbers.iter().fold(0, |sum: u64, (start, moves)| sum.wrapping_add(core::play(start, moves))),
    )
}

fn playing_texts(name: &str, lines: &[Line]) -> Entry {
    let lines: Vec<_> = lines.iter().map(|l| (l.start, Texts::of(&l.moves, |m| m.to_hub()))).collect();
    let lent: Vec<_> = lines.iter().map(|(start, texts)| (position_numbers(&[*start]), texts.clone())).collect();
    entry(
        format!("play_str, {name}"),
        lines.iter().map(|(_, texts)| texts.ends.len()).sum(),
        move || {
            sum(&lines, |(start, texts)| {
                let mut game = Game::from_position(*start);
                let mut accepted: u64 = 0;
                for text in texts.iter() {
                    accepted = accepted.wrapping_add(if game.play_str(text).is_ok() { 1 } else { REFUSED });
                }
                accepted.wrapping_add(position_sum(game.position()))
            })
        },
        move || {
            lent.iter().fold(0, |sum: u64, (start, texts)| {
                sum.wrapping_add(core::play_str(start, texts.text.as_bytes(), &texts.ends))
            })
        },
    )
}

/// The outcome of one game, asked 2,000 times.
fn outcome(name: &str, line: Line) -> Entry {
    const TIMES: u64 = 2000;
    let (start, moves) = (position_numbers(&[line.start]), move_numbers(&line.moves));
    let mut game = Game::from_position(line.start);
    for m in &line.moves {
        game.play(*m).expect("a legal move");
    }
    entry(
        format!("outcome, {name}"),
        TIMES as usize,
        move || {
            (0..TIMES).fold(0, |sum, _| {
                sum + match black_box(&game).outcome() {
                    None => 1,
                    Some(o) if o.winner.is_some() => 3,
                    Some(_) => 5,
                }
            })
        },
        move || core::outcome(&start, &moves, TIMES),
    )
}

pub fn entries(m: &Material) -> Vec<Entry> {
    let start = Boards::of(position(boards::START));
    let starts = start.repeated(1000);
    let many = Boards { positions: boards::MANY.map(position).to_vec(), moves: vec![] };
    vec![
        depth_count("start", &start, 7),
        depth_count("Woldouby", &Boards::of(position(boards::WOLDOUBY)), 7),
        depth_count("middle games", &m.middle.first(300), 3),
        depth_count("late games", &m.late.first(300), 3),
        depth_count("kings", &m.kings.first(300), 2),
        list("start", &starts),
        list("middle games", &m.middle),
        list("middle games, quiet", &m.middle.with_captures(false)),
        list("middle games, captures", &m.middle.with_captures(true)),
        list("late games", &m.late),
        list("kings", &m.kings),
        list("kings, captures", &m.kings.with_captures(true)),
        list("P11", &Boards::of(position(boards::P11)).repeated(1000)),
        list("worst board", &Boards::of(position(boards::WORST))),
        list("more than 14 of one piece", &many.repeated(10)),
        after("middle games", &m.middle, true),
        after("kings", &m.kings, true),
        after("middle games, the Rust untested", &m.middle, false),
        each("has_captures, middle games", &m.middle, |p| u64::from(p.has_captures()), core::has_captures),
        each("sound, middle games", &m.middle, same_hash, core::sound),
        each("evaluate, middle games", &m.middle, score, core::evaluate),
        reading(
            "from_fen, middle games".into(),
            Texts::of(&m.middle.positions, Position::fen),
            read_fen,
            core::from_fen,
        ),
        reading("from_fen, start".into(), Texts::of(&starts.positions, Position::fen), read_fen, core::from_fen),
        reading(
            format!("from_fen, {}", boards::START),
            Texts::of(&starts.positions, |_| boards::START.into()),
            read_fen,
            core::from_fen,
        ),
        reading(
            "from_hub, middle games".into(),
            Texts::of(&m.middle.positions, Position::hub),
            read_hub,
            core::from_hub,
        ),
        writing(
            "fen, middle games",
            &m.middle.positions,
            position_numbers(&m.middle.positions),
            Position::fen,
            core::fen,
        ),
        writing(
            "hub, middle games",
            &m.middle.positions,
            position_numbers(&m.middle.positions),
            Position::hub,
            core::hub,
        ),
        writing("to_hub, middle games", &m.middle.moves, move_numbers(&m.middle.moves), |m| m.to_hub(), core::to_hub),
        parse("middle games, short texts", &m.middle, |m| m.to_string()),
        parse("middle games, Hub texts", &m.middle, |m| m.to_hub()),
        parse("kings, Hub texts", &m.kings, |m| m.to_hub()),
        playing("games of 100 plies", &m.games),
        playing("49 plies of kings", &vec![m.king_game.clone(); 10]),
        playing_texts("games of 100 plies", &m.games),
        outcome("start", m.games[0].first(0)),
        outcome("after 40 plies", m.games[0].first(40)),
        outcome("after 49 plies of kings", m.king_game.clone()),
    ]
}
