//! The legal moves in the order of dame-rs, whatever their number. Its own list holds 256 entries and panics at one
//! more, even where that entry is a shorter capture that would be thrown away.
use crate::bitboard::Bitboard;
use crate::moves::Move;
use crate::piece::Color;
use crate::position::Position;
use std::collections::HashSet;

const DIRS: [i32; 4] = [-6, -5, 5, 6];

/// The search for the longest captures, one piece after the other.
struct Search {
    them: Bitboard,
    empty: Bitboard,
    from: Bitboard,
    king: bool,
    /// Squares reached by this piece, each with the set taken on the way. What follows depends on nothing else, so a
    /// second way to the same pair finds nothing new.
    seen: HashSet<(Bitboard, Bitboard)>,
    taken: u32,
    moves: Vec<Move>,
}

impl Search {
    fn go(&mut self, at: Bitboard, taken: Bitboard) {
        if !self.seen.insert((at, taken)) {
            return;
        }
        let mut extended = false;
        for dir in DIRS {
            let mut over = at.shift(dir);
            while self.king && !(over & self.empty).is_empty() {
                over = over.shift(dir);
            }
            let over = over & self.them & !taken;
            let mut land = over.shift(dir) & self.empty;
            while !land.is_empty() {
                extended = true;
                self.go(land, taken | over);
                land = if self.king { land.shift(dir) & self.empty } else { Bitboard::EMPTY };
            }
        }
        if extended || taken.is_empty() || taken.count() < self.taken {
            return;
        }
        if taken.count() > self.taken {
            self.taken = taken.count();
            self.moves.clear();
        }
        self.moves.push(Move::new(self.from.first().unwrap(), at.first().unwrap(), taken));
    }
}

pub fn list(position: &Position) -> Vec<Move> {
    let us = position.side_to_move();
    let (men, kings, empty) = (position.men(us), position.kings(us), position.empty());
    let mut search = Search {
        them: position.pieces(!us),
        empty,
        from: Bitboard::EMPTY,
        king: false,
        seen: HashSet::new(),
        taken: 0,
        moves: Vec::new(),
    };
    for (pieces, king) in [(men, false), (kings, true)] {
        for from in pieces {
            search.from = from.bitboard();
            search.king = king;
            search.empty = empty | search.from;
            search.seen.clear();
            search.go(search.from, Bitboard::EMPTY);
        }
    }
    if search.moves.is_empty() { quiet(us, men, kings, empty) } else { search.moves }
}

fn quiet(us: Color, men: Bitboard, kings: Bitboard, empty: Bitboard) -> Vec<Move> {
    let mut moves = Vec::new();
    for dir in if us == Color::White { [-6, -5] } else { [5, 6] } {
        for to in men.shift(dir) & empty {
            let from = to.bitboard().shift(-dir).first().unwrap();
            moves.push(Move::new(from, to, Bitboard::EMPTY));
        }
    }
    for king in kings {
        for dir in DIRS {
            let mut to = king.bitboard().shift(dir) & empty;
            while let Some(square) = to.first() {
                moves.push(Move::new(king, square, Bitboard::EMPTY));
                to = to.shift(dir) & empty;
            }
        }
    }
    moves
}
