//! The boards, moves and games that are measured: the same in every run.
use dame::game::Game;
use dame::moves::Move;
use dame::piece::Color;
use dame::position::Position;

pub const START: &str = "W:W31-50:B1-20";
pub const WOLDOUBY: &str = "W:W25,27,28,30,32,33,34,35,37,38:B12,13,14,16,18,19,21,23,24,26";
pub const P11: &str = "W:WK46:B12,22,27,37";
/// The Rust's search makes 31,294 calls here.
pub const WORST: &str = "W:WK1,K3,K5,K25,K26,K45,K46,K48:B8,9,10,11,12,20,21,22,28,30,31,33,34,41,42,43,44";
/// Boards on which one piece has more than 14 longest captures.
pub const MANY: [&str; 13] = [
    "W:WK22,K39:BK4,K12,K16,K20,K27,K28,K31,K34,K40,K50",
    "B:WK6,K8,K18,K19,K21,K22,K25,K31,K35,K36,K48:BK4,K14,K49",
    "W:WK5:B1,4,7,K10,11,15,17,20,23,24,31,36,39,41,K46,K50",
    "W:W6,13,K15,16,29,K31,K37:B2,K4,5,K11,18,20,K22,K23,24,26,32,33,38,K42,K43,45,K46",
    "W:WK2,K26:B1,K4,K6,K7,9,12,K14,K17,21,28,K29,K30,K31,K35,K39,K44",
    "W:WK4,K12,K32:B2,K6,8,9,10,K13,K15,18,19,K22,K24,K28,31,35,36,37,38,39,40,K41,44,K46,K47,K50",
    "B:W8,K9,K13,15,22,K26,K27,K29,K30,39,K40,K42,K43,46,48,K50:BK20",
    "W:WK3:B6,8,13,18,K23,K27,29,31,34,40,K47,K49,K50",
    "W:WK7,K13:B4,5,14,17,24,27,33,34,42,44,K46,K49,K50",
    "W:WK39:B1,5,9,12,15,18,20,24,32,33,42,43,45,K47,K50",
    "W:WK25:B6,12,17,23,24,30,33,38,42,K49,K50",
    "W:W37,K40:BK1,K5,K6,K12,K13,K18,K22,K23,K25,K26,K27,K29,K30,K35,K42,K43,K44",
    "B:WK8,10,13,14,19,K24,K44:B2,11,21,26,27,36,42,K50",
];
/// Two kings against two: a game of 49 plies without a capture starts here.
const KINGS: &str = "W:WK46,K47:BK5,K4";

/// The most boards of one kind.
const MOST: usize = 3000;

/// SplitMix64.
struct Random(u64);

impl Random {
    fn next(&mut self) -> u64 {
        self.0 = self.0.wrapping_add(0x9E37_79B9_7F4A_7C15);
        let mut z = self.0;
        z = (z ^ (z >> 30)).wrapping_mul(0xBF58_476D_1CE4_E5B9);
        z = (z ^ (z >> 27)).wrapping_mul(0x94D0_49BB_1331_11EB);
        z ^ (z >> 31)
    }

    fn pick<T: Copy>(&mut self, items: &[T]) -> T {
        items[(u128::from(self.next()) * items.len() as u128 >> 64) as usize]
    }
}

/// Boards, and on each the move that its game went on with.
#[derive(Clone, Default)]
pub struct Boards {
    pub positions: Vec<Position>,
    pub moves: Vec<Move>,
}

impl Boards {
    fn push(&mut self, position: Position, mv: Move) {
        if self.positions.len() < MOST {
            self.positions.push(position);
            self.moves.push(mv);
        }
    }

    pub fn of(position: Position) -> Boards {
        Boards { positions: vec![position], moves: vec![] }
    }

    /// Those with a capture, or those without.
    pub fn with_captures(&self, wanted: bool) -> Boards {
        let mut kept = Boards::default();
        for (p, m) in self.positions.iter().zip(&self.moves) {
            if p.has_captures() == wanted {
                kept.push(*p, *m);
            }
        }
        kept
    }

    pub fn first(&self, n: usize) -> Boards {
        Boards { positions: self.positions[..n].to_vec(), moves: self.moves[..n].to_vec() }
    }

    pub fn repeated(&self, times: usize) -> Boards {
        Boards { positions: self.positions.repeat(times), moves: self.moves.repeat(times) }
    }
}

/// A game: its start and its moves.
#[derive(Clone)]
pub struct Line {
    pub start: Position,
    pub moves: Vec<Move>,
}

impl Line {
    pub fn first(&self, n: usize) -> Line {
        Line { start: self.start, moves: self.moves[..n].to_vec() }
    }
}

pub struct Material {
    /// Plies 21 to 50 of random games.
    pub middle: Boards,
    /// Later plies.
    pub late: Boards,
    /// Those of them where the side to move has a king.
    pub kings: Boards,
    /// Twenty games of 100 plies.
    pub games: Vec<Line>,
    /// A game of kings: 49 plies without a capture.
    pub king_game: Line,
}

pub fn position(fen: &str) -> Position {
    Position::from_fen(fen).expect("a FEN of this file")
}

/// 400 random games from the start, of at most 200 plies.
pub fn material() -> Material {
    let mut random = Random(2024);
    let (mut middle, mut late, mut kings, mut games) =
        (Boards::default(), Boards::default(), Boards::default(), vec![]);
    for _ in 0..400 {
        let mut game = Game::new();
        for ply in 0..200 {
            let list = game.legal_moves();
            if list.is_empty() {
                break;
            }
            let mv = random.pick(&list);
            let p = *game.position();
            if (20..50).contains(&ply) {
                middle.push(p, mv);
            }
            if ply >= 50 {
                late.push(p, mv);
                if !p.kings(p.side_to_move()).is_empty() {
                    kings.push(p, mv);
                }
            }
            game.play(mv).expect("a legal move");
        }
        if game.moves().len() >= 100 && games.len() < 20 {
            games.push(Line { start: *game.start(), moves: game.moves()[..100].to_vec() });
        }
    }
    Material { middle, late, kings, games, king_game: king_game() }
}

/// Random moves after which no capture is open, tried again until 49 of them follow each other.
fn king_game() -> Line {
    let start = position(KINGS);
    let mut random = Random(5);
    loop {
        let mut game = Game::from_position(start);
        while game.moves().len() < 49 {
            let quiet: Vec<Move> = game
                .legal_moves()
                .iter()
                .copied()
                .filter(|m| !m.is_capture() && !game.position().after(*m).has_captures())
                .collect();
            if quiet.is_empty() {
                break;
            }
            game.play(random.pick(&quiet)).expect("a legal move");
        }
        if game.moves().len() == 49 {
            return Line { start, moves: game.moves().to_vec() };
        }
    }
}

/// Five numbers a position, as the loops read it.
pub fn position_numbers(positions: &[Position]) -> Vec<u64> {
    let mut numbers = vec![];
    for p in positions {
        let side = u64::from(p.side_to_move() == Color::Black);
        numbers.extend([p.pieces(Color::White).bits(), p.pieces(Color::Black).bits(), kings(p), side, p.hash()]);
    }
    numbers
}

/// Three numbers a move.
pub fn move_numbers(moves: &[Move]) -> Vec<u64> {
    moves.iter().flat_map(|m| [u64::from(m.from().number()), u64::from(m.to().number()), m.captured().bits()]).collect()
}

/// The kings of both colours.
fn kings(p: &Position) -> u64 {
    (p.kings(Color::White) | p.kings(Color::Black)).bits()
}

/// What the loops add for a position, and for a move.
pub fn position_sum(p: &Position) -> u64 {
    p.hash() ^ p.pieces(Color::White).bits() ^ p.pieces(Color::Black).bits() ^ kings(p)
}

pub fn move_sum(m: &Move) -> u64 {
    m.captured().bits() ^ (u64::from(m.to().number()) + 64 * u64::from(m.from().number()))
}

/// Texts one after the other, and where each ends.
#[derive(Clone, Default)]
pub struct Texts {
    pub text: String,
    pub ends: Vec<u64>,
}

impl Texts {
    pub fn of<T>(items: &[T], text: impl Fn(&T) -> String) -> Texts {
        let mut texts = Texts::default();
        for item in items {
            texts.text += &text(item);
            texts.ends.push(texts.text.len() as u64);
        }
        texts
    }

    pub fn iter(&self) -> impl Iterator<Item = &str> {
        let mut at = 0;
        self.ends.iter().map(move |end| {
            let text = &self.text[at..*end as usize];
            at = *end as usize;
            text
        })
    }
}
