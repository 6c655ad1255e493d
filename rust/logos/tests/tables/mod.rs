//! Lexers by tables that are written by hand, and one of the same rules without tables.

use logos::internal::{_Data, _Ranges, _Tables, _Unpacked, CallbackResult, LexerInternal};
use logos::{Lexer, Logos, Span};
use std::sync::OnceLock;

/// The classes: other ASCII, letters, `(`, blanks, digits, `.`, `<`, four bytes of characters, `#`,
/// symbols that end a comment or are in no text, three ranges of bytes that continue a character,
/// and other bytes that begin one.
const CLASSES: [u8; 257] = {
    let (mut classes, mut byte) = ([0; 257], 0);
    while byte < 257 {
        classes[byte] = class_of(byte);
        byte += 1;
    }
    classes
};
const WIDTH: usize = 23;

const fn class_of(symbol: usize) -> u8 {
    if symbol >= 0x80 {
        return match symbol {
            0xE6 => 7,
            0xBC => 8,
            0xA2 => 9,
            0xA3 => 10,
            0x80..=0x8F => 13,
            0x90..=0x9F => 14,
            0xA0..=0xBF => 15,
            0xC2..=0xDF => 16,
            0xE0 => 17,
            0xED => 19,
            0xE1..=0xEF => 18,
            0xF0 => 20,
            0xF1..=0xF3 => 21,
            0xF4 => 22,
            _ => 12,
        };
    }
    match symbol as u8 {
        b'a'..=b'z' => 1,
        b'(' => 2,
        b' ' => 3,
        b'0'..=b'9' => 4,
        b'.' => 5,
        b'<' => 6,
        b'#' => 11,
        b'\n' => 12,
        _ => 0,
    }
}

/// The states: the root, a word, `(`, blanks, a number, a number and `.`, a fraction, `<`, and the
/// first one and two bytes of `漢`, which belongs to words, and of `漣`, which is like `<`; then a
/// comment, which has no line end and no `漣`, and the states inside its characters.
const STATES: usize = 20;
const COMMENT: usize = 10;

const STEPS: [u8; STATES * WIDTH] = {
    let (mut steps, mut at) = ([0; STATES * WIDTH], 0);
    while at < steps.len() {
        steps[at] = if at / WIDTH < COMMENT {
            step_of(at / WIDTH, at % WIDTH)
        } else {
            step_of_comment(at / WIDTH, at % WIDTH)
        };
        at += 1;
    }
    steps
};

const fn step_of(state: usize, class: usize) -> u8 {
    match (state, class) {
        (0, 1) | (9, 9) => 3,
        (0, 2) => 4,
        (0, 3) => 5,
        (0, 4) => 6,
        (0, 6) | (9, 10) => 9,
        (0 | 1, 7) => 10,
        (0, 11) => 2 + COMMENT as u8,
        (1, 1) | (3, 3) | (4 | 6, 4) => 1,
        (4, 5) => 7,
        (5, 4) => 8,
        (8, 8) => 11,
        _ => 0,
    }
}

const fn step_of_comment(state: usize, class: usize) -> u8 {
    let continues = matches!(class, 8 | 9 | 10 | 13 | 14 | 15);
    let next = match (state, class) {
        (COMMENT, 0..=6 | 11) => return 1,
        (COMMENT, 16) => 11,
        (COMMENT, 18) => 12,
        (COMMENT, 17) => 13,
        (COMMENT, 19) => 14,
        (COMMENT, 20) => 15,
        (COMMENT, 21) => 16,
        (COMMENT, 22) => 17,
        (COMMENT, 7) => 18,
        (11, _) if continues => COMMENT,
        (12, _) if continues => 11,
        (13, 8 | 9 | 10 | 15) => 11,
        (14, 13 | 14) => 11,
        (15, 8 | 9 | 10 | 14 | 15) => 12,
        (16, _) if continues => 12,
        (17, 13) => 12,
        (18, 8) => 19,
        (18, _) if continues => 11,
        (19, _) if continues && class != 10 => COMMENT,
        _ => return 0,
    };
    next as u8 + 2
}

const ROWS: [u8; STATES] = {
    let (mut rows, mut state) = ([0; STATES], 0);
    while state < STATES {
        rows[state] = state as u8;
        state += 1;
    }
    rows
};
/// The leaves: 0 for blanks, 1 for words, 2 for `(`, 3 for numbers, 4 for `<`, 5 for comments.
const MARKS: [u8; STATES] = [0, 4, 6, 2, 8, 0, 8, 10, 0, 0, 12, 0, 0, 0, 0, 0, 0, 0, 0, 0];
const SKIPS: [u8; 6] = [1, 0, 0, 0, 0, 0];
const LEAVES: usize = SKIPS.len();

fn step(state: usize, bytes: &[u8], at: usize) -> u8 {
    bytes.get(at).map_or(0, |byte| {
        STEPS[WIDTH * state + CLASSES[*byte as usize] as usize]
    })
}

/// Returns the leaf of the longest match and its end, or no leaf and the end of the attempt.
fn attempt(bytes: &[u8], start: usize) -> (usize, usize) {
    let (mut state, mut at, mut found) = (0, start, None);
    loop {
        if MARKS[state] != 0 {
            found = Some((MARKS[state] as usize / 2 - 1, at));
        }
        match step(state, bytes, at) {
            0 => return found.unwrap_or((LEAVES, at)),
            1 => {}
            next => state = next as usize - 2,
        }
        at += 1;
    }
}

/// Returns a table followed by zeros: the states to which they belong are not reached.
const fn padded<const N: usize>(table: &[u8; STATES]) -> [u8; N] {
    let (mut padded, mut at) = ([0; N], 0);
    while at < table.len() {
        padded[at] = table[at];
        at += 1;
    }
    padded
}

/// The tokens of the lexers. The number identifies a lexer: with 20 or 301 it is the number of
/// states of its tables, which determines whether a row has an entry for each byte or for each
/// class. A lexer with 0 has no tables.
#[derive(Clone, Debug, PartialEq)]
pub enum Token<'s, const STATES: usize> {
    Word,
    Round(&'s str),
    Number,
    Angle,
    Comment,
}

pub type ByBytes<'s> = Token<'s, STATES>;
pub type ByClasses<'s> = Token<'s, 301>;
pub type ByHand<'s> = Token<'s, 0>;

impl<'s, const STATES: usize> Token<'s, STATES> {
    /// Returns the same token of the lexer by hand.
    pub fn by_hand(self) -> ByHand<'s> {
        match self {
            Token::Word => Token::Word,
            Token::Round(text) => Token::Round(text),
            Token::Number => Token::Number,
            Token::Angle => Token::Angle,
            Token::Comment => Token::Comment,
        }
    }
}

macro_rules! actions {
    () => {
        fn plain(leaf: usize) -> Option<Self> {
            match leaf {
                1 => Some(Token::Word),
                3 => Some(Token::Number),
                5 => Some(Token::Comment),
                _ => None,
            }
        }

        /// `(` extends to the next `)`, and is skipped if there is none. `<` continues in another
        /// text if the extras are 7.
        fn act(lexer: &mut Lexer<'s, Self>, leaf: usize) -> CallbackResult<'s, Self> {
            match leaf {
                2 => {
                    let rest = lexer.remainder();
                    let Some(end) = rest.find(')') else {
                        return CallbackResult::Skip;
                    };
                    lexer.bump(end + 1);
                    lexer.extras += 1;
                    CallbackResult::Emit(Token::Round(lexer.slice()))
                }
                4 if lexer.extras == 7 => {
                    *lexer = Lexer::with_extras(other(), 8);
                    lexer.bump(3);
                    CallbackResult::Emit(Token::Angle)
                }
                4 => CallbackResult::Emit(Token::Angle),
                _ => CallbackResult::Skip,
            }
        }
    };
}

impl<'s> Token<'s, 0> {
    actions!();
}

impl<'s> Logos<'s> for Token<'s, 0> {
    type Error = ();
    type Extras = usize;
    type Source = str;

    fn lex(lexer: &mut Lexer<'s, Self>) -> Option<Result<Self, ()>> {
        let bytes = lexer.source().as_bytes();
        loop {
            let start = lexer.offset();
            if start >= bytes.len() {
                return None;
            }
            let (leaf, end) = attempt(bytes, start);
            if leaf >= LEAVES {
                lexer.end_to_boundary(end.max(start + 1));
                return Some(Err(()));
            }
            lexer.end(end);
            match Self::plain(leaf) {
                Some(token) => return Some(Ok(token)),
                None if leaf == 0 => lexer.trivia(),
                None => match Self::act(lexer, leaf) {
                    CallbackResult::Emit(token) => return Some(Ok(token)),
                    CallbackResult::Skip => lexer.trivia(),
                    _ => return Some(Err(())),
                },
            }
        }
    }
}

macro_rules! lexer {
    ($states: expr, $entries: expr, $folded: expr) => {
        impl<'s> Logos<'s> for Token<'s, $states> {
            type Error = ();
            type Extras = usize;
            type Source = str;

            fn lex(lexer: &mut Lexer<'s, Self>) -> Option<Result<Self, ()>> {
                _Tables::run(lexer)
            }
        }

        impl<'s> _Tables<'s> for Token<'s, $states> {
            const DATA: _Data = _Data {
                root: 0,
                width: WIDTH,
                class_lengths: (1, &[1; 257]),
                classes: (1, &CLASSES),
                lengths: (1, &[1; STATES * WIDTH]),
                steps: (1, &STEPS),
                rows: (1, &padded::<$states>(&ROWS)),
                marks: (1, &padded::<$states>(&MARKS)),
                skips: (1, &SKIPS),
            };
            type Unpacked = _Unpacked<$states, { STATES * WIDTH }>;
            const UNPACKED: &'static Self::Unpacked = &<Self::Unpacked>::new::<Self>();
            const ROWS: &'static [u32] = &<Self::Unpacked>::rows::<Self, $entries>();
            const LASTS: &'static [u32] = &<Self::Unpacked>::lasts::<Self>();
            const MASKS: &'static [[[u8; 8]; 256]] = &<Self::Unpacked>::masks::<Self, 8>();
            const RANGES: &'static [_Ranges] = &_Ranges::of::<Self, 8>();
            const FOLDED: &'static [u32] = &<Self::Unpacked>::folded::<Self, $folded>();

            fn bytes(source: &'s str) -> &'s [u8] {
                source.as_bytes()
            }

            actions!();

            fn error(_: &mut Lexer<'s, Self>) {}
        }
    };
}

lexer!(20, { 20 * 272 + 256 }, { 8192 + 1024 });
lexer!(301, { 301 * WIDTH + 256 }, { 4096 + 1024 });

/// Returns the text in which a callback continues.
pub fn other() -> &'static str {
    static OTHER: OnceLock<String> = OnceLock::new();
    OTHER.get_or_init(|| "a (b) 1.2 c. d ".repeat(2000))
}

/// Returns a text of as many pieces, the same one for a seed each time.
pub fn text(pieces: usize, seed: u64) -> String {
    const PIECES: [&str; 26] = [
        "a",
        "word ",
        " ",
        "12",
        "3.4",
        "5.",
        "(",
        "(in here) ",
        ")",
        "é",
        "<",
        "\n",
        "x y z ",
        "..",
        "漢",
        "a漢b漢漢",
        "漣",
        "word漣",
        "漀",
        "a怀",
        "#",
        "# a ç 中文漢 😀 <\n",
        "#żółw漣 é",
        "# Съешь ещё этих мягких французских булок 6.5\n",
        "# \u{7FF}\u{800}\u{D7FF}\u{E000}\u{FFFF}\u{10000}\u{10FFFF}\n",
        "# 汀漠演",
    ];
    let mut seed = seed;
    let mut next = || {
        seed = seed
            .wrapping_mul(6364136223846793005)
            .wrapping_add(1442695040888963407);
        PIECES[(seed >> 33) as usize % PIECES.len()]
    };
    (0..pieces).map(|_| next()).collect()
}

/// An item, its span, and the extras after it.
pub type Item<'s> = (Result<ByHand<'s>, ()>, Span, usize);

/// Returns the items of a lexer, by a loop.
pub fn items<'s, const STATES: usize>(lexer: &mut Lexer<'s, Token<'s, STATES>>) -> Vec<Item<'s>>
where
    Token<'s, STATES>: Logos<'s, Error = (), Extras = usize>,
{
    let mut found = vec![];
    while let Some(item) = lexer.next() {
        found.push((item.map(Token::by_hand), lexer.span(), lexer.extras));
    }
    found
}

/// Compares the items that were found, and shows the first difference.
pub fn compare<Item: PartialEq + std::fmt::Debug>(found: Vec<Item>, wanted: Vec<Item>) {
    for (n, wanted) in wanted.iter().enumerate() {
        assert_eq!(found.get(n), Some(wanted), "item {n}");
    }
    assert_eq!(found.len(), wanted.len());
}
