//! The scanner. It turns the words of the text to lower case in their place, so that names are slices of the text.

use crate::token::{Kind, Refusal, Token};

const LONGEST_TEXT: usize = 1_048_576;
const LONGEST_WORD: usize = 64;
const GREATEST_NUMBER: u32 = 32_767;

/// The number of a refusal of the scanner.
#[derive(Clone, Copy)]
enum Cause {
    Byte = 1,
    Comment = 2,
    Character = 3,
    Number = 4,
    Word = 5,
    Size = 6,
}

/// A token's kind, or none for a separator, and the number of bytes.
type Piece = Result<(Option<Kind>, usize), Cause>;

fn is_in_word(byte: u8) -> bool {
    byte.is_ascii_alphanumeric() || byte == b'_'
}

fn kind_of_word(word: &[u8]) -> Kind {
    match word {
        b"array" => Kind::Array,
        b"begin" => Kind::Begin,
        b"case" => Kind::Case,
        b"class" => Kind::Class,
        b"const" => Kind::Const,
        b"cycle" => Kind::Cycle,
        b"div" => Kind::Div,
        b"do" => Kind::Do,
        b"downto" => Kind::Downto,
        b"else" => Kind::Else,
        b"end" => Kind::End,
        b"entry" => Kind::Entry,
        b"for" => Kind::For,
        b"function" => Kind::Function,
        b"if" => Kind::If,
        b"in" => Kind::In,
        b"init" => Kind::Init,
        b"mod" => Kind::Mod,
        b"monitor" => Kind::Monitor,
        b"not" => Kind::Not,
        b"of" => Kind::Of,
        b"or" => Kind::Or,
        b"procedure" => Kind::Procedure,
        b"process" => Kind::Process,
        b"program" => Kind::Program,
        b"record" => Kind::Record,
        b"repeat" => Kind::Repeat,
        b"set" => Kind::Set,
        b"then" => Kind::Then,
        b"to" => Kind::To,
        b"type" => Kind::Type,
        b"univ" => Kind::Univ,
        b"until" => Kind::Until,
        b"var" => Kind::Var,
        b"while" => Kind::While,
        b"with" => Kind::With,
        _ => Kind::Name,
    }
}

fn word(text: &mut [u8]) -> Piece {
    let length = text
        .iter()
        .position(|byte| !is_in_word(*byte))
        .unwrap_or(text.len());
    if length > LONGEST_WORD {
        return Err(Cause::Word);
    }
    let word = &mut text[..length];
    word.make_ascii_lowercase();
    Ok((Some(kind_of_word(word)), length))
}

/// The value of the digits in front, or one above the limit, and their number.
fn digits(text: &[u8]) -> (u32, usize) {
    let mut value = 0;
    for (length, byte) in text.iter().enumerate() {
        if !byte.is_ascii_digit() {
            return (value, length);
        }
        value = (10 * value + u32::from(byte - b'0')).min(GREATEST_NUMBER + 1);
    }
    (value, text.len())
}

fn number(text: &[u8]) -> Piece {
    let (value, length) = digits(text);
    if value > GREATEST_NUMBER {
        return Err(Cause::Number);
    }
    Ok((Some(Kind::Number(value as u16)), length))
}

fn comment(rest: &[u8]) -> Piece {
    match rest.iter().position(|byte| *byte == b'"') {
        Some(length) => Ok((None, length + 2)),
        None => Err(Cause::Comment),
    }
}

fn character_by_ordinal(rest: &[u8]) -> Piece {
    let (value, length) = digits(rest);
    if (1..=3).contains(&length) && value <= 127 && rest[length..].starts_with(b":)'") {
        Ok((Some(Kind::Character(value as u8)), length + 6))
    } else {
        Err(Cause::Character)
    }
}

fn character(rest: &[u8]) -> Piece {
    match rest {
        [byte @ b' '..=b'~', b'\'', ..] if *byte != b'\'' => Ok((Some(Kind::Character(*byte)), 3)),
        [b'(', b':', rest @ ..] => character_by_ordinal(rest),
        _ => Err(Cause::Character),
    }
}

fn mark(byte: u8, next: u8) -> Piece {
    let (kind, length) = match (byte, next) {
        (b'+', _) => (Kind::Plus, 1),
        (b'-', _) => (Kind::Minus, 1),
        (b'*', _) => (Kind::Star, 1),
        (b'&', _) => (Kind::Ampersand, 1),
        (b'=', _) => (Kind::Equal, 1),
        (b')', _) => (Kind::CloseParenthesis, 1),
        (b'[', _) => (Kind::OpenBracket, 1),
        (b']', _) => (Kind::CloseBracket, 1),
        (b',', _) => (Kind::Comma, 1),
        (b';', _) => (Kind::Semicolon, 1),
        (b'<', b'=') => (Kind::AtMost, 2),
        (b'<', b'>') => (Kind::Unequal, 2),
        (b'<', _) => (Kind::Less, 1),
        (b'>', b'=') => (Kind::AtLeast, 2),
        (b'>', _) => (Kind::Greater, 1),
        (b':', b'=') => (Kind::Assign, 2),
        (b':', _) => (Kind::Colon, 1),
        (b'.', b'.') => (Kind::DotDot, 2),
        (b'.', b')') => (Kind::CloseBracket, 2),
        (b'.', _) => (Kind::Dot, 1),
        (b'(', b'.') => (Kind::OpenBracket, 2),
        (b'(', _) => (Kind::OpenParenthesis, 1),
        _ => return Err(Cause::Byte),
    };
    Ok((Some(kind), length))
}

/// The piece at the front of a text, which isn't empty.
fn piece(text: &mut [u8]) -> Piece {
    let first = text[0];
    match first {
        b'\t' | b'\n' | b'\r' | b' ' => Ok((None, 1)),
        b'a'..=b'z' | b'A'..=b'Z' => word(text),
        b'0'..=b'9' => number(text),
        b'"' => comment(&text[1..]),
        b'\'' => character(&text[1..]),
        _ => mark(first, text.get(1).copied().unwrap_or(0)),
    }
}

fn refusal(cause: Cause, at: usize) -> Refusal {
    Refusal {
        letter: 'S',
        number: cause as u8,
        at: at as u32,
    }
}

/// The tokens of a text, and one more for its end.
pub fn scan(text: &mut [u8]) -> Result<Vec<Token>, Refusal> {
    if text.len() > LONGEST_TEXT {
        return Err(refusal(Cause::Size, LONGEST_TEXT));
    }
    let mut tokens = Vec::new();
    let mut at = 0;
    while at < text.len() {
        let (kind, length) = piece(&mut text[at..]).map_err(|cause| refusal(cause, at))?;
        if let Some(kind) = kind {
            tokens.push(Token {
                kind,
                at: at as u32,
                length: length as u32,
            });
        }
        at += length;
    }
    tokens.push(Token {
        kind: Kind::EndOfText,
        at: at as u32,
        length: 0,
    });
    Ok(tokens)
}
