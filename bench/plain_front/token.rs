//! Tokens, and why a text is refused.

/// A reserved word or a mark has a kind of its own. `(.` is read as `[`, and `.)` as `]`.
#[derive(Clone, Copy, PartialEq, Eq)]
pub enum Kind {
    Name,
    Number(u16),
    Character(u8),
    Array,
    Begin,
    Case,
    Class,
    Const,
    Cycle,
    Div,
    Do,
    Downto,
    Else,
    End,
    Entry,
    For,
    Function,
    If,
    In,
    Init,
    Mod,
    Monitor,
    Not,
    Of,
    Or,
    Procedure,
    Process,
    Program,
    Record,
    Repeat,
    Set,
    Then,
    To,
    Type,
    Univ,
    Until,
    Var,
    While,
    With,
    Plus,
    Minus,
    Star,
    Ampersand,
    Equal,
    Unequal,
    Less,
    Greater,
    AtMost,
    AtLeast,
    OpenParenthesis,
    CloseParenthesis,
    OpenBracket,
    CloseBracket,
    Comma,
    Semicolon,
    Colon,
    Assign,
    Dot,
    DotDot,
    /// Behind the last token, at the end of the text.
    EndOfText,
}

/// A token, the place of its first byte, and the number of its bytes.
#[derive(Clone, Copy)]
pub struct Token {
    pub kind: Kind,
    pub at: u32,
    pub length: u32,
}

/// Why a text is refused: `S1` to `S6`, `Y1` to `Y3` or `C1` to `C13`, and the place.
#[derive(Clone, Copy, PartialEq, Eq)]
pub struct Refusal {
    pub letter: char,
    pub number: u8,
    pub at: u32,
}
