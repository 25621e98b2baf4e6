//! The parser's place among the tokens, and what all its rules share: names, constants and lists.

mod declarations;
mod expressions;
mod statements;

use crate::token::{Kind, Refusal, Token};
use crate::tree::{Constant, Identifier, Tree};

/// The largest number of levels that may be open at once.
const LEVELS: u32 = 200;

pub type Read<A> = Result<A, Refusal>;

pub struct Parser<'t> {
    text: &'t [u8],
    tokens: Vec<Token>,
    next: usize,
    /// The number of levels that may still be opened.
    room: u32,
}

/// Parses the tokens of a text, of which the last stands for its end.
pub fn parse(text: &[u8], tokens: Vec<Token>) -> Read<Tree<'_>> {
    let mut parser = Parser {
        text,
        tokens,
        next: 0,
        room: LEVELS,
    };
    let tree = parser.tree()?;
    if parser.sees(Kind::EndOfText) {
        Ok(tree)
    } else {
        parser.wrong()
    }
}

impl<'t> Parser<'t> {
    fn token(&self) -> Token {
        self.tokens[self.next]
    }

    pub fn peek(&self) -> Kind {
        self.token().kind
    }

    pub fn place(&self) -> u32 {
        self.token().at
    }

    pub fn sees(&self, kind: Kind) -> bool {
        self.peek() == kind
    }

    /// Goes on to the next token. None is read after the end of the text.
    pub fn advance(&mut self) {
        self.next += 1;
    }

    pub fn wrong<A>(&self) -> Read<A> {
        let number = if self.sees(Kind::EndOfText) { 2 } else { 1 };
        Err(Refusal {
            letter: 'Y',
            number,
            at: self.place(),
        })
    }

    pub fn expect(&mut self, kind: Kind) -> Read<u32> {
        if !self.sees(kind) {
            return self.wrong();
        }
        let at = self.place();
        self.advance();
        Ok(at)
    }

    pub fn optional(&mut self, kind: Kind) -> Option<u32> {
        if !self.sees(kind) {
            return None;
        }
        let at = self.place();
        self.advance();
        Some(at)
    }

    /// Opens a level at the next token and reads what is in it.
    pub fn deeper<A>(&mut self, read: impl FnOnce(&mut Self) -> Read<A>) -> Read<A> {
        if self.room == 0 {
            return Err(Refusal {
                letter: 'Y',
                number: 3,
                at: self.place(),
            });
        }
        self.room -= 1;
        let found = read(self)?;
        self.room += 1;
        Ok(found)
    }

    /// One or more items, with this mark between them.
    pub fn separated<A>(
        &mut self,
        mark: Kind,
        read: impl Fn(&mut Self) -> Read<A>,
    ) -> Read<Vec<A>> {
        let mut found = vec![read(self)?];
        while self.sees(mark) {
            self.advance();
            found.push(read(self)?);
        }
        Ok(found)
    }

    /// One or more items, as long as a name is next.
    pub fn named<A>(&mut self, read: impl Fn(&mut Self) -> Read<A>) -> Read<Vec<A>> {
        let mut found = vec![read(self)?];
        while self.sees(Kind::Name) {
            found.push(read(self)?);
        }
        Ok(found)
    }

    pub fn identifier(&mut self) -> Read<Identifier<'t>> {
        let Token { kind, at, length } = self.token();
        if kind != Kind::Name {
            return self.wrong();
        }
        self.advance();
        let from = at as usize;
        Ok(Identifier {
            name: &self.text[from..from + length as usize],
            at,
        })
    }

    pub fn names(&mut self) -> Read<Vec<Identifier<'t>>> {
        self.separated(Kind::Comma, Self::identifier)
    }

    fn negative(&mut self, at: u32) -> Read<Constant<'t>> {
        match self.peek() {
            Kind::Number(value) => {
                self.advance();
                Ok(Constant::Negative { at, value })
            }
            _ => self.wrong(),
        }
    }

    pub fn constant(&mut self) -> Read<Constant<'t>> {
        let at = self.place();
        match self.peek() {
            Kind::Number(value) => {
                self.advance();
                Ok(Constant::Number { at, value })
            }
            Kind::Character(ordinal) => {
                self.advance();
                Ok(Constant::Character { at, ordinal })
            }
            Kind::Name => Ok(Constant::Named(self.identifier()?)),
            Kind::Minus => {
                self.advance();
                self.negative(at)
            }
            _ => self.wrong(),
        }
    }

    pub fn constants(&mut self) -> Read<Vec<Constant<'t>>> {
        self.separated(Kind::Comma, Self::constant)
    }
}
