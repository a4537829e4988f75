//! Document 01, "The pattern text": the pattern as a tree, and refusals 1 and 6 to 9.
//! The reader goes through the tokens once and stops at the first token that cannot stand where
//! it stands; so the lowest offset is the one refused, and at one offset 6, 7, 8, 9 in this order.

use crate::declarations::Declarations;
use crate::limits::{ASKED_FAIL, ASKED_MATCH, NESTING_LIMIT, POSITION_LIMIT, TEXT_LIMIT};
use crate::refusal::{Refusal, Refused};
use crate::tokens::{tokens, Placed, Token};

/// The number of a node in its pattern.
pub type NodeId = usize;

/// `*` or `+` behind an atom.
#[derive(Clone, Copy, Debug, PartialEq, Eq)]
pub enum Operator {
    Star,
    Plus,
}

/// A node of the tree; children are node numbers.
#[derive(Clone, Debug, PartialEq, Eq)]
pub enum Node {
    /// An event name: the event's number.
    Event(usize),
    /// The empty word.
    Epsilon,
    /// One or more sequences, any of which may be read.
    Alternative(Vec<NodeId>),
    /// One or more repetitions, read side by side.
    Sequence(Vec<NodeId>),
    /// An atom and the operators behind it, the innermost first.
    Repetition(NodeId, Vec<Operator>),
}

/// An accepted pattern text.
#[derive(Clone, Debug, PartialEq, Eq)]
pub struct Pattern {
    pub nodes: Vec<Node>,
    pub root: NodeId,
    /// The verdicts asked for: 1 match, 2 fail, 3 both.
    pub asked: u32,
}

impl Pattern {
    /// The pattern of a text: 1, then the lowest offset of 6 to 9.
    pub fn read(declared: &Declarations, text: &[u8]) -> Result<Pattern, Refused> {
        if text.len() > TEXT_LIMIT {
            return Err(Refusal::TextTooLong.plain());
        }
        let mut reader =
            Reader { declared, tokens: &tokens(text), length: text.len(), nodes: Vec::new(), positions: 0, open: 0 };
        let root = reader.read_front()?;
        let asked = reader.read_handlers()?;
        Ok(Pattern { nodes: reader.nodes, root, asked })
    }
}

struct Reader<'r, 't> {
    declared: &'r Declarations<'r>,
    /// The tokens not yet taken.
    tokens: &'r [Placed<'t>],
    /// The text's length: the offset of what is missing at its end.
    length: usize,
    nodes: Vec<Node>,
    /// Event names taken so far.
    positions: usize,
    /// Parentheses open now.
    open: usize,
}

impl<'r, 't> Reader<'r, 't> {
    fn peek(&self) -> Option<Token<'t>> {
        self.tokens.first().map(|placed| placed.token)
    }

    fn offset(&self) -> usize {
        self.tokens.first().map_or(self.length, |placed| placed.offset)
    }

    fn advance(&mut self) {
        self.tokens = &self.tokens[1..];
    }

    fn wrong<T>(&self) -> Result<T, Refused> {
        Err(Refusal::NotOfTheGrammar.at(self.offset()))
    }

    fn expect(&mut self, token: Token) -> Result<(), Refused> {
        if self.peek() != Some(token) {
            return self.wrong();
        }
        self.advance();
        Ok(())
    }

    fn add(&mut self, node: Node) -> NodeId {
        self.nodes.push(node);
        self.nodes.len() - 1
    }

    /// `ere`, `:` and the pattern.
    fn read_front(&mut self) -> Result<NodeId, Refused> {
        self.expect(Token::Name(b"ere"))?;
        self.expect(Token::Colon)?;
        self.read_alternative()
    }

    /// `@match`, `@fail` or both, each once, in either order, and then nothing.
    fn read_handlers(&mut self) -> Result<u32, Refused> {
        let mut asked = 0;
        loop {
            let handler = match self.peek() {
                None if asked != 0 => return Ok(asked),
                Some(Token::Match) => ASKED_MATCH,
                Some(Token::Fail) => ASKED_FAIL,
                _ => return self.wrong(),
            };
            if asked & handler != 0 {
                return self.wrong();
            }
            asked |= handler;
            self.advance();
        }
    }

    fn read_alternative(&mut self) -> Result<NodeId, Refused> {
        let mut sequences = vec![self.read_sequence()?];
        while self.peek() == Some(Token::Bar) {
            self.advance();
            sequences.push(self.read_sequence()?);
        }
        Ok(self.add(Node::Alternative(sequences)))
    }

    fn read_sequence(&mut self) -> Result<NodeId, Refused> {
        let mut repetitions = vec![self.read_repetition()?];
        while matches!(self.peek(), Some(Token::Name(_) | Token::Open)) {
            repetitions.push(self.read_repetition()?);
        }
        Ok(self.add(Node::Sequence(repetitions)))
    }

    fn read_repetition(&mut self) -> Result<NodeId, Refused> {
        let atom = self.read_atom()?;
        let mut operators = Vec::new();
        loop {
            match self.peek() {
                Some(Token::Star) => operators.push(Operator::Star),
                Some(Token::Plus) => operators.push(Operator::Plus),
                _ => return Ok(self.add(Node::Repetition(atom, operators))),
            }
            self.advance();
        }
    }

    fn read_atom(&mut self) -> Result<NodeId, Refused> {
        match self.peek() {
            Some(Token::Name(b"epsilon")) => {
                self.advance();
                Ok(self.add(Node::Epsilon))
            }
            Some(Token::Name(name)) => self.read_event(name),
            Some(Token::Open) => self.read_parenthesis(),
            _ => self.wrong(),
        }
    }

    fn read_event(&mut self, name: &[u8]) -> Result<NodeId, Refused> {
        let Some(event) = self.declared.event_number(name) else {
            return Err(Refusal::UndeclaredEvent.at(self.offset()));
        };
        if self.positions >= POSITION_LIMIT {
            return Err(Refusal::TooManyPositions.at(self.offset()));
        }
        self.positions += 1;
        self.advance();
        Ok(self.add(Node::Event(event)))
    }

    /// An alternative in parentheses; what stands where `)` is missed is 6.
    fn read_parenthesis(&mut self) -> Result<NodeId, Refused> {
        if self.open >= NESTING_LIMIT {
            return Err(Refusal::NestedTooDeep.at(self.offset()));
        }
        self.open += 1;
        self.advance();
        let inside = self.read_alternative()?;
        self.expect(Token::Close)?;
        self.open -= 1;
        Ok(inside)
    }
}
