//! Expressions as they are spelled, and their text with random white space.

use super::rng::Random;
use crate::bytes::{class, Class};

#[derive(Clone, Debug)]
pub enum Expression {
    /// A symbol, or a string with its quotes.
    Atom {
        spelled: Vec<u8>,
        is_node: bool,
    },
    List {
        square: bool,
        items: Vec<Expression>,
        is_node: bool,
    },
}

impl Expression {
    pub fn symbol(name: &str) -> Self {
        Expression::Atom { spelled: name.into(), is_node: false }
    }
}

/// How much white space stands between pieces.
#[derive(Clone, Copy)]
enum Style {
    /// None but between two symbols.
    Tight,
    Spaced,
    Wild,
}

/// The text of a run of expressions, and the place of each that is a node.
pub fn render(random: &mut Random, run: &[Expression]) -> (Vec<u8>, Vec<u32>) {
    let style = random.pick(&[Style::Tight, Style::Spaced, Style::Wild]);
    let mut renderer = Renderer { random, style, text: vec![], places: vec![], after_symbol: false };
    renderer.run(run);
    renderer.blank();
    (renderer.text, renderer.places)
}

struct Renderer<'r> {
    random: &'r mut Random,
    style: Style,
    text: Vec<u8>,
    places: Vec<u32>,
    after_symbol: bool,
}

impl Renderer<'_> {
    fn run(&mut self, run: &[Expression]) {
        run.iter().for_each(|expression| self.expression(expression));
    }

    fn expression(&mut self, expression: &Expression) {
        match expression {
            Expression::Atom { spelled, is_node } => {
                let symbol = spelled.first().is_some_and(|&byte| class(byte) == Class::Symbol);
                self.before(symbol);
                self.place(*is_node);
                self.text.extend(spelled);
                self.after_symbol = symbol;
            }
            Expression::List { square, items, is_node } => {
                self.before(false);
                self.place(*is_node);
                self.bracket(if *square { b'[' } else { b'(' });
                self.run(items);
                self.blank_before_close();
                self.bracket(if *square { b']' } else { b')' });
            }
        }
    }

    fn bracket(&mut self, bracket: u8) {
        self.text.push(bracket);
        self.after_symbol = false;
    }

    fn place(&mut self, is_node: bool) {
        if is_node {
            self.places.push(self.text.len() as u32);
        }
    }

    /// White space is needed only between two symbols.
    fn before(&mut self, symbol: bool) {
        let start = self.text.len();
        match self.style {
            Style::Tight => {}
            Style::Spaced if matches!(self.text.last(), None | Some(b'(' | b'[')) => {}
            Style::Spaced => self.text.push(b' '),
            Style::Wild => self.blank(),
        }
        while symbol && self.after_symbol && self.text.len() == start {
            self.blank_of(1);
        }
    }

    fn blank_before_close(&mut self) {
        if matches!(self.style, Style::Wild) {
            self.blank();
        }
    }

    fn blank(&mut self) {
        let count = self.random.few(3);
        self.blank_of(count);
    }

    fn blank_of(&mut self, count: usize) {
        for _ in 0..count {
            let blank: &[u8] = self.random.pick(&[&b" "[..], b"\n", b"\t", b"\r\n"]);
            self.text.extend(blank);
        }
    }
}
