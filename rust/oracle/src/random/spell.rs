//! A random spelling of a document, nested or imperative ("Spelling").

use super::expression::Expression;
use super::rng::Random;
use super::tree::Element;
use crate::bytes::{class, Class};
use crate::Kind;

/// The expressions of one spelling of the document.
pub fn spell(random: &mut Random, document: &Element, imperative: bool) -> Vec<Expression> {
    let brackets = random.pick(&[0, 50, 100]);
    let quotes = random.pick(&[0, 50, 100]);
    let escapes = random.pick(&[0, 0, 20, 100]);
    let mut speller = Speller { random, imperative, brackets, quotes, escapes };
    let mut run = vec![];
    speller.element(document, &mut run);
    run
}

struct Speller<'r> {
    random: &'r mut Random,
    imperative: bool,
    /// How often, in a hundred, brackets are square, atoms quoted, characters escaped.
    brackets: usize,
    quotes: usize,
    escapes: usize,
}

impl Speller<'_> {
    fn element(&mut self, element: &Element, run: &mut Vec<Expression>) {
        if element.kind == Kind::Text {
            return run.push(self.atom(&element.text, true));
        }
        let mut items = vec![Expression::symbol(element.kind.name())];
        let content = self.parameters(element, &mut items);
        if self.imperative && element.kind.is_block() {
            // Imperative, kinds 1 to 7 close before their content, which follows.
            run.push(self.list(items, true));
            self.content(content, run);
        } else {
            self.content(content, &mut items);
            run.push(self.list(items, true));
        }
    }

    fn content(&mut self, content: &[Element], run: &mut Vec<Expression>) {
        content.iter().for_each(|child| self.element(child, run));
    }

    /// The parameters in order; answers the children that are content.
    fn parameters<'e>(&mut self, element: &'e Element, items: &mut Vec<Expression>) -> &'e [Element] {
        let children = &element.children[..];
        let lead = usize::from(element.kind.has_title() || element.kind == Kind::Table);
        self.content(&children[..lead], items);
        let start = items.len();
        self.name(element, items);
        self.size(element, items);
        if !element.class.is_empty() {
            let class = Expression::symbol(&element.class);
            items.push(self.parameter("type", vec![class]));
        }
        // "id?/type?" means either order; a footnote's id comes first.
        let either = element.kind.is_block() && element.kind != Kind::Footnote;
        if either && self.random.chance(50) {
            items[start..].reverse();
        }
        &children[lead..]
    }

    fn name(&mut self, element: &Element, items: &mut Vec<Expression>) {
        if !element.name.is_empty() {
            let lead = if element.kind.is_block() { "id" } else { "target" };
            let value = self.atom(&element.name, false);
            items.push(self.parameter(lead, vec![value]));
        }
    }

    fn size(&mut self, element: &Element, items: &mut Vec<Expression>) {
        if let Some((width, height)) = element.size {
            let measures = [width, height].map(|measure| self.measure(measure)).to_vec();
            items.push(self.parameter("size", measures));
        }
    }

    /// One to five digits, with leading zeros at times.
    fn measure(&mut self, measure: u16) -> Expression {
        let digits = measure.to_string();
        let width = if self.random.chance(60) { 1 } else { self.random.between(digits.len(), 5) };
        Expression::symbol(&format!("{measure:0width$}"))
    }

    fn parameter(&mut self, lead: &str, values: Vec<Expression>) -> Expression {
        let mut items = vec![Expression::symbol(lead)];
        items.extend(values);
        self.list(items, false)
    }

    fn list(&mut self, items: Vec<Expression>, is_node: bool) -> Expression {
        Expression::List { square: self.random.chance(self.brackets), items, is_node }
    }

    /// A symbol of the code points, or a string with them raw or escaped.
    fn atom(&mut self, value: &str, is_node: bool) -> Expression {
        let may_be_symbol = value.bytes().all(|byte| class(byte) == Class::Symbol);
        let spelled = match may_be_symbol && !self.random.chance(self.quotes) {
            true => value.into(),
            false => self.string(value),
        };
        Expression::Atom { spelled, is_node }
    }

    fn string(&mut self, value: &str) -> Vec<u8> {
        let mut spelled = String::from("\"");
        for character in value.chars() {
            let must = matches!(character, '"' | '\\');
            match must || self.random.chance(self.escapes) {
                true => self.escape(character, &mut spelled),
                false => spelled.push(character),
            }
        }
        spelled.push('"');
        spelled.into_bytes()
    }

    fn escape(&mut self, character: char, spelled: &mut String) {
        let short = match character {
            '\r' => "\\r",
            '\n' => "\\n",
            '\t' => "\\t",
            '"' => "\\\"",
            _ => "",
        };
        match character as u32 {
            _ if !short.is_empty() && self.random.chance(50) => spelled.push_str(short),
            // No escape reaches past U+FFFF.
            0x1_0000.. => spelled.push(character),
            code if self.random.chance(50) => spelled.push_str(&format!("\\u{code:04x}")),
            code => spelled.push_str(&format!("\\u{code:04X}")),
        }
    }
}
