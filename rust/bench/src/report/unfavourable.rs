//! What a call takes over texts that are made to take long, beside an ordinary text of their size.

use super::growth::Ordinary;
use super::{figure, per_byte};
use crate::case::{Action, Case, Side};
use crate::input::Input;
use crate::unfavourable::Unfavourable;
use crate::work::Work;

pub const HEAD: &str = "| text | answer | bytes | nodes | read i/B | ratio | check i/B | ratio | print i/B | ratio |
|---|--:|--:|--:|--:|--:|--:|--:|--:|--:|";

pub fn table(ordinary: &Ordinary) -> Result<(), String> {
    println!("{HEAD}");
    Unfavourable::ALL.into_iter().try_for_each(|shape| row(shape, ordinary))
}

fn row(shape: Unfavourable, ordinary: &Ordinary) -> Result<(), String> {
    let input = Input::Unfavourable(shape);
    let work = Work::new(Case::nested(input, Action::Read), Side::Archive)?;
    let figures: Result<Vec<String>, String> =
        Action::ALL.into_iter().map(|action| figure_and_ratio(input, action, work.bytes(), ordinary)).collect();
    let (name, answer, bytes, nodes) = (shape.name(), shape.number(), work.bytes(), work.nodes());
    println!("| {name} | {answer} | {bytes} | {nodes} | {} |", figures?.join(" | "));
    Ok(())
}

/// Two columns, each `-` where the text is refused before this call or instructions cannot be counted.
fn figure_and_ratio(input: Input, action: Action, bytes: usize, ordinary: &Ordinary) -> Result<String, String> {
    let count = || per_byte(Case::nested(input, action), Side::Archive);
    let counted = if input.actions().contains(&action) { count()? } else { None };
    let ratio = counted.zip(ordinary.highest(action, bytes)).map(|(ours, highest)| ours / highest);
    Ok(format!("{} | {}", figure(counted), figure(ratio)))
}
