//! Texts that are read with answer 0 or refused like any other, and made so that a call takes long over them.

mod frame;
mod ids;
mod refused;
mod shapes;
mod slot;

use structural::number;

#[derive(Clone, Copy, PartialEq, Eq)]
pub enum Unfavourable {
    /// Ids that all share a slot of the check's index.
    OneSlot,
    /// Ids that differ only behind a long beginning.
    LongPrefix,
    /// Both at once.
    OneSlotLongPrefix,
    /// As many links as nodes allow, to one id.
    OneTarget,
    /// A table with a head and rows of over a thousand cells.
    WideRows,
    /// Lists to the 64th level, with next to no text.
    DeepLists,
    /// Strings of escapes alone.
    Escapes,
    /// As many symbols of a letter as nodes allow.
    Letters,
    /// Symbols of a letter alone, more than nodes allow.
    MoreLetters,
    /// Brackets and symbols of a letter alone, so that every token is a byte.
    Brackets,
    /// A fault of the rules at the end.
    AtItsEnd,
}

impl Unfavourable {
    pub const ALL: [Unfavourable; 11] = [
        Unfavourable::OneSlot,
        Unfavourable::LongPrefix,
        Unfavourable::OneSlotLongPrefix,
        Unfavourable::OneTarget,
        Unfavourable::WideRows,
        Unfavourable::DeepLists,
        Unfavourable::Escapes,
        Unfavourable::Letters,
        Unfavourable::MoreLetters,
        Unfavourable::Brackets,
        Unfavourable::AtItsEnd,
    ];

    pub fn name(self) -> &'static str {
        match self {
            Unfavourable::OneSlot => "one-slot",
            Unfavourable::LongPrefix => "long-prefix",
            Unfavourable::OneSlotLongPrefix => "one-slot-long-prefix",
            Unfavourable::OneTarget => "one-target",
            Unfavourable::WideRows => "wide-rows",
            Unfavourable::DeepLists => "deep-lists",
            Unfavourable::Escapes => "escapes",
            Unfavourable::Letters => "letters",
            Unfavourable::MoreLetters => "more-letters",
            Unfavourable::Brackets => "brackets",
            Unfavourable::AtItsEnd => "at-its-end",
        }
    }

    pub fn text(self) -> String {
        match self {
            Unfavourable::OneSlot => ids::one_slot(),
            Unfavourable::LongPrefix => ids::long_prefix(),
            Unfavourable::OneSlotLongPrefix => ids::one_slot_long_prefix(),
            Unfavourable::OneTarget => shapes::one_target(),
            Unfavourable::WideRows => shapes::wide_rows(),
            Unfavourable::DeepLists => shapes::deep_lists(),
            Unfavourable::Escapes => shapes::escapes(),
            Unfavourable::Letters => shapes::letters(),
            Unfavourable::MoreLetters => refused::more_letters(),
            Unfavourable::Brackets => refused::brackets(),
            Unfavourable::AtItsEnd => refused::at_its_end(),
        }
    }

    /// What reading it answers.
    pub fn number(self) -> u32 {
        match self {
            Unfavourable::MoreLetters => number::NODES_SHORT,
            Unfavourable::Brackets | Unfavourable::AtItsEnd => number::NOT_ALLOWED,
            _ => number::OK,
        }
    }
}

#[cfg(test)]
mod tests {
    use super::*;
    use crate::case::{Action, Case, Side};
    use crate::input::Input;
    use crate::work::Work;
    use oracle::names::MOST_NODES;

    fn nodes(shape: Unfavourable) -> usize {
        let work = Work::new(Case::nested(Input::Unfavourable(shape), Action::Read), Side::Archive);
        work.unwrap_or_else(|error| panic!("{error}")).nodes() as usize
    }

    /// Each goes to a limit: 64 KiB, or 4,096 nodes less what one more piece has.
    #[test]
    fn as_much_as_the_limits_allow() {
        for shape in Unfavourable::ALL {
            let (bytes, count) = (shape.text().len(), nodes(shape));
            let name = shape.name();
            assert!(
                bytes <= 65_536 && (bytes > 64_700 || count > MOST_NODES - 62),
                "{name}: {bytes} bytes, {count} nodes"
            );
        }
    }

    /// In 64 KiB.
    #[test]
    fn counts() {
        assert_eq!(nodes(Unfavourable::OneSlot), 4 + 3_275);
        assert_eq!(nodes(Unfavourable::OneTarget), 4_096);
        assert_eq!(nodes(Unfavourable::Letters), 4_096);
    }
}
