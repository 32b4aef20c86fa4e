//! A fault as a number with its place ("Numbers answered").

/// A refusal and the byte it is found at.
#[derive(Clone, Copy, PartialEq, Eq, Debug)]
pub struct Fault {
    pub number: u32,
    pub place: usize,
}

pub fn fault<T>(number: u32, place: usize) -> Result<T, Fault> {
    Err(Fault { number, place })
}
