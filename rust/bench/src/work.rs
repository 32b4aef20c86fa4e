//! One call over memory that is lent once, so that a call that is measured allocates nothing for its caller.

use crate::case::{Action, Case, Side};
use oracle::names::{MOST_BYTES, MOST_NODES, RECORD_LENGTH};
use structural::{lent, Spelling};

/// Six bytes are the most that a byte of the pool is spelled in, and a node's brackets, names and quotes fit in 80.
const OUT: usize = 6 * MOST_BYTES + 80 * MOST_NODES;

/// A text that has been read, and the memory for reading, checking and printing it.
pub struct Work {
    text: Vec<u8>,
    spelling: Spelling,
    action: Action,
    nodes: Vec<u32>,
    places: Vec<u32>,
    pool: Vec<u8>,
    out: Vec<u8>,
    node_count: u32,
    pool_count: u32,
    printed: usize,
}

impl Work {
    /// Makes all calls over the text of a case, that of the case last; an error if one of them answers what it should not.
    pub fn new(case: Case, side: Side) -> Result<Work, String> {
        let Case { input, spelling, action } = case;
        let mut work = Work::lend(case.text(), spelling);
        let wrong = |call: Action, number| {
            Err(format!("{}: {} by the {} answers {number}", case.words().join(" "), call.name(), side.name()))
        };
        for &call in input.actions() {
            let number = work.turn_to(call).run(side);
            let wanted = if call == Action::Read { input.number() } else { 0 };
            if number != wanted {
                return wrong(call, number);
            }
        }
        work.turn_to(action);
        Ok(work)
    }

    /// The memory, with nothing read into it.
    pub fn lend(text: Vec<u8>, spelling: Spelling) -> Work {
        Work {
            text,
            spelling,
            action: Action::Read,
            nodes: vec![0; MOST_NODES * RECORD_LENGTH],
            places: vec![0; MOST_NODES],
            pool: vec![0; MOST_BYTES],
            out: vec![0; OUT],
            node_count: 0,
            pool_count: 0,
            printed: 0,
        }
    }

    /// The call that is made from now on.
    pub fn turn_to(&mut self, action: Action) -> &mut Work {
        self.action = action;
        self
    }

    /// Bytes that the call goes over: of the spelling printed, or of the text read. The check goes over the table, and has
    /// the bytes of the text that it was read from, so that a read and the check behind it can be summed.
    pub fn bytes(&self) -> usize {
        match self.action {
            Action::Read | Action::Check => self.text.len(),
            Action::Print => self.printed,
        }
    }

    pub fn nodes(&self) -> u32 {
        self.node_count
    }

    /// The node words, the pool and the canonical spelling.
    pub fn results(&self) -> (Vec<u32>, Vec<u8>, Vec<u8>) {
        let nodes = &self.nodes[..self.node_count as usize * RECORD_LENGTH];
        (nodes.to_vec(), self.pool[..self.pool_count as usize].to_vec(), self.out[..self.printed].to_vec())
    }

    /// Makes the call; returns the number answered.
    pub fn run(&mut self, side: Side) -> u32 {
        match (self.action, side) {
            (Action::Read, Side::Archive) => self.read_archive(),
            (Action::Read, Side::Oracle) => self.read_oracle(),
            (Action::Check, Side::Archive) => self.check_archive(),
            (Action::Check, Side::Oracle) => self.check_oracle(),
            (Action::Print, Side::Archive) => self.print_archive(),
            (Action::Print, Side::Oracle) => self.print_oracle(),
        }
    }

    fn read_archive(&mut self) -> u32 {
        let Work { text, spelling, nodes, places, pool, .. } = self;
        let answer = lent::read(text, *spelling, nodes, places, pool);
        self.read(answer.number, answer.nodes, answer.pool)
    }

    fn read_oracle(&mut self) -> u32 {
        let Work { text, spelling, nodes, places, pool, .. } = self;
        let answer = oracle::read(text, *spelling == Spelling::Imperative, nodes, places, pool);
        self.read(answer.number, answer.nodes, answer.pool)
    }

    /// Under 0 alone the counts are those of a table.
    fn read(&mut self, number: u32, nodes: u32, pool: u32) -> u32 {
        (self.node_count, self.pool_count) = if number == 0 { (nodes, pool) } else { (0, 0) };
        number
    }

    fn check_archive(&self) -> u32 {
        lent::check(&self.nodes, self.node_count, &self.pool, self.pool_count).number
    }

    fn check_oracle(&self) -> u32 {
        oracle::check(&self.nodes, self.node_count, &self.pool, self.pool_count).number
    }

    fn print_archive(&mut self) -> u32 {
        let printed = lent::print(&self.nodes, self.node_count, &self.pool, self.pool_count, &mut self.out);
        self.printed = printed.length as usize;
        printed.number
    }

    fn print_oracle(&mut self) -> u32 {
        let printed = oracle::print(&self.nodes, self.node_count, &self.pool, self.pool_count, &mut self.out);
        self.printed = printed.length as usize;
        printed.number
    }
}
