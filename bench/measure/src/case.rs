//! A case: what one row of the benchmark measures.

use bridge::Words;
use session::World;

use crate::limit::Limit;

#[derive(Clone, Debug)]
pub struct Case {
    pub name: &'static str,
    /// What it is asked of, in words: the line's depth, a length, the table's entries.
    pub of: String,
    /// The number among these that grows from row to row, where rows show how cost grows.
    pub size: usize,
    /// What stands before the request.
    pub world: World,
    pub request: Words,
    /// What stands in the buffer.
    pub buffer: Vec<u8>,
    /// The leases that are lent; none where the function without them is called.
    pub leases: Option<Vec<u8>>,
    pub limit: Limit,
}

impl Case {
    /// A granted access, load or dump leaves the table as it was, so that it can be asked again at
    /// once.
    pub fn repeats(&self) -> bool {
        self.is_access() || matches!(self.limit, Limit::Text(_) | Limit::Leases(..))
    }

    pub fn is_access(&self) -> bool {
        matches!(self.limit, Limit::Load(_) | Limit::Store(_))
    }
}
