//! Histories: 02 calls a history "a count of instants, and all their inputs in
//! turn".

use crate::answer::Refusal;
use crate::node::Node;
use crate::session;

/// A node, a count of instants and their inputs: as many an instant as the node
/// has, in record order, those of instant 0 first.
#[derive(Clone, Copy, Debug)]
pub struct History<'a> {
    node: &'a Node<'a>,
    instants: usize,
    inputs: &'a [i64],
}

impl<'a> History<'a> {
    /// The history, however long. 02: "a wrong length is 31"; a count of
    /// instants whose product with the inputs wraps has no right length.
    pub fn new(node: &'a Node<'a>, instants: usize, inputs: &'a [i64]) -> Result<Self, Refusal> {
        if instants.checked_mul(node.inputs().len()) != Some(inputs.len()) {
            return Err(Refusal::file(31));
        }
        Ok(History {
            node,
            instants,
            inputs,
        })
    }

    /// The node.
    pub fn node(&self) -> &'a Node<'a> {
        self.node
    }

    /// The count of instants.
    pub fn instants(&self) -> usize {
        self.instants
    }

    /// The inputs of all instants in turn.
    pub fn inputs(&self) -> &'a [i64] {
        self.inputs
    }

    /// Refusal 33 of the earliest instant, which names its lowest record.
    ///
    /// Instants without inputs have nothing to look at and, as there may be any
    /// number of them, are not gone through.
    pub fn check_inputs(&self) -> Result<(), Refusal> {
        let each = self.node.inputs().len().max(1);
        let mut instants = self.inputs.chunks_exact(each);
        instants.try_for_each(|inputs| session::check_inputs(self.node, inputs))
    }
}
