//! A transaction of a world's store: what a function does to its connection stands exactly where the finish of its stage does.
use super::bounds::OF_PUTS;
use super::sharing::SharedStore;
use crate::error::StoreError;
use crate::store::{Put, Transaction};
use serde_json::Value;
use std::any::Any;
use std::sync::Arc;

/// Its connection is a list of effects, which come to stand behind those that stand.
pub(super) struct WorldTransaction<'a> {
    shop: &'a Arc<SharedStore>,
    process: u16,
    effects: Vec<Value>,
}

impl<'a> WorldTransaction<'a> {
    pub(super) fn new(shop: &'a Arc<SharedStore>, process: u16) -> WorldTransaction<'a> {
        WorldTransaction { shop, process, effects: Vec::new() }
    }
}

impl Transaction for WorldTransaction<'_> {
    fn connection(&mut self) -> &mut dyn Any {
        &mut self.effects
    }

    /// Puts, and commits: an engine lets nobody see or put anything between the two, so they are one move. No answer means that all of it stands or
    /// nothing, as it does for a commit.
    fn append(&mut self, put: Put<'_>) -> Result<bool, StoreError> {
        let text = format!("commits, and {}", self.shop.rows.put_text(put));
        let effects = std::mem::take(&mut self.effects);
        self.shop.ask_store(self.process, OF_PUTS, text, Some((put, &effects)), || self.shop.commit(put, &effects))
    }

    fn commit(&mut self) -> Result<(), StoreError> {
        Ok(())
    }
}
