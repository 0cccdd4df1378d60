//! A yardstick of the running store that keeps objects as trees of `serde_json`. The store and its replies share a tree.
//!
//!     store_fair [WRITES READS]
mod stores;

use serde_json::{Map, Value};
use std::sync::Arc;
use stores::drafts::{Draft, Key};
use stores::store::Kept;

#[derive(Clone)]
struct Shared {
    key: Key,
    body: Arc<Map<String, Value>>,
}

impl Kept for Shared {
    fn created(draft: Draft) -> Shared {
        let mut body = draft.body;
        body.remove("status");
        Shared { key: draft.key, body: Arc::new(body) }
    }

    fn updated(&self, draft: Draft) -> Option<(Shared, bool)> {
        let mut body = draft.body;
        match self.body.get("status") {
            Some(status) => body.insert("status".to_string(), status.clone()),
            None => body.remove("status"),
        };
        let is_respecified = self.body.get("spec") != body.get("spec");
        (*self.body != body).then(|| (Shared { key: draft.key, body: Arc::new(body) }, is_respecified))
    }

    fn name(&self) -> &str {
        &self.key.name
    }
}

fn main() {
    stores::loads::measure::<Shared>();
}
