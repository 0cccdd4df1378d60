//! A yardstick of the running store that keeps objects as texts, printed once, as a write comes in. It judges a write by the
//! texts of `spec`, of `metadata` and of the rest. The store and its replies share the texts.
//!
//!     store_text [WRITES READS]
mod stores;

use serde_json::{Map, Value};
use std::sync::Arc;
use stores::drafts::{Draft, Key};
use stores::store::Kept;

#[derive(Clone)]
struct Printed(Arc<Texts>);

struct Texts {
    key: Key,
    metadata: String,
    spec: Option<String>,
    status: Option<String>,
    /// All other members, with a comma behind each.
    others: String,
}

fn printed(value: &Value) -> String {
    serde_json::to_string(value).expect("a value prints")
}

impl Texts {
    /// The texts of a body, with that status.
    fn of(key: Key, body: &Map<String, Value>, status: Option<String>) -> Texts {
        let mut texts = Texts { key, metadata: String::new(), spec: None, status, others: String::with_capacity(256) };
        for (member, value) in body {
            match member.as_str() {
                "metadata" => texts.metadata = printed(value),
                "spec" => texts.spec = Some(printed(value)),
                "status" => {}
                _ => {
                    texts.others.push('"');
                    texts.others.push_str(member);
                    texts.others.push_str("\":");
                    texts.others.push_str(&printed(value));
                    texts.others.push(',');
                }
            }
        }
        texts.others.shrink_to_fit();
        texts
    }
}

impl Kept for Printed {
    fn created(draft: Draft) -> Printed {
        Printed(Arc::new(Texts::of(draft.key, &draft.body, None)))
    }

    fn updated(&self, draft: Draft) -> Option<(Printed, bool)> {
        let old = &self.0;
        let new = Texts::of(draft.key, &draft.body, old.status.clone());
        let is_respecified = old.spec != new.spec;
        let is_changed = is_respecified || old.metadata != new.metadata || old.others != new.others;
        is_changed.then(|| (Printed(Arc::new(new)), is_respecified))
    }

    fn name(&self) -> &str {
        &self.0.key.name
    }
}

fn main() {
    stores::loads::measure::<Printed>();
}
