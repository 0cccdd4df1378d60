//! Objects as requests have them: read from their texts, and checked.
use serde_json::{Map, Value};

#[derive(Clone, PartialEq, Eq, PartialOrd, Ord)]
pub struct Key {
    pub kind: u8,
    pub namespace: String,
    pub name: String,
}

/// The kind of pods.
pub const POD: u8 = b'P';

/// An object as it was read. Of its metadata, `body` has what nobody else here has.
pub struct Draft {
    pub key: Key,
    pub uid: Option<String>,
    pub version: Option<String>,
    pub body: Map<String, Value>,
}

/// Why a text is no draft.
#[derive(Debug)]
pub struct Unfit;

fn is_name(name: &str) -> bool {
    let fits = |byte: u8| byte.is_ascii_lowercase() || byte.is_ascii_digit() || byte == b'-' || byte == b'.';
    !name.is_empty() && name.len() <= 253 && name.bytes().all(fits)
}

/// The text of a member; a missing one, `null` and an empty one are none.
fn optional_text(member: Option<Value>) -> Result<Option<String>, Unfit> {
    match member {
        None | Some(Value::Null) => Ok(None),
        Some(Value::String(text)) => Ok((!text.is_empty()).then_some(text)),
        Some(_) => Err(Unfit),
    }
}

fn are_texts(labels: Option<&Value>) -> bool {
    match labels {
        None | Some(Value::Null) => true,
        Some(Value::Object(labels)) => labels.values().all(Value::is_string),
        Some(_) => false,
    }
}

fn are_owners(owners: Option<&Value>) -> bool {
    match owners {
        None | Some(Value::Null) => true,
        Some(Value::Array(owners)) => owners.iter().all(|owner| owner.get("uid").is_some_and(Value::is_string)),
        Some(_) => false,
    }
}

/// The kind, and the metadata to take the rest from.
fn kind_and_metadata(body: &mut Map<String, Value>) -> Result<(u8, &mut Map<String, Value>), Unfit> {
    let kind = match body.get("kind").and_then(Value::as_str) {
        Some("Pod") => POD,
        _ => return Err(Unfit),
    };
    if body.get("apiVersion").is_some_and(|version| version.as_str() != Some("v1")) {
        return Err(Unfit);
    }
    match body.get_mut("metadata") {
        Some(Value::Object(metadata)) => Ok((kind, metadata)),
        _ => Err(Unfit),
    }
}

/// The draft that a text says.
pub fn read_draft(text: &str) -> Result<Draft, Unfit> {
    let Ok(Value::Object(mut body)) = serde_json::from_str::<Value>(text) else {
        return Err(Unfit);
    };
    let (kind, metadata) = kind_and_metadata(&mut body)?;
    if !are_texts(metadata.get("labels")) || !are_owners(metadata.get("ownerReferences")) {
        return Err(Unfit);
    }
    let namespace = optional_text(metadata.remove("namespace"))?.unwrap_or_else(|| "default".to_string());
    let name = optional_text(metadata.remove("name"))?.unwrap_or_default();
    if !is_name(&name) || !is_name(&namespace) {
        return Err(Unfit);
    }
    let uid = optional_text(metadata.remove("uid"))?;
    let version = optional_text(metadata.remove("resourceVersion"))?;
    optional_text(metadata.remove("deletionTimestamp"))?;
    if metadata.remove("generation").is_some_and(|generation| !generation.is_null() && generation.as_u64().is_none()) {
        return Err(Unfit);
    }
    Ok(Draft { key: Key { kind, namespace, name }, uid, version, body })
}
