//! Words as bytes, and trees as JSON.

use czubrotek::{Refusal, binary_json};

/// The bytes of words.
pub fn little_endian(words: &[u32]) -> Vec<u8> {
    words.iter().flat_map(|word| word.to_le_bytes()).collect()
}

pub type Json = Result<String, Refusal>;

pub fn text(text: &[u8]) -> String {
    format!("{:?}", String::from_utf8_lossy(text))
}

pub fn array<V>(items: impl Iterator<Item = Result<V, Refusal>>, tree: fn(V) -> Json) -> Json {
    let items: Result<Vec<_>, _> = items.map(|item| tree(item?)).collect();
    Ok(format!("[{}]", items?.join(",")))
}

pub fn object<'a, V>(
    members: impl Iterator<Item = Result<(&'a [u8], V), Refusal>>,
    tree: fn(V) -> Json,
) -> Json {
    let member = |(key, value)| Ok(format!("{}:{}", text(key), tree(value)?));
    let members: Result<Vec<_>, _> = members.map(|m| m.and_then(member)).collect();
    Ok(format!("{{{}}}", members?.join(",")))
}

/// A BinaryJson tree as JSON.
fn binary_tree(value: binary_json::Value) -> Json {
    use binary_json::Value;
    Ok(match value {
        Value::Null => "null".to_string(),
        Value::Bool(b) => b.to_string(),
        Value::Number(n) => format!("{:?}", n.to_f64()),
        Value::String(string) => text(string),
        Value::Array(items) => array(items.iter(), binary_tree)?,
        Value::Object(members) => object(members.iter(), binary_tree)?,
    })
}

/// What a BinaryJson document means, as JSON.
pub fn binary_means(bytes: &[u8]) -> String {
    let document = binary_json::Document::check(bytes).unwrap();
    binary_tree(document.value().unwrap()).unwrap()
}
