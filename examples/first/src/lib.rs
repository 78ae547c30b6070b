//! A small project whose licence terms are checked.

/// Says hello to somebody.
pub fn greeting(name: &str) -> String {
    format!("Hello, {name}!")
}
