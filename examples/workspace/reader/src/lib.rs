//! Reads lines.
