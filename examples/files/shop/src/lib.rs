//! Sells things.
