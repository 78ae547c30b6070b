//! The tide.
