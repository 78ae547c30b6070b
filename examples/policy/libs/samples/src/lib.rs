//! Samples for tests alone.
