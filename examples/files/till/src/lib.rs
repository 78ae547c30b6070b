//! Counts coins.
