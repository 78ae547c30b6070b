//! Puts reader and writer together.
