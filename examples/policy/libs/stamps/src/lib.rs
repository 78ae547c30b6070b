//! Stamps that are made while a crate is built.
