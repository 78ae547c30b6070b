//! Serves pages from a store.
