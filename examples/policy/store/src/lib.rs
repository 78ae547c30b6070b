//! Keeps pages.
