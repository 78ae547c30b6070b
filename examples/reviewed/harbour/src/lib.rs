//! A harbour.
