//! Pages of text.
