//! Shows how fast the engine turns.
