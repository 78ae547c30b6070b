//! What the signs of a map mean.
