//! A map on a ball.
