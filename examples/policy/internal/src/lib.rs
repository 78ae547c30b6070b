//! Is published nowhere.
