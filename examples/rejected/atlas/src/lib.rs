//! Maps in a book.
