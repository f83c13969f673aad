//! The fixed vectors: what is asked. Every answer comes from the compiled Rust, or from the model over it; a card's from the
//! model of the card.

mod arguments;
mod book;
mod cards;
mod jobs;
mod layer;
mod names;
mod narrowing;
mod numbers;
mod operators;
mod placing;
mod refusals;
mod spoiled;
mod traps;
mod windows;

use book::Book;

/// Every section, in the order of the file.
pub fn all() -> Book {
    let mut book = Book::default();
    book.note(
        "Fixed vectors: made by oracle/src/bin/vectors.rs from the Rust. oracle/README.md has the form of a line.",
    );
    names::put(&mut book);
    narrowing::put(&mut book);
    operators::put(&mut book);
    arguments::put(&mut book);
    placing::put(&mut book);
    windows::put(&mut book);
    traps::put(&mut book);
    refusals::put(&mut book);
    jobs::put(&mut book);
    numbers::put(&mut book);
    cards::put(&mut book);
    spoiled::put(&mut book);
    book
}
