//! Control books for plants with moves withdrawn.
//!
//! A *plant* is a finite transition system: states, moves (actions), goals (sets of states to be met again and again)
//! and arrows (transitions), some states being allowed. A *book* says for each state whether it is kept (in the winning
//! region) or lost, and for a kept state and each goal the move to make and the wait, the least number of moves that
//! forces the goal. Both are bytes; their formats are in the repository's docs/FORMATS.md.
//!
//! A plant may ask in addition that every run *settles*: that from some moment on all its states are settled ones, as
//! their labels say. Its books have *stages*: a kept state of stage 1 needs settled states alone, and one of a later
//! stage passes through fewer states that are not settled than the stage says. See [`Book::stage`].
//!
//! An [`Index`] lists a plant's arrows by where they end. Kept beside the plant, it lets make and withdraw strike
//! states out without reading all arrows again in every round; the books are the same.
//!
//! [`Bands`] turn what a thickness gauge reads into a state of the plant, and a [`Desk`] follows a book from state to
//! state.
//!
//! With the feature `linked`, which is on by default, [`Book`], [`Index`], [`Bands`], [`Desk`] and the functions
//! [`make_into`], [`withdraw_into`], [`withdraw_list_into`], [`return_into`], [`index_into`], [`make_indexed_into`],
//! [`withdraw_indexed_into`], [`preview_into`], [`consult`], [`row`] and [`good_moves`] call the proved library. They
//! take slices, answer a [`Result`] with a [`Refusal`], and need no `unsafe` in the caller's code.
//!
#![cfg_attr(feature = "linked", doc = "```")]
#![cfg_attr(not(feature = "linked"), doc = "```ignore")]
//! use planbook::{Advice, Band, Bands, Book, Desk, End, Index};
//!
//! // Strip plant P: 4 states, 3 moves, 2 goals, 8 arrows.
//! let plant = planbook::plants::strip().bytes();
//! let book = Book::make(&plant, 0b111)?;
//! assert_eq!(book.kept_count(), 3);
//! assert_eq!(book.consult(0, 1)?, Advice::Move { action: 0, wait: 2, seek: 1 });
//! assert_eq!(book.consult(0, 0)?, Advice::Move { action: 0, wait: 2, seek: 1 }); // state 0 is in goal 0: it is passed
//! assert_eq!(book.consult(3, 0)?, Advice::Lost);
//! assert_eq!(book.good_moves(0, 1)?, 0b011); // move 1 is good there, too
//!
//! // A look before a lock-out: to withdraw move 0 would drop all kept states, to withdraw move 2 would drop none.
//! assert_eq!(book.preview(0b001)?.dropped, [0, 1, 2]);
//! assert_eq!(book.preview(0b100)?.kept, 3);
//!
//! // Two lines of a lock-out sheet at once: move 1 goes out of service, then move 2, and no state is dropped.
//! let (rest, dropped) = book.withdraw_list(&[0b010, 0b100])?;
//! assert_eq!((rest.mask(), dropped), (0b001, vec![]));
//!
//! // Move 2 goes out of service: the way from state 1 to goal 0 gets longer, and no state is dropped.
//! let (book, dropped) = book.withdraw(0b100)?;
//! assert_eq!(dropped, []);
//! assert_eq!(book.consult(1, 0)?, Advice::Move { action: 0, wait: 2, seek: 0 });
//!
//! // Move 2 comes back in service: the short way is there again, and no state is gained, since none was lost.
//! let (book, gained) = book.return_moves(0b100)?;
//! assert_eq!((book.mask(), gained), (0b111, vec![]));
//! assert_eq!(book.consult(1, 0)?, Advice::Move { action: 2, wait: 1, seek: 0 });
//!
//! // The plant's arrows by where they end, built once: makings and withdrawals by it come to the same books.
//! let index = Index::of(&plant)?;
//! assert_eq!(Book::make_indexed(&index, 0b111)?, book);
//! assert_eq!(book.withdraw_indexed(&index, 0b001)?, book.withdraw(0b001)?);
//!
//! // A plant that must settle: state 0 has its way to goal 1 over state 1, which is not settled, to state 2.
//! let book = Book::make(&planbook::plants::band().bytes(), 0b11)?;
//! assert_eq!(book.stages().collect::<Vec<_>>(), [Some(2), Some(2), Some(1)]);
//! assert_eq!(book.consult(0, 0)?, Advice::Move { action: 1, wait: 1, seek: 1 });
//!
//! // From the gauge to a state: half a millimetre below the aim or more is state 0, anything else state 1.
//! let bands = Bands::new(&[
//!     Band { lower: End::Open, upper: End::At(-0.5), state: 0 },
//!     Band { lower: End::At(-0.5), upper: End::Open, state: 1 },
//! ]);
//! assert_eq!(bands.place(3, 1.25, 2.0)?, Some(0));
//! assert_eq!(bands.place(3, 1.5, 2.0)?, Some(1));
//!
//! // The desk gives the move, is told the state that followed, and goes on from there.
//! let book = Book::make(&plant, 0b111)?;
//! let desk = Desk::start(&book, 0)?.report(&book, 1)?;
//! assert_eq!(desk.advice(), Advice::Move { action: 0, wait: 1, seek: 1 });
//! # Ok::<(), planbook::Refusal>(())
//! ```
//!
//! The rest of the crate is for checking: [`second`] has solvers, gauges and desks made by other means, [`plants`] generates
//! plants, [`calls`] puts the library and what is made by other means behind the same traits, and [`compare`] holds two
//! of them against each other, byte for byte.

#![warn(missing_docs)]
#![cfg_attr(test, deny(warnings))]

pub mod calls;
pub mod compare;
pub mod plants;
pub mod second;
pub mod sys;

mod refusal;
pub use refusal::Refusal;

#[cfg(feature = "linked")]
mod book;
#[cfg(feature = "linked")]
pub use book::{consult, good_moves, index_into, make_indexed_into, make_into, preview_into, return_into, row};
#[cfg(feature = "linked")]
pub use book::{withdraw_indexed_into, withdraw_into, withdraw_list_into};
#[cfg(feature = "linked")]
pub use book::{Advice, Book, Cost, Entry, Index, Preview, Returned, Withdrawn};
#[cfg(feature = "linked")]
mod desk;
#[cfg(feature = "linked")]
pub use desk::Desk;
#[cfg(feature = "linked")]
mod gauge;
#[cfg(feature = "linked")]
pub use gauge::{Band, Bands, End};
