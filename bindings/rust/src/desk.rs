//! The mill desk: follows a book from state to state.

use crate::calls::{Desks, Held, Linked};
use crate::{sys, Advice, Book, Refusal};

/// A desk that follows a book: what it holds, a state and a goal, and what it shows there.
///
/// It is a value: a report gives the next desk, and a refused one leaves the desk that was told as it is. It does not
/// have the book; hand in the same in every call. Or hand in another of the same plant when moves went out of service
/// or came back, and have the desk read it first, see [`Desk::in_book`].
///
/// ```
/// use planbook::{Advice, Book, Desk, Refusal};
///
/// let book = Book::make(&planbook::plants::strip().bytes(), 0b111)?;
/// let desk = Desk::start(&book, 0)?; // state 0 is in goal 0, which is passed
/// assert_eq!(desk.advice(), Advice::Move { action: 0, wait: 2, seek: 1 });
/// assert_eq!(desk.report(&book, 2), Err(Refusal::Report)); // move 0 does not lead there
///
/// let desk = desk.report(&book, 1)?; // and here the desk goes on from state 0
/// assert_eq!(desk.advice(), Advice::Move { action: 0, wait: 1, seek: 1 });
/// let desk = desk.report(&book, 2)?; // goal 1 is met in time
/// assert_eq!(desk.advice(), Advice::Move { action: 0, wait: 1, seek: 0 });
/// assert_eq!((desk.state(), desk.goal()), (2, 0));
/// # Ok::<(), Refusal>(())
/// ```
///
/// For a plant that need not settle and a book that was written for it, by [`Book::make`] and what follows it, both the
/// same throughout: from a kept state on, as long as each report is the end of an arrow of the move shown, no report is
/// refused and no state is lost, each goal is met within the wait shown when it became the one sought, and a goal
/// passed over is met there. Where the wait is 0 all goals are met; the one sought stays, and is sought anew in the
/// next state.
#[derive(Clone, Copy, Debug, PartialEq, Eq, Hash)]
pub struct Desk {
    state: u16,
    goal: u16,
    advice: Advice,
}

impl Desk {
    /// Starts in a state, seeking goal 0. A lost state is held, too, and shown as lost; no report follows it.
    pub fn start(book: &Book, state: u16) -> Result<Desk, Refusal> {
        shown(Linked.start(book.plant(), book.bytes(), state.into()))
    }

    /// The state that followed the move shown: the next desk, or the refusal, with which this one is to be used on.
    pub fn report(&self, book: &Book, state: u16) -> Result<Desk, Refusal> {
        let held = Held { state: self.state.into(), goal: self.goal.into() };
        shown(Linked.report(book.plant(), book.bytes(), held, state.into()))
    }

    /// A desk again from the state and the goal that one held, as they were kept elsewhere.
    ///
    /// ```
    /// use planbook::{Book, Desk, Refusal};
    ///
    /// let book = Book::make(&planbook::plants::strip().bytes(), 0b111)?;
    /// let desk = Desk::start(&book, 0)?.report(&book, 1)?;
    /// assert_eq!(Desk::resume(&book, desk.state(), desk.goal())?, desk);
    /// assert_eq!(Desk::resume(&book, 0, 2), Err(Refusal::OutOfBook));
    /// # Ok::<(), Refusal>(())
    /// ```
    pub fn resume(book: &Book, state: u16, goal: u16) -> Result<Desk, Refusal> {
        book.consult(state, goal).map(|advice| Desk { state, goal, advice })
    }

    /// This desk with what another book of the plant says of the state and the goal held: the move that reports are
    /// then held against.
    ///
    /// ```
    /// use planbook::{Advice, Book, Desk, Refusal};
    ///
    /// let book = Book::make(&planbook::plants::strip().bytes(), 0b111)?;
    /// let desk = Desk::resume(&book, 1, 0)?;
    /// assert_eq!(desk.advice(), Advice::Move { action: 2, wait: 1, seek: 0 });
    /// let (book, _) = book.withdraw(0b100)?; // move 2 goes out of service
    /// let desk = desk.in_book(&book)?;
    /// assert_eq!(desk.advice(), Advice::Move { action: 0, wait: 2, seek: 0 });
    /// # Ok::<(), Refusal>(())
    /// ```
    pub fn in_book(&self, book: &Book) -> Result<Desk, Refusal> {
        Desk::resume(book, self.state, self.goal)
    }

    /// What to do in the state held.
    pub fn advice(&self) -> Advice {
        self.advice
    }

    /// The state held: the one started in or reported last.
    pub fn state(&self) -> u16 {
        self.state
    }

    /// The goal held: the one arrived at, or in a lost state the one sought.
    pub fn goal(&self) -> u16 {
        self.goal
    }
}

/// The desk of an answer.
fn shown(answer: sys::Desk) -> Result<Desk, Refusal> {
    let sys::Desk { number, lost, action, wait, seek, state, goal } = answer;
    let advice = match lost {
        0 => Advice::Move { action: action as u16, wait: wait as u16, seek: seek as u16 },
        _ => Advice::Lost,
    };
    match number {
        0 => Ok(Desk { state: state as u16, goal: goal as u16, advice }),
        _ => Err(Refusal::from_number(number)),
    }
}
