//! The safe wrapper: the eleven calls over slices, and a book and an index that own their bytes.

use std::sync::Arc;

use crate::calls::{mask_bytes, Calls, Linked};
use crate::sys::{Answer, LONGEST_BOOK, LONGEST_INDEX, LONGEST_LIST};
use crate::Refusal;

/// Both places of an entry of a lost state, and its stage.
const LOST: u16 = u16::MAX;

/// What a book says for a state and the goal sought.
///
/// Every goal that the state serves, that is, every goal at wait 0, is passed, from the one sought on in turn, after
/// the last the first, until one that it does not serve: the goal arrived at. If the state serves all, the one sought
/// stays.
#[derive(Clone, Copy, Debug, PartialEq, Eq, Hash)]
pub enum Advice {
    /// The state is lost.
    Lost,
    /// The state is kept.
    Move {
        /// The move to make for the goal arrived at.
        action: u16,
        /// At most so many moves until the goal arrived at is met; 0 exactly if the state serves all goals. In a book
        /// with stages, until that goal is met or an earlier stage is entered or can be by the next move.
        wait: u16,
        /// The goal arrived at: the one to seek, now and after the move.
        seek: u16,
    },
}

/// What an accepted withdrawal, or list of withdrawals, wrote.
#[derive(Clone, Copy, Debug, PartialEq, Eq)]
pub struct Withdrawn {
    /// How many bytes of the book buffer are the new book.
    pub length: usize,
    /// How many two-byte numbers of the drop buffer are the states dropped, by rising number.
    pub drops: usize,
}

/// What an accepted return wrote.
#[derive(Clone, Copy, Debug, PartialEq, Eq)]
pub struct Returned {
    /// How many bytes of the book buffer are the new book.
    pub length: usize,
    /// How many two-byte numbers of the buffer for the list are the states gained, by rising number.
    pub gained: usize,
}

/// What a withdrawal would cost.
#[derive(Clone, Copy, Debug, PartialEq, Eq)]
pub struct Cost {
    /// How many two-byte numbers of the drop buffer are the states that would be dropped, by rising number.
    pub drops: usize,
    /// How many states would be kept.
    pub kept: usize,
}

/// What a withdrawal from a [`Book`] would cost.
#[derive(Clone, Debug, PartialEq, Eq)]
pub struct Preview {
    /// The states that would be dropped, by rising number.
    pub dropped: Vec<u16>,
    /// How many states would be kept.
    pub kept: u16,
}

/// An entry of a kept state's row.
#[derive(Clone, Copy, Debug, PartialEq, Eq, Hash)]
pub struct Entry {
    /// The least number of moves that forces the goal; 0 if the state is in it. In a book with stages, the least number
    /// that forces, through no later stage, the goal, an earlier stage or a state that has a move wholly into earlier
    /// ones; 0 for every goal in such a state.
    pub wait: u16,
    /// The move to make.
    pub action: u16,
}

fn accepted(number: u32) -> Result<(), Refusal> {
    match number {
        0 => Ok(()),
        _ => Err(Refusal::from_number(number)),
    }
}

fn written(answer: Answer) -> Result<Withdrawn, Refusal> {
    accepted(answer.number)?;
    Ok(Withdrawn { length: answer.length as usize, drops: answer.drops as usize })
}

/// Writes the book of `plant` with the moves of `mask` in service to the start of `book`, and answers its length: 16 +
/// 4SN bytes, and 2S more for a plant that must settle. A refused call writes nothing.
///
/// ```
/// let plant = planbook::plants::strip().bytes();
/// let mut book = [0; 48];
/// assert_eq!(planbook::make_into(&plant, 0b111, &mut book), Ok(48));
/// assert_eq!(planbook::make_into(&plant, 0b111, &mut book[..47]), Err(planbook::Refusal::Buffer));
/// ```
pub fn make_into(plant: &[u8], mask: u32, book: &mut [u8]) -> Result<usize, Refusal> {
    written(Linked.make(plant, mask, book)).map(|written| written.length)
}

/// Writes `book` without the moves of `mask` to the start of `out`, and the states that this drops to the start of
/// `drops`, by rising number, as little-endian two-byte numbers. Bytes past them stay. A refused call writes nothing.
///
/// ```
/// let plant = planbook::plants::strip().bytes();
/// let (mut book, mut out, mut drops) = ([0; 48], [0; 48], [9; 8]);
/// planbook::make_into(&plant, 0b111, &mut book)?;
/// let written = planbook::withdraw_into(&plant, &book, 0b001, &mut out, &mut drops)?;
/// assert_eq!((written.length, written.drops), (48, 3));
/// assert_eq!(drops, [0, 0, 1, 0, 2, 0, 9, 9]); // states 0, 1 and 2, and what stood past them
/// # Ok::<(), planbook::Refusal>(())
/// ```
pub fn withdraw_into(
    plant: &[u8],
    book: &[u8],
    mask: u32,
    out: &mut [u8],
    drops: &mut [u8],
) -> Result<Withdrawn, Refusal> {
    written(Linked.withdraw(plant, book, mask, out, drops))
}

/// Withdraws the moves of each of the masks in turn, each time from the book of the one before: writes the last book to
/// the start of `out`, and the states kept in `book` and lost in the last one to the start of `drops`, just as
/// [`withdraw_into`] does. The masks are 16 at most, and none at all act as one mask of 0. Bytes past what is written
/// stay. A refused call writes nothing, and one mask that names a move which the plant does not have refuses them all.
///
/// ```
/// let plant = planbook::plants::strip().bytes();
/// let (mut book, mut out, mut drops) = ([0; 48], [0; 48], [9; 8]);
/// planbook::make_into(&plant, 0b111, &mut book)?;
/// let written = planbook::withdraw_list_into(&plant, &book, &[0b100, 0b001], &mut out, &mut drops)?;
/// assert_eq!((written.length, written.drops), (48, 3));
/// assert_eq!(drops, [0, 0, 1, 0, 2, 0, 9, 9]); // states 0, 1 and 2, and what stood past them
/// let refused = planbook::withdraw_list_into(&plant, &book, &[0; 17], &mut out, &mut drops);
/// assert_eq!(refused, Err(planbook::Refusal::MaskList));
/// # Ok::<(), planbook::Refusal>(())
/// ```
pub fn withdraw_list_into(
    plant: &[u8],
    book: &[u8],
    masks: &[u32],
    out: &mut [u8],
    drops: &mut [u8],
) -> Result<Withdrawn, Refusal> {
    written(Linked.withdraw_list(plant, book, &mask_bytes(masks), out, drops))
}

/// Puts the moves of `mask` back in service: writes to the start of `out` the book that [`make_into`] writes for the
/// moves in service in `book` together with these, and to the start of `gained` the states kept in that one and lost in
/// `book`, by rising number, as little-endian two-byte numbers. Naming a move that is in service already has no effect.
/// Of `book` nothing but its moves in service counts for the new book, and nothing but its kept states for the list.
/// The buffers must be as long as for [`withdraw_into`]. Bytes past what is written stay. A refused call writes
/// nothing.
///
/// ```
/// let plant = planbook::plants::strip().bytes();
/// let (mut book, mut out, mut gained) = ([0; 48], [0; 48], [9; 8]);
/// planbook::make_into(&plant, 0b110, &mut book)?; // without move 0 all is lost
/// let written = planbook::return_into(&plant, &book, 0b001, &mut out, &mut gained)?;
/// assert_eq!((written.length, written.gained), (48, 3));
/// assert_eq!(gained, [0, 0, 1, 0, 2, 0, 9, 9]); // states 0, 1 and 2, and what stood past them
/// planbook::make_into(&plant, 0b111, &mut book)?;
/// assert_eq!(out, book);
/// # Ok::<(), planbook::Refusal>(())
/// ```
pub fn return_into(
    plant: &[u8],
    book: &[u8],
    mask: u32,
    out: &mut [u8],
    gained: &mut [u8],
) -> Result<Returned, Refusal> {
    let Withdrawn { length, drops: gained } = written(Linked.return_moves(plant, book, mask, out, gained))?;
    Ok(Returned { length, gained })
}

/// Writes the index of `plant` to the start of `index`, and answers its length, 8 + 2E bytes: a header of S, E, 8 and
/// that length, and the numbers of all arrows, from 0 on, by the state they end in and then by number, as little-endian
/// two-byte numbers. It is good for this plant alone, whichever moves are in service. A refused call writes nothing.
///
/// ```
/// let plant = planbook::plants::strip().bytes();
/// let mut index = [0; 24];
/// assert_eq!(planbook::index_into(&plant, &mut index), Ok(24));
/// let numbers: Vec<u8> = index.chunks(2).map(|number| number[0]).collect();
/// assert_eq!(numbers, [4, 8, 8, 24, 5, 6, 0, 1, 7, 2, 3, 4]); // arrows 5 and 6 end in state 0
/// assert_eq!(planbook::index_into(&plant, &mut index[..23]), Err(planbook::Refusal::Buffer));
/// ```
pub fn index_into(plant: &[u8], index: &mut [u8]) -> Result<usize, Refusal> {
    written(Linked.index(plant, index)).map(|written| written.length)
}

/// Writes what [`make_into`] does, by the plant's index: each state that is struck out is looked at once, with the
/// arrows that end in it. An index that is not exactly the plant's is refused.
///
/// ```
/// let plant = planbook::plants::strip().bytes();
/// let (mut index, mut book, mut plain) = ([0; 24], [0; 48], [0; 48]);
/// planbook::index_into(&plant, &mut index)?;
/// assert_eq!(planbook::make_indexed_into(&plant, &index, 0b111, &mut book)?, 48);
/// planbook::make_into(&plant, 0b111, &mut plain)?;
/// assert_eq!(book, plain);
/// assert_eq!(planbook::make_indexed_into(&plant, &index[..23], 0b111, &mut book), Err(planbook::Refusal::Index));
/// # Ok::<(), planbook::Refusal>(())
/// ```
pub fn make_indexed_into(plant: &[u8], index: &[u8], mask: u32, book: &mut [u8]) -> Result<usize, Refusal> {
    written(Linked.make_indexed(plant, index, mask, book)).map(|written| written.length)
}

/// Writes what [`withdraw_into`] does, by the plant's index. An index that is not exactly the plant's is refused.
///
/// ```
/// let plant = planbook::plants::strip().bytes();
/// let (mut index, mut book, mut out, mut drops) = ([0; 24], [0; 48], [0; 48], [9; 8]);
/// planbook::index_into(&plant, &mut index)?;
/// planbook::make_indexed_into(&plant, &index, 0b111, &mut book)?;
/// let written = planbook::withdraw_indexed_into(&plant, &index, &book, 0b001, &mut out, &mut drops)?;
/// assert_eq!((written.length, written.drops), (48, 3));
/// assert_eq!(drops, [0, 0, 1, 0, 2, 0, 9, 9]); // states 0, 1 and 2, and what stood past them
/// # Ok::<(), planbook::Refusal>(())
/// ```
pub fn withdraw_indexed_into(
    plant: &[u8],
    index: &[u8],
    book: &[u8],
    mask: u32,
    out: &mut [u8],
    drops: &mut [u8],
) -> Result<Withdrawn, Refusal> {
    written(Linked.withdraw_indexed(plant, index, book, mask, out, drops))
}

/// What it would cost to withdraw the moves of `mask` from `book`: writes the states that this would drop to the start
/// of `drops`, just as [`withdraw_into`] would, and counts those that would be kept. No book is written, and no room
/// for one is needed. Bytes past the list stay. A refused call writes nothing.
///
/// ```
/// let plant = planbook::plants::strip().bytes();
/// let (mut book, mut drops) = ([0; 48], [9; 8]);
/// planbook::make_into(&plant, 0b111, &mut book)?;
/// let cost = planbook::preview_into(&plant, &book, 0b001, &mut drops)?;
/// assert_eq!((cost.drops, cost.kept), (3, 0));
/// assert_eq!(drops, [0, 0, 1, 0, 2, 0, 9, 9]); // states 0, 1 and 2, and what stood past them
/// assert_eq!(planbook::preview_into(&plant, &book, 0b001, &mut drops[..7]), Err(planbook::Refusal::Buffer));
/// # Ok::<(), planbook::Refusal>(())
/// ```
pub fn preview_into(plant: &[u8], book: &[u8], mask: u32, drops: &mut [u8]) -> Result<Cost, Refusal> {
    let answer = Linked.preview(plant, book, mask, drops);
    accepted(answer.number)?;
    Ok(Cost { drops: answer.drops as usize, kept: answer.kept as usize })
}

/// What the book says for a state and the goal sought, when the goals that the state serves are passed: see [`Advice`].
///
/// In a book that make, withdraw or return wrote for the plant, all goals are met again and again if the goal that it
/// says to seek is the one sought in the next state. If the plant must settle, the stage never rises besides, and fewer
/// states on the way are not settled than the first one's stage says. A state that leaves its stage serves all goals,
/// whether it is in them or not. Books with and without stages are read alike.
///
/// ```
/// use planbook::Advice;
///
/// let plant = planbook::plants::strip().bytes();
/// let mut book = [0; 48];
/// planbook::make_into(&plant, 0b111, &mut book)?;
/// assert_eq!(planbook::consult(&book, 2, 1)?, Advice::Move { action: 0, wait: 1, seek: 0 }); // goal 1 is passed
/// assert_eq!(planbook::consult(&book, 3, 1)?, Advice::Lost);
/// # Ok::<(), planbook::Refusal>(())
/// ```
pub fn consult(book: &[u8], state: u32, goal: u32) -> Result<Advice, Refusal> {
    let advice = Linked.consult(book, state, goal);
    accepted(advice.number)?;
    match advice.lost {
        0 => Ok(Advice::Move { action: advice.action as u16, wait: advice.wait as u16, seek: advice.seek as u16 }),
        _ => Ok(Advice::Lost),
    }
}

/// The state's row, as the part of the book lent: for each goal the wait and the move, as two-byte numbers; in a book
/// with stages the stage before them. A lost state has 65,535 in all these places.
///
/// ```
/// let plant = planbook::plants::strip().bytes();
/// let mut book = [0; 48];
/// planbook::make_into(&plant, 0b111, &mut book)?;
/// assert_eq!(planbook::row(&book, 1)?, [1, 0, 2, 0, 1, 0, 0, 0]);
/// assert_eq!(planbook::row(&book, 4), Err(planbook::Refusal::OutOfBook));
///
/// let plant = planbook::plants::band().bytes(); // it must settle, so that its rows open with a stage
/// let mut book = [0; 46];
/// planbook::make_into(&plant, 0b11, &mut book)?;
/// assert_eq!(planbook::row(&book, 0)?, [2, 0, 0, 0, 0, 0, 1, 0, 1, 0]);
/// # Ok::<(), planbook::Refusal>(())
/// ```
pub fn row(book: &[u8], state: u32) -> Result<&[u8], Refusal> {
    let part = Linked.row(book, state);
    accepted(part.number)?;
    let start = part.start as usize;
    Ok(&book[start..start + part.length as usize])
}

/// Every good move in a state when a goal is sought, as a mask (bit u is move u): the moves in service in the book that
/// have an arrow there and all of whose arrows end in states that the book keeps and, above wait 0, with a smaller wait
/// for the goal arrived at, which is the one that [`consult`] says to seek. A lost state has none.
///
/// In a book with stages a smaller wait counts in the state's own stage, and no arrow may end in a later one; in an
/// earlier one any wait will do. If there are moves all of whose arrows end in earlier stages, these alone are good.
///
/// In a book that make, withdraw or return wrote for this plant a kept state has at least one, the lowest is the one
/// that consult gives, and any pick, made anew at each step for the goal that consult says to seek, keeps what the book
/// promises. A book that came about otherwise is read as it stands, and there a kept state may have none.
///
/// ```
/// let plant = planbook::plants::strip().bytes();
/// let mut book = [0; 48];
/// planbook::make_into(&plant, 0b111, &mut book)?;
/// assert_eq!(planbook::good_moves(&plant, &book, 2, 1)?, 0b001); // in goal 1, so that goal 0 is arrived at
/// assert_eq!(planbook::good_moves(&plant, &book, 1, 0)?, 0b100); // move 0 comes no nearer, and move 1 leads to state 3
/// assert_eq!(planbook::good_moves(&plant, &book, 3, 0)?, 0); // lost
/// assert_eq!(planbook::good_moves(&plant, &book, 4, 0), Err(planbook::Refusal::OutOfBook));
///
/// let plant = planbook::plants::band().bytes();
/// let mut book = [0; 46];
/// planbook::make_into(&plant, 0b11, &mut book)?;
/// assert_eq!(planbook::good_moves(&plant, &book, 1, 0)?, 0b01); // move 0 leaves the stage, and move 1 does not
/// # Ok::<(), planbook::Refusal>(())
/// ```
pub fn good_moves(plant: &[u8], book: &[u8], state: u32, goal: u32) -> Result<u32, Refusal> {
    let answer = Linked.moves(plant, book, state, goal);
    accepted(answer.number)?;
    Ok(answer.mask)
}

/// The index of a plant: its arrows by where they end. It holds its own bytes and the plant's, which all books that are
/// made by it share. Build it once for a plant, and make and withdraw by it as often as wanted; another plant, or the
/// same with an arrow more or less, needs another.
///
/// ```
/// use planbook::{Book, Index};
///
/// let plant = planbook::plants::strip().bytes();
/// let index = Index::of(&plant)?;
/// let book = Book::make_indexed(&index, 0b111)?;
/// assert_eq!(book, Book::make(&plant, 0b111)?); // the same book, byte for byte
/// assert_eq!(book.withdraw_indexed(&index, 0b001)?, book.withdraw(0b001)?);
/// # Ok::<(), planbook::Refusal>(())
/// ```
#[derive(Clone, Debug, PartialEq, Eq)]
pub struct Index {
    plant: Arc<[u8]>,
    bytes: Vec<u8>,
}

impl Index {
    /// Builds the index of a plant.
    pub fn of(plant: &[u8]) -> Result<Index, Refusal> {
        let mut bytes = vec![0; LONGEST_INDEX];
        let length = index_into(plant, &mut bytes)?;
        bytes.truncate(length);
        Ok(Index { plant: plant.into(), bytes })
    }

    /// An index from bytes that were kept elsewhere, if they are exactly those of the plant's index.
    ///
    /// ```
    /// use planbook::{Index, Refusal};
    ///
    /// let plant = planbook::plants::strip().bytes();
    /// let index = Index::of(&plant)?;
    /// assert_eq!(Index::from_bytes(&plant, index.bytes())?, index);
    /// let another = planbook::plants::band().bytes();
    /// assert_eq!(Index::from_bytes(&another, index.bytes()), Err(Refusal::Index));
    /// # Ok::<(), Refusal>(())
    /// ```
    pub fn from_bytes(plant: &[u8], bytes: &[u8]) -> Result<Index, Refusal> {
        // A making without room for a book checks plant and index, and solves nothing.
        match make_indexed_into(plant, bytes, 0, &mut []) {
            Err(Refusal::Buffer) => Ok(Index { plant: plant.into(), bytes: bytes.into() }),
            Err(refusal) => Err(refusal),
            Ok(_) => unreachable!("no book has 0 bytes"),
        }
    }

    /// The index's bytes.
    pub fn bytes(&self) -> &[u8] {
        &self.bytes
    }

    /// The bytes of the plant that the index is for.
    pub fn plant(&self) -> &[u8] {
        &self.plant
    }
}

/// A book that make, withdraw or return wrote for a plant; it holds its own bytes and the plant's, which all books that
/// come of it share.
///
/// ```
/// use planbook::Book;
///
/// let plant = planbook::plants::strip().bytes();
/// let book = Book::make(&plant, 0b111)?;
/// assert_eq!((book.states(), book.moves(), book.goals(), book.mask()), (4, 3, 2, 0b111));
///
/// let waits: Vec<_> = book.rows().map(|row| row.map(|entries| entries.map(|entry| entry.wait).collect())).collect();
/// assert_eq!(waits, [Some(vec![0, 2]), Some(vec![1, 1]), Some(vec![1, 0]), None]);
///
/// let (rest, dropped) = book.withdraw(0b001)?;
/// assert_eq!(rest.kept_count(), 0);
/// assert_eq!(dropped, [0, 1, 2]);
/// assert_eq!(rest.return_moves(0b001)?, (book, dropped)); // all are back
/// # Ok::<(), planbook::Refusal>(())
/// ```
///
/// The book of a plant that must settle has stages, see [`Book::stage`]; for one that need not it has none.
#[derive(Clone, Debug, PartialEq, Eq)]
pub struct Book {
    plant: Arc<[u8]>,
    bytes: Vec<u8>,
}

impl Book {
    /// The book of a plant with the moves of `mask` in service (bit u is move u).
    pub fn make(plant: &[u8], mask: u32) -> Result<Book, Refusal> {
        let mut bytes = vec![0; LONGEST_BOOK];
        let length = make_into(plant, mask, &mut bytes)?;
        bytes.truncate(length);
        Ok(Book { plant: plant.into(), bytes })
    }

    /// The book that [`Book::make`] makes, by the index of a plant.
    pub fn make_indexed(index: &Index, mask: u32) -> Result<Book, Refusal> {
        let mut bytes = vec![0; LONGEST_BOOK];
        let length = make_indexed_into(&index.plant, &index.bytes, mask, &mut bytes)?;
        bytes.truncate(length);
        Ok(Book { plant: index.plant.clone(), bytes })
    }

    /// A book from bytes that were kept elsewhere, if the library accepts them as a book for the plant, which has stages
    /// exactly if the plant must settle. Whether they are those that make, withdraw or return would write is not looked
    /// at.
    ///
    /// ```
    /// use planbook::{Book, Refusal};
    ///
    /// let plant = planbook::plants::strip().bytes();
    /// let book = Book::make(&plant, 0b111)?;
    /// assert_eq!(Book::from_bytes(&plant, book.bytes())?, book);
    /// assert_eq!(Book::from_bytes(&plant, &book.bytes()[1..]), Err(Refusal::BookHeader));
    /// # Ok::<(), Refusal>(())
    /// ```
    pub fn from_bytes(plant: &[u8], bytes: &[u8]) -> Result<Book, Refusal> {
        // To look at what withdrawing nothing costs checks all that there is to check.
        preview_into(plant, bytes, 0, &mut [0; LONGEST_LIST])?;
        Ok(Book { plant: plant.into(), bytes: bytes.into() })
    }

    /// The book without the moves of `mask`, and the states kept in this book and lost in that one, by rising number.
    /// Naming a move that is already out of service has no effect.
    pub fn withdraw(&self, mask: u32) -> Result<(Book, Vec<u16>), Refusal> {
        self.next(|out, list| Linked.withdraw(&self.plant, &self.bytes, mask, out, list))
    }

    /// What [`Book::withdraw`] gives, by the index of the book's plant; that of another plant is refused.
    pub fn withdraw_indexed(&self, index: &Index, mask: u32) -> Result<(Book, Vec<u16>), Refusal> {
        self.next(|out, list| Linked.withdraw_indexed(&self.plant, &index.bytes, &self.bytes, mask, out, list))
    }

    /// The book without the moves of the masks, withdrawn in turn, each time from the book of the one before; and the
    /// states kept in this book and lost in that one, by rising number. There are at most 16 masks, and none at all act
    /// as one mask of 0.
    ///
    /// ```
    /// use planbook::Book;
    ///
    /// let plant = planbook::plants::strip().bytes();
    /// let book = Book::make(&plant, 0b111)?;
    /// let (rest, dropped) = book.withdraw_list(&[0b010, 0b100])?;
    /// assert_eq!((rest.mask(), dropped), (0b001, vec![])); // move 0 alone will do
    /// assert_eq!(rest, book.withdraw(0b110)?.0); // as if both had been withdrawn at once
    ///
    /// let (_, dropped) = book.withdraw_list(&[0b100, 0b001])?;
    /// assert_eq!(dropped, [0, 1, 2]);
    /// # Ok::<(), planbook::Refusal>(())
    /// ```
    pub fn withdraw_list(&self, masks: &[u32]) -> Result<(Book, Vec<u16>), Refusal> {
        self.next(|out, list| Linked.withdraw_list(&self.plant, &self.bytes, &mask_bytes(masks), out, list))
    }

    /// The book with the moves of `mask` back in service, just as [`Book::make`] makes it for these and the moves of
    /// this book, and the states kept in that one and lost in this one, by rising number. Naming a move that is in
    /// service already has no effect.
    ///
    /// ```
    /// use planbook::Book;
    ///
    /// let plant = planbook::plants::strip().bytes();
    /// let book = Book::make(&plant, 0b100)?;
    /// assert_eq!(book.kept_count(), 0);
    /// let (book, gained) = book.return_moves(0b001)?; // move 0 comes back, and states 0, 1 and 2 with it
    /// assert_eq!((book.mask(), gained), (0b101, vec![0, 1, 2]));
    /// let (book, gained) = book.return_moves(0b010)?; // move 1 comes back, and no state was out
    /// assert_eq!((&book, gained), (&Book::make(&plant, 0b111)?, vec![]));
    /// # Ok::<(), planbook::Refusal>(())
    /// ```
    pub fn return_moves(&self, mask: u32) -> Result<(Book, Vec<u16>), Refusal> {
        self.next(|out, list| Linked.return_moves(&self.plant, &self.bytes, mask, out, list))
    }

    /// The book that a withdrawal from this one or a return to it writes, and the states that it lists.
    fn next(&self, call: impl FnOnce(&mut [u8], &mut [u8]) -> Answer) -> Result<(Book, Vec<u16>), Refusal> {
        let mut bytes = vec![0; self.bytes.len()];
        let mut list = [0; LONGEST_LIST];
        let Withdrawn { length, drops } = written(call(&mut bytes, &mut list))?;
        bytes.truncate(length);
        Ok((Book { plant: self.plant.clone(), bytes }, listed(&list, drops)))
    }

    /// What it would cost to withdraw the moves of `mask`: the states that [`Book::withdraw`] would drop, and how many
    /// would be kept. Nothing is withdrawn.
    ///
    /// ```
    /// use planbook::{Book, Preview};
    ///
    /// let plant = planbook::plants::strip().bytes();
    /// let book = Book::make(&plant, 0b111)?;
    /// assert_eq!(book.preview(0b100)?, Preview { dropped: vec![], kept: 3 }); // move 2 may go
    /// assert_eq!(book.preview(0b001)?, Preview { dropped: vec![0, 1, 2], kept: 0 }); // without move 0 all is lost
    /// # Ok::<(), planbook::Refusal>(())
    /// ```
    pub fn preview(&self, mask: u32) -> Result<Preview, Refusal> {
        let mut list = [0; LONGEST_LIST];
        let cost = preview_into(&self.plant, &self.bytes, mask, &mut list)?;
        Ok(Preview { dropped: listed(&list, cost.drops), kept: cost.kept as u16 })
    }

    /// What the book says for a state and the goal sought; see [`consult`].
    pub fn consult(&self, state: u16, goal: u16) -> Result<Advice, Refusal> {
        consult(&self.bytes, state.into(), goal.into())
    }

    /// The state's row, a part of [`Book::bytes`].
    pub fn row(&self, state: u16) -> Result<&[u8], Refusal> {
        row(&self.bytes, state.into())
    }

    /// Every good move in a state when a goal is sought, as a mask (bit u is move u); see [`good_moves`].
    ///
    /// ```
    /// use planbook::Book;
    ///
    /// let plant = planbook::plants::strip().bytes();
    /// let book = Book::make(&plant, 0b111)?;
    /// assert_eq!(book.good_moves(0, 1)?, 0b011); // two ways to goal 1: take the one that jolts the strip least
    ///
    /// let (book, _) = book.withdraw(0b010)?;
    /// assert_eq!(book.good_moves(0, 1)?, 0b001); // move 1 is out of service
    /// # Ok::<(), planbook::Refusal>(())
    /// ```
    pub fn good_moves(&self, state: u16, goal: u16) -> Result<u32, Refusal> {
        good_moves(&self.plant, &self.bytes, state.into(), goal.into())
    }

    /// The rows of the states in rising order: a kept state's entries, one for each goal, or `None` for a lost state.
    /// Stages are left out; see [`Book::stages`].
    pub fn rows(&self) -> impl Iterator<Item = Option<impl Iterator<Item = Entry> + '_>> + '_ {
        let opening = if self.has_stages() { 2 } else { 0 };
        self.row_bytes().map(move |row| {
            let entry = |pair: &[u8]| Entry { wait: number(pair, 0), action: number(pair, 2) };
            (number(row, 0) != LOST).then(|| row[opening..].chunks_exact(4).map(entry))
        })
    }

    /// Whether rows open with a stage: whether the book is for a plant that must settle. Its length tells.
    pub fn has_stages(&self) -> bool {
        self.row_length() != 4 * usize::from(self.goals())
    }

    /// The stage of a state, from 1 to the number of states; `None` for a lost state, and in a book without stages.
    ///
    /// From a kept state on, fewer states that are not settled follow than its stage says: in stage 1 there is none.
    ///
    /// ```
    /// use planbook::{Book, Refusal};
    ///
    /// let plant = planbook::plants::band().bytes(); // three states; state 2 is settled and can be stayed in
    /// let book = Book::make(&plant, 0b11)?;
    /// assert!(book.has_stages());
    /// assert_eq!((book.stage(0)?, book.stage(1)?, book.stage(2)?), (Some(2), Some(2), Some(1)));
    /// assert_eq!(book.stage(3), Err(Refusal::OutOfBook));
    ///
    /// let (book, dropped) = book.withdraw(0b01)?; // without move 0 there is no way to stay
    /// assert_eq!((book.stage(2)?, dropped), (None, vec![0, 1, 2]));
    ///
    /// let book = Book::make(&planbook::plants::strip().bytes(), 0b111)?; // it need not settle
    /// assert_eq!((book.has_stages(), book.stage(0)?), (false, None));
    /// # Ok::<(), Refusal>(())
    /// ```
    pub fn stage(&self, state: u16) -> Result<Option<u16>, Refusal> {
        self.row(state).map(|row| self.stage_of(row))
    }

    /// The stages of the states in rising order; see [`Book::stage`].
    pub fn stages(&self) -> impl Iterator<Item = Option<u16>> + '_ {
        self.row_bytes().map(|row| self.stage_of(row))
    }

    /// The stage that a row opens with, if it is kept and opens with one.
    fn stage_of(&self, row: &[u8]) -> Option<u16> {
        Some(number(row, 0)).filter(|&stage| self.has_stages() && stage != LOST)
    }

    /// The rows in rising order.
    fn row_bytes(&self) -> impl Iterator<Item = &[u8]> + '_ {
        self.bytes[16..].chunks_exact(self.row_length())
    }

    /// How many bytes a row has.
    fn row_length(&self) -> usize {
        (self.bytes.len() - 16) / usize::from(self.states())
    }

    /// How many states there are.
    pub fn states(&self) -> u16 {
        number(&self.bytes, 0)
    }

    /// How many moves the plant has, in service or not.
    pub fn moves(&self) -> u16 {
        number(&self.bytes, 2)
    }

    /// How many goals there are.
    pub fn goals(&self) -> u16 {
        number(&self.bytes, 4)
    }

    /// How many states are kept.
    pub fn kept_count(&self) -> u16 {
        number(&self.bytes, 6)
    }

    /// The moves in service: bit u is move u.
    pub fn mask(&self) -> u32 {
        u32::from(number(&self.bytes, 8)) | u32::from(number(&self.bytes, 10)) << 16
    }

    /// The book's bytes.
    pub fn bytes(&self) -> &[u8] {
        &self.bytes
    }

    /// The bytes of the plant that the book is for.
    pub fn plant(&self) -> &[u8] {
        &self.plant
    }
}

/// The first `count` numbers of a list of states.
fn listed(list: &[u8], count: usize) -> Vec<u16> {
    list.chunks_exact(2).take(count).map(|pair| number(pair, 0)).collect()
}

/// The two-byte number at a place.
fn number(bytes: &[u8], at: usize) -> u16 {
    u16::from_le_bytes([bytes[at], bytes[at + 1]])
}
