//! The C interface as it is declared in `include/planbook.h`: the longest buffers, its answers, and with the feature
//! `linked` its fourteen functions. The functions are unsafe to call; [`crate::make_into`] and its neighbours,
//! [`crate::Bands`] and [`crate::Desk`] are the safe way.
//!
//! A refused answer has its number and 0 in every other field, and so has a lost one beside its `lost`; but a desk's
//! has what is held, unless a start is refused.

/// The longest book, one with stages: 16 + 2S + 4SN bytes for S 1,024 and N 8 (`PLANBOOK_BOOK_MAX` in C).
pub const LONGEST_BOOK: usize = 16 + 2 * 1024 + 4 * 1024 * 8;

/// The longest index: 8 + 2E bytes for E 8,192 (`PLANBOOK_INDEX_MAX` in C).
pub const LONGEST_INDEX: usize = 8 + 2 * 8192;

/// The most bytes of a list of states, dropped or gained: 2S for S 1,024 (`PLANBOOK_DROPS_MAX` in C).
pub const LONGEST_LIST: usize = 2 * 1024;

/// The most bytes of a list of masks: 4 for each of 16 (`PLANBOOK_MASKS_MAX` in C).
pub const LONGEST_MASKS: usize = 4 * 16;

/// The most bands of a table (`PLANBOOK_BANDS_MAX` in C).
pub const MOST_BANDS: usize = 64;

/// The kind of an end that is open without limit (`PLANBOOK_OPEN` in C).
pub const OPEN: u8 = 0;

/// The kind of an end that is at a number (`PLANBOOK_AT` in C).
pub const AT: u8 = 1;

/// What make, withdraw, a list of withdrawals, return and index answer.
#[repr(C)]
#[derive(Clone, Copy, Debug, Default, PartialEq, Eq)]
pub struct Answer {
    /// 0, or the number of the refusal.
    pub number: u32,
    /// How many bytes of the buffer are the book or the index.
    pub length: u32,
    /// How many states the drop buffer lists: those dropped or, by return, those gained. Always 0 for make and index.
    pub drops: u32,
}

/// What preview answers.
#[repr(C)]
#[derive(Clone, Copy, Debug, Default, PartialEq, Eq)]
pub struct Cost {
    /// 0, or the number of the refusal.
    pub number: u32,
    /// How many states the drop buffer lists: those that the withdrawal would drop.
    pub drops: u32,
    /// How many states would be kept: K of the book that the withdrawal would write.
    pub kept: u32,
}

/// What consult answers.
#[repr(C)]
#[derive(Clone, Copy, Debug, Default, PartialEq, Eq)]
pub struct Advice {
    /// 0, or the number of the refusal.
    pub number: u32,
    /// 1 if the state is lost; all that follows is then 0.
    pub lost: u32,
    /// The move to make for the goal arrived at (`move` in C).
    pub action: u32,
    /// At most so many moves until the goal arrived at is met; 0 exactly if the state serves all goals. In a book with
    /// stages, until that goal is met or an earlier stage is entered or can be by the next move.
    pub wait: u32,
    /// The goal arrived at: the one to seek, now and after the move.
    pub seek: u32,
}

/// What row answers: the place of the row in the book lent.
#[repr(C)]
#[derive(Clone, Copy, Debug, Default, PartialEq, Eq)]
pub struct Part {
    /// 0, or the number of the refusal.
    pub number: u32,
    /// Where the row begins in the book.
    pub start: u32,
    /// How many bytes it has: 4 for each goal, and 2 more for the stage in a book with stages; 0 exactly when refused.
    pub length: u32,
}

/// What moves answers.
#[repr(C)]
#[derive(Clone, Copy, Debug, Default, PartialEq, Eq)]
pub struct Mask {
    /// 0, or the number of the refusal.
    pub number: u32,
    /// Every good move for the goal arrived at: bit u is move u. 0 if the state is lost.
    pub mask: u32,
}

/// What gauge answers.
#[repr(C)]
#[derive(Clone, Copy, Debug, Default, PartialEq, Eq)]
pub struct Place {
    /// 0, or the number of the refusal.
    pub number: u32,
    /// 1 if a band holds the deviation; 0 in a gap.
    pub found: u32,
    /// The state of that band; 0 if there is none.
    pub state: u32,
}

/// What the desk answers: what to do in the state that it is in now, and what it holds from then on.
#[repr(C)]
#[derive(Clone, Copy, Debug, Default, PartialEq, Eq)]
pub struct Desk {
    /// 0, or the number of the refusal.
    pub number: u32,
    /// 1 if the state is lost; move, wait and goal arrived at are then 0.
    pub lost: u32,
    /// The move to make for the goal arrived at (`move` in C).
    pub action: u32,
    /// At most so many moves until the goal arrived at is met, as in [`Advice`].
    pub wait: u32,
    /// The goal arrived at.
    pub seek: u32,
    /// The state held: the one started in or reported. A refused report has the one handed in, a refused start 0.
    pub state: u32,
    /// The goal held: the one arrived at, in a lost state the one sought. A refused report has the one handed in, a
    /// refused start 0.
    pub goal: u32,
}

macro_rules! refused {
    ($($answer:ident),*) => {$(
        impl $answer {
            /// The answer of a call that is refused with this number.
            pub fn refused(number: u32) -> $answer {
                $answer { number, ..$answer::default() }
            }
        }
    )*};
}
refused!(Answer, Cost, Advice, Part, Mask, Place, Desk);

#[cfg(feature = "linked")]
extern "C" {
    /// Writes the book of a plant with the moves of `mask` in service.
    ///
    /// # Safety
    /// Each pointer is good for its length, to read (`plant`) or to write (`book`), and they do not overlap.
    pub fn planbook_make(plant: *const u8, plant_len: usize, mask: u32, book: *mut u8, book_len: usize) -> Answer;

    /// Writes the book with the moves of `mask` withdrawn, and the states dropped.
    ///
    /// # Safety
    /// Each pointer is good for its length, to read (`plant`, `book`) or to write (`out`, `drops`), and those written
    /// do not overlap with any other.
    pub fn planbook_withdraw(
        plant: *const u8,
        plant_len: usize,
        book: *const u8,
        book_len: usize,
        mask: u32,
        out: *mut u8,
        out_len: usize,
        drops: *mut u8,
        drops_len: usize,
    ) -> Answer;

    /// Writes the book with the moves of each of the masks withdrawn in turn, and the states dropped by them all.
    ///
    /// # Safety
    /// Each pointer is good for its length, to read (`plant`, `book`, `masks`) or to write (`out`, `drops`), and those
    /// written do not overlap with any other.
    pub fn planbook_withdraw_list(
        plant: *const u8,
        plant_len: usize,
        book: *const u8,
        book_len: usize,
        masks: *const u8,
        masks_len: usize,
        out: *mut u8,
        out_len: usize,
        drops: *mut u8,
        drops_len: usize,
    ) -> Answer;

    /// Writes the book with the moves of `mask` back in service, and the states gained.
    ///
    /// # Safety
    /// Each pointer is good for its length, to read (`plant`, `book`) or to write (`out`, `gained`), and those written
    /// do not overlap with any other.
    pub fn planbook_return(
        plant: *const u8,
        plant_len: usize,
        book: *const u8,
        book_len: usize,
        mask: u32,
        out: *mut u8,
        out_len: usize,
        gained: *mut u8,
        gained_len: usize,
    ) -> Answer;

    /// Writes the index of a plant.
    ///
    /// # Safety
    /// Each pointer is good for its length, to read (`plant`) or to write (`index`), and they do not overlap.
    pub fn planbook_index(plant: *const u8, plant_len: usize, index: *mut u8, index_len: usize) -> Answer;

    /// Writes the book of a plant with the moves of `mask` in service, by the plant's index.
    ///
    /// # Safety
    /// Each pointer is good for its length, to read (`plant`, `index`) or to write (`book`), and `book` does not
    /// overlap with any other.
    pub fn planbook_make_indexed(
        plant: *const u8,
        plant_len: usize,
        index: *const u8,
        index_len: usize,
        mask: u32,
        book: *mut u8,
        book_len: usize,
    ) -> Answer;

    /// Writes the book with the moves of `mask` withdrawn, and the states dropped, by the plant's index.
    ///
    /// # Safety
    /// Each pointer is good for its length, to read (`plant`, `index`, `book`) or to write (`out`, `drops`), and those
    /// written do not overlap with any other.
    pub fn planbook_withdraw_indexed(
        plant: *const u8,
        plant_len: usize,
        index: *const u8,
        index_len: usize,
        book: *const u8,
        book_len: usize,
        mask: u32,
        out: *mut u8,
        out_len: usize,
        drops: *mut u8,
        drops_len: usize,
    ) -> Answer;

    /// Writes the states that a withdrawal of the moves of `mask` would drop, and no book.
    ///
    /// # Safety
    /// Each pointer is good for its length, to read (`plant`, `book`) or to write (`drops`), and `drops` does not
    /// overlap with any other.
    pub fn planbook_preview(
        plant: *const u8,
        plant_len: usize,
        book: *const u8,
        book_len: usize,
        mask: u32,
        drops: *mut u8,
        drops_len: usize,
    ) -> Cost;

    /// The goal arrived at from the goal sought in a state, and its move and wait.
    ///
    /// # Safety
    /// `book` is good to read for `book_len` bytes.
    pub fn planbook_consult(book: *const u8, book_len: usize, state: u32, goal: u32) -> Advice;

    /// The place of a state's row in the book.
    ///
    /// # Safety
    /// `book` is good to read for `book_len` bytes.
    pub fn planbook_row(book: *const u8, book_len: usize, state: u32) -> Part;

    /// Every good move in a state for the goal arrived at from the goal sought.
    ///
    /// # Safety
    /// `plant` is good to read for `plant_len` bytes, and `book` for `book_len`.
    pub fn planbook_moves(
        plant: *const u8,
        plant_len: usize,
        book: *const u8,
        book_len: usize,
        state: u32,
        goal: u32,
    ) -> Mask;

    /// The state of the band that holds the deviation: the reading less the aim, rounded once.
    ///
    /// # Safety
    /// `kinds` is good to read for `kinds_len` bytes, and `ends` and `band_states` for `ends_len` and `band_states_len`
    /// numbers. The thread rounds floats to the nearest, ties to even, and does not flush small ones to 0.
    pub fn planbook_gauge(
        kinds: *const u8,
        kinds_len: usize,
        ends: *const f64,
        ends_len: usize,
        band_states: *const u32,
        band_states_len: usize,
        states: u32,
        reading: f64,
        aim: f64,
    ) -> Place;

    /// The desk starts to follow a book in a state, seeking goal 0.
    ///
    /// # Safety
    /// `plant` is good to read for `plant_len` bytes, and `book` for `book_len`.
    pub fn planbook_start(plant: *const u8, plant_len: usize, book: *const u8, book_len: usize, state: u32) -> Desk;

    /// The desk that holds a state and a goal is told which state followed the move that it gave.
    ///
    /// # Safety
    /// `plant` is good to read for `plant_len` bytes, and `book` for `book_len`.
    pub fn planbook_report(
        plant: *const u8,
        plant_len: usize,
        book: *const u8,
        book_len: usize,
        held_state: u32,
        held_goal: u32,
        reported: u32,
    ) -> Desk;
}
