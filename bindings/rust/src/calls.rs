//! The calls over slices, with the C interface's answers: one trait for the eleven of a planner, one for the gauge and
//! one for the two of a desk, which the proved library and the second solvers, gauges and desks implement, so that
//! tests and benchmarks treat them alike.

use crate::sys::{Advice, Answer, Cost, Desk, Mask, Part, Place};

/// A planner: make, withdraw and row as document 01 has them, and moves, preview, consult, the list of withdrawals, the
/// return of moves and the three calls for an index as requests (i), (iv), (v), (vi), (vii) and (viii) of document 02
/// do, on raw bytes; for plants that must settle, as request (ix) has them, too.
pub trait Calls {
    /// A short name for tables and messages.
    fn name(&self) -> &'static str;

    /// Writes the plant's book with the moves of `mask` in service to the start of `book`.
    fn make(&self, plant: &[u8], mask: u32, book: &mut [u8]) -> Answer;

    /// Writes the book without the moves of `mask` to the start of `out`, and to the start of `drops` the states kept
    /// in `book` and lost now, as two-byte numbers.
    fn withdraw(&self, plant: &[u8], book: &[u8], mask: u32, out: &mut [u8], drops: &mut [u8]) -> Answer;

    /// Withdraws the moves of each mask of a list in turn, each time from the book of the one before: writes the last
    /// book to the start of `out`, and to the start of `drops` the states kept in `book` and lost in that one. `masks`
    /// has four bytes for each, as [`mask_bytes`] lays them out; an empty list acts as one mask of 0.
    fn withdraw_list(&self, plant: &[u8], book: &[u8], masks: &[u8], out: &mut [u8], drops: &mut [u8]) -> Answer;

    /// Puts the moves of `mask` back in service: writes to the start of `out` the book that make writes for the moves
    /// in service in `book` together with these, and to the start of `gained` the states kept in that one and lost in
    /// `book`, as two-byte numbers.
    fn return_moves(&self, plant: &[u8], book: &[u8], mask: u32, out: &mut [u8], gained: &mut [u8]) -> Answer;

    /// Writes the plant's index to the start of `index`: a header, and the numbers of all arrows by the state they end
    /// in, and then by number.
    fn index(&self, plant: &[u8], index: &mut [u8]) -> Answer;

    /// Writes what [`Calls::make`] does, by the plant's index.
    fn make_indexed(&self, plant: &[u8], index: &[u8], mask: u32, book: &mut [u8]) -> Answer;

    /// Writes what [`Calls::withdraw`] does, by the plant's index.
    fn withdraw_indexed(
        &self,
        plant: &[u8],
        index: &[u8],
        book: &[u8],
        mask: u32,
        out: &mut [u8],
        drops: &mut [u8],
    ) -> Answer;

    /// What it would cost to withdraw the moves of `mask`: writes to the start of `drops` what withdraw would, and no
    /// book.
    fn preview(&self, plant: &[u8], book: &[u8], mask: u32, drops: &mut [u8]) -> Cost;

    /// What the book says for a state and the goal sought: the goal arrived at when every goal that the state serves is
    /// passed, from the one sought on, and its move and wait.
    fn consult(&self, book: &[u8], state: u32, goal: u32) -> Advice;

    /// Where the state's row stands in the book.
    fn row(&self, book: &[u8], state: u32) -> Part;

    /// Every good move: all that meet the rule for the entry of a state and the goal arrived at, as a mask, read on the
    /// book's own rows and mask.
    fn moves(&self, plant: &[u8], book: &[u8], state: u32, goal: u32) -> Mask;
}

/// A table of bands as it is lent: for each band two kinds and two ends, the lower one first, and a state.
#[derive(Clone, Copy, Debug)]
pub struct Lists<'a> {
    /// [`crate::sys::OPEN`] or [`crate::sys::AT`].
    pub kinds: &'a [u8],
    /// Numbers of millimetres; one beside an open end means nothing.
    pub ends: &'a [f64],
    /// The bands' states.
    pub states: &'a [u32],
}

/// From the gauge to a state, as request (xi) of document 02 has it.
pub trait Gauges {
    /// A short name for tables and messages.
    fn name(&self) -> &'static str;

    /// The state of the band that holds the deviation, which is the reading less the aim; `states` is S, which every
    /// band's state must be below.
    fn gauge(&self, lists: Lists, states: u32, reading: f64, aim: f64) -> Place;
}

/// What a desk holds between two reports, as it is handed in.
#[derive(Clone, Copy, Debug, PartialEq, Eq)]
pub struct Held {
    /// The state.
    pub state: u32,
    /// The goal.
    pub goal: u32,
}

/// The mill desk, as request (xii) of document 02 has it, on raw bytes. It keeps nothing itself.
pub trait Desks {
    /// A short name for tables and messages.
    fn name(&self) -> &'static str;

    /// Starts in a state, seeking goal 0.
    fn start(&self, plant: &[u8], book: &[u8], state: u32) -> Desk;

    /// Is told the state that followed the move given for what is held.
    fn report(&self, plant: &[u8], book: &[u8], held: Held, reported: u32) -> Desk;
}

/// The bytes of a list of masks: four for each, the low one first.
pub fn mask_bytes(masks: &[u32]) -> Vec<u8> {
    masks.iter().flat_map(|mask| mask.to_le_bytes()).collect()
}

/// The proved library.
#[cfg(feature = "linked")]
#[derive(Clone, Copy, Debug)]
pub struct Linked;

/// A C function that takes a plant, a book and a mask, and writes a book and a list of states.
#[cfg(feature = "linked")]
type Rewrite = unsafe extern "C" fn(*const u8, usize, *const u8, usize, u32, *mut u8, usize, *mut u8, usize) -> Answer;

/// Hands the slices to such a function.
///
/// # Safety
/// It asks for no more than that each pointer is good for its length, and that those written do not overlap with any
/// other.
#[cfg(feature = "linked")]
unsafe fn rewrite(call: Rewrite, plant: &[u8], book: &[u8], mask: u32, out: &mut [u8], list: &mut [u8]) -> Answer {
    // SAFETY: each pointer and length is a slice's own, and `out` and `list` are each borrowed alone.
    unsafe {
        call(
            plant.as_ptr(),
            plant.len(),
            book.as_ptr(),
            book.len(),
            mask,
            out.as_mut_ptr(),
            out.len(),
            list.as_mut_ptr(),
            list.len(),
        )
    }
}

#[cfg(feature = "linked")]
impl Calls for Linked {
    fn name(&self) -> &'static str {
        "planbook"
    }

    fn make(&self, plant: &[u8], mask: u32, book: &mut [u8]) -> Answer {
        // SAFETY: each pointer and length is a slice's own, and `book` is borrowed alone.
        unsafe { crate::sys::planbook_make(plant.as_ptr(), plant.len(), mask, book.as_mut_ptr(), book.len()) }
    }

    fn withdraw(&self, plant: &[u8], book: &[u8], mask: u32, out: &mut [u8], drops: &mut [u8]) -> Answer {
        // SAFETY: this function asks for no more than that.
        unsafe { rewrite(crate::sys::planbook_withdraw, plant, book, mask, out, drops) }
    }

    fn withdraw_list(&self, plant: &[u8], book: &[u8], masks: &[u8], out: &mut [u8], drops: &mut [u8]) -> Answer {
        // SAFETY: each pointer and length is a slice's own, and `out` and `drops` are each borrowed alone.
        unsafe {
            crate::sys::planbook_withdraw_list(
                plant.as_ptr(),
                plant.len(),
                book.as_ptr(),
                book.len(),
                masks.as_ptr(),
                masks.len(),
                out.as_mut_ptr(),
                out.len(),
                drops.as_mut_ptr(),
                drops.len(),
            )
        }
    }

    fn return_moves(&self, plant: &[u8], book: &[u8], mask: u32, out: &mut [u8], gained: &mut [u8]) -> Answer {
        // SAFETY: this function asks for no more than that.
        unsafe { rewrite(crate::sys::planbook_return, plant, book, mask, out, gained) }
    }

    fn index(&self, plant: &[u8], index: &mut [u8]) -> Answer {
        // SAFETY: each pointer and length is a slice's own, and `index` is borrowed alone.
        unsafe { crate::sys::planbook_index(plant.as_ptr(), plant.len(), index.as_mut_ptr(), index.len()) }
    }

    fn make_indexed(&self, plant: &[u8], index: &[u8], mask: u32, book: &mut [u8]) -> Answer {
        // SAFETY: each pointer and length is a slice's own, and `book` is borrowed alone.
        unsafe {
            crate::sys::planbook_make_indexed(
                plant.as_ptr(),
                plant.len(),
                index.as_ptr(),
                index.len(),
                mask,
                book.as_mut_ptr(),
                book.len(),
            )
        }
    }

    fn withdraw_indexed(
        &self,
        plant: &[u8],
        index: &[u8],
        book: &[u8],
        mask: u32,
        out: &mut [u8],
        drops: &mut [u8],
    ) -> Answer {
        // SAFETY: each pointer and length is a slice's own, and `out` and `drops` are each borrowed alone.
        unsafe {
            crate::sys::planbook_withdraw_indexed(
                plant.as_ptr(),
                plant.len(),
                index.as_ptr(),
                index.len(),
                book.as_ptr(),
                book.len(),
                mask,
                out.as_mut_ptr(),
                out.len(),
                drops.as_mut_ptr(),
                drops.len(),
            )
        }
    }

    fn preview(&self, plant: &[u8], book: &[u8], mask: u32, drops: &mut [u8]) -> Cost {
        // SAFETY: each pointer and length is a slice's own, and `drops` is borrowed alone.
        unsafe {
            crate::sys::planbook_preview(
                plant.as_ptr(),
                plant.len(),
                book.as_ptr(),
                book.len(),
                mask,
                drops.as_mut_ptr(),
                drops.len(),
            )
        }
    }

    fn consult(&self, book: &[u8], state: u32, goal: u32) -> Advice {
        // SAFETY: the pointer and the length are the slice's own.
        unsafe { crate::sys::planbook_consult(book.as_ptr(), book.len(), state, goal) }
    }

    fn row(&self, book: &[u8], state: u32) -> Part {
        // SAFETY: the pointer and the length are the slice's own.
        unsafe { crate::sys::planbook_row(book.as_ptr(), book.len(), state) }
    }

    fn moves(&self, plant: &[u8], book: &[u8], state: u32, goal: u32) -> Mask {
        // SAFETY: each pointer and length is a slice's own.
        unsafe { crate::sys::planbook_moves(plant.as_ptr(), plant.len(), book.as_ptr(), book.len(), state, goal) }
    }
}

#[cfg(feature = "linked")]
impl Gauges for Linked {
    fn name(&self) -> &'static str {
        "planbook"
    }

    fn gauge(&self, lists: Lists, states: u32, reading: f64, aim: f64) -> Place {
        // SAFETY: each pointer and length is a slice's own, and Rust's threads round to the nearest.
        unsafe {
            crate::sys::planbook_gauge(
                lists.kinds.as_ptr(),
                lists.kinds.len(),
                lists.ends.as_ptr(),
                lists.ends.len(),
                lists.states.as_ptr(),
                lists.states.len(),
                states,
                reading,
                aim,
            )
        }
    }
}

#[cfg(feature = "linked")]
impl Desks for Linked {
    fn name(&self) -> &'static str {
        "planbook"
    }

    fn start(&self, plant: &[u8], book: &[u8], state: u32) -> Desk {
        // SAFETY: each pointer and length is a slice's own.
        unsafe { crate::sys::planbook_start(plant.as_ptr(), plant.len(), book.as_ptr(), book.len(), state) }
    }

    fn report(&self, plant: &[u8], book: &[u8], held: Held, reported: u32) -> Desk {
        // SAFETY: each pointer and length is a slice's own.
        unsafe {
            crate::sys::planbook_report(
                plant.as_ptr(),
                plant.len(),
                book.as_ptr(),
                book.len(),
                held.state,
                held.goal,
                reported,
            )
        }
    }
}
