//! The desk, by hand, from request (xii) of document 02.

use planbook::calls::{Desks, Held};
use planbook::plants::{self, bytes_of};
use planbook::sys::Desk;

use super::{book_of_p, ALL_SERVED_ROWS, LOST, M1_ROWS, M9_ROWS, P};

/// A kept state is shown and held, with the goal arrived at.
fn at(state: u32, action: u32, wait: u32, seek: u32) -> Desk {
    Desk { number: 0, lost: 0, action, wait, seek, state, goal: seek }
}

/// A lost state is held, with the goal sought.
fn lost(state: u32, goal: u32) -> Desk {
    Desk { lost: 1, state, goal, ..Desk::default() }
}

/// The report is refused with this number, and leaves what is held.
fn left(number: u32, [state, goal]: [u32; 2]) -> Desk {
    Desk { number, state, goal, ..Desk::default() }
}

/// A desk with a plant and a book.
struct Table<'a> {
    desk: &'a dyn Desks,
    plant: Vec<u8>,
    book: Vec<u8>,
}

impl Table<'_> {
    fn start(&self, state: u32, told: Desk) {
        let shown = self.desk.start(&self.plant, &self.book, state);
        assert_eq!(shown, told, "{}: start {state}, plant {:?}, book {:?}", self.desk.name(), self.plant, self.book);
    }

    fn report(&self, [state, goal]: [u32; 2], reported: u32, told: Desk) {
        let shown = self.desk.report(&self.plant, &self.book, Held { state, goal }, reported);
        let (name, plant, book) = (self.desk.name(), &self.plant, &self.book);
        assert_eq!(shown, told, "{name}: held {state}/{goal}, report {reported}, plant {plant:?}, book {book:?}");
    }

    /// A start and two reports are refused with this number, whatever else is wrong.
    fn refuses(&self, number: u32) {
        for state in [0, 4, u32::MAX] {
            self.start(state, Desk::refused(number));
        }
        for (held, reported) in [([0, 1], 1), ([0, 1], 3), ([3, 0], 0), ([9, 9], 9), ([u32::MAX; 2], u32::MAX)] {
            self.report(held, reported, left(number, held));
        }
    }
}

/// All that follows.
pub fn all(desk: &dyn Desks) {
    strip(desk);
    served(desk);
    sought_again(desk);
    invented(desk);
    settling(desk);
    numbers_out_of_range(desk);
    refusals(desk);
}

fn strip_table(desk: &dyn Desks, kept: u16, rows: [u16; 16]) -> Table<'_> {
    Table { desk, plant: bytes_of(&P), book: book_of_p(kept, 7, rows) }
}

/// Strip plant P and M1's book: followed round, told wrong, and started where all is lost.
fn strip(desk: &dyn Desks) {
    let table = strip_table(desk, 3, M1_ROWS);
    table.start(0, at(0, 0, 2, 1));
    table.report([0, 1], 2, left(13, [0, 1])); // an end of move 1, and not of move 0
    table.report([0, 1], 0, left(13, [0, 1]));
    table.report([0, 1], 3, left(13, [0, 1])); // lost, and the end of no arrow from here
    table.report([0, 1], 4, left(8, [0, 1]));
    table.report([0, 1], 1, at(1, 0, 1, 1));
    table.report([1, 1], 3, left(13, [1, 1])); // an end of move 1
    table.report([1, 1], 0, left(13, [1, 1])); // an end of move 2, which is for goal 0
    table.report([1, 1], 2, at(2, 0, 1, 0)); // goal 1 is met and passed
    table.report([2, 0], 0, at(0, 0, 2, 1)); // goal 0 is met and passed
    table.start(1, at(1, 2, 1, 0));
    table.report([1, 0], 0, at(0, 0, 2, 1));
    table.report([1, 0], 2, left(13, [1, 0]));
    table.start(2, at(2, 0, 1, 0));
    // What is handed in as held need not be what a desk held: goal 0 is passed in state 0, and goal 1 in state 2.
    table.report([0, 0], 1, at(1, 0, 1, 1));
    table.report([2, 1], 0, at(0, 0, 2, 1));
    table.start(3, lost(3, 0));
    for (goal, reported) in (0..2).flat_map(|goal| (0..4).map(move |reported| (goal, reported))) {
        table.report([3, goal], reported, left(13, [3, goal]));
    }
}

/// Two states, of which the first serves both goals: where it is, goal 0 stays sought, and it is sought anew in the
/// next.
fn served(desk: &dyn Desks) {
    let plant = bytes_of(&[2, 1, 2, 2, 16, 20, 32, 0, /**/ 7, 1, /**/ 0, 0, 1, /**/ 1, 0, 0]);
    let book = bytes_of(&[2, 1, 2, 2, 1, 0, 16, 32, /**/ 0, 0, 0, 0, /**/ 1, 0, 1, 0]);
    let table = Table { desk, plant, book };
    table.start(0, at(0, 0, 0, 0));
    table.start(1, at(1, 0, 1, 0));
    for goal in 0..2 {
        table.report([0, goal], 1, at(1, 0, 1, goal));
        table.report([1, goal], 0, at(0, 0, 0, goal));
        table.report([0, goal], 0, left(13, [0, goal]));
    }
}

/// The goal sought in the state reported is the one that consult arrives at for what is held. In a book nobody made
/// that may be another than the goal held.
fn sought_again(desk: &dyn Desks) {
    let plant = bytes_of(&[2, 1, 2, 2, 16, 20, 32, 0, /**/ 7, 7, /**/ 0, 0, 1, /**/ 1, 0, 0]);
    let book = bytes_of(&[2, 1, 2, 2, 1, 0, 16, 32, /**/ 0, 0, 5, 0, /**/ 3, 0, 4, 0]);
    let table = Table { desk, plant, book };
    table.report([0, 0], 1, at(1, 0, 4, 1));
    table.report([0, 1], 1, at(1, 0, 4, 1));
    table.report([1, 0], 0, at(0, 0, 5, 1));
    table.start(0, at(0, 0, 5, 1));
    table.start(1, at(1, 0, 3, 0));
    // With another move for each goal: the one of the goal arrived at counts.
    let plant = bytes_of(&[2, 2, 2, 2, 16, 20, 32, 0, /**/ 7, 7, /**/ 0, 0, 1, /**/ 0, 1, 0]);
    let book = bytes_of(&[2, 2, 2, 2, 3, 0, 16, 32, /**/ 0, 0, 5, 1, /**/ 3, 0, 4, 0]);
    let table = Table { desk, plant, book };
    table.report([0, 0], 1, left(13, [0, 0]));
    table.report([0, 0], 0, at(0, 1, 5, 1));
    table.report([1, 0], 0, left(13, [1, 0])); // kept, with a move that has no arrow
}

/// Books that nobody made: M9's, in which a report leads to a lost state, one in which all goals are served everywhere,
/// and one with every state lost.
fn invented(desk: &dyn Desks) {
    let table = strip_table(desk, 2, M9_ROWS);
    table.start(0, at(0, 0, 2, 1));
    table.report([0, 1], 1, lost(1, 1)); // with the goal sought
    table.report([0, 0], 1, lost(1, 1));
    for reported in 0..4 {
        table.report([1, 1], reported, left(13, [1, 1]));
    }
    table.start(1, lost(1, 0));
    let table = strip_table(desk, 3, ALL_SERVED_ROWS);
    table.start(0, at(0, 0, 0, 0));
    table.report([0, 0], 1, at(1, 0, 0, 0));
    table.report([0, 1], 1, at(1, 0, 0, 1));
    table.report([0, 1], 2, left(13, [0, 1])); // a good move leads there, too, and it is not the one given
    let table = strip_table(desk, 0, [LOST; 16]);
    table.start(2, lost(2, 0));
    table.report([2, 0], 0, left(13, [2, 0]));
}

/// A plant that must settle: the desk answers as consult does.
fn settling(desk: &dyn Desks) {
    let plant = plants::band().bytes();
    let rows = [2, 0, 0, 1, 1, /**/ 2, 0, 0, 0, 0, /**/ 1, 0, 0, 0, 0];
    let book = bytes_of([3, 2, 2, 3, 3, 0, 16, 46].iter().chain(&rows));
    let table = Table { desk, plant, book };
    table.start(0, at(0, 1, 1, 1));
    table.report([0, 1], 1, at(1, 0, 0, 1)); // it leaves the stage: all goals are served
    table.report([1, 1], 2, at(2, 0, 0, 1));
    table.report([2, 1], 2, at(2, 0, 0, 1));
    table.report([2, 1], 1, left(13, [2, 1]));
    table.report([2, 1], 3, left(8, [2, 1]));
}

/// 8 for each of the three numbers, however large, and before 13.
fn numbers_out_of_range(desk: &dyn Desks) {
    let table = strip_table(desk, 3, M1_ROWS);
    for far in [4, 5, 256, 1 << 16, 1 << 24, 1 << 31, u32::MAX - 1, u32::MAX] {
        table.start(far, Desk::refused(8));
        for held in [[far, 0], [far, far], [0, far.max(2)], [3, far]] {
            table.report(held, 1, left(8, held));
        }
        table.report([0, 1], far, left(8, [0, 1]));
        table.report([3, 0], far, left(8, [3, 0])); // the state held is lost, too
    }
    table.report([0, 2], 1, left(8, [0, 2]));
    table.report([3, 2], 1, left(8, [3, 2]));
}

/// 1 to 5, each before those after it: plant and book are checked as in withdraw.
fn refusals(desk: &dyn Desks) {
    let (plant, book) = (bytes_of(&P), book_of_p(3, 7, M1_ROWS));
    let changed = |bytes: &[u8], at: usize, value: u8| {
        let mut bytes = bytes.to_vec();
        bytes[at] = value;
        bytes
    };
    let (bad_label, bad_arrow) = (changed(&plant, 16, 8), changed(&plant, 70, 4));
    let (bad_header, bad_count) = (changed(&book, 12, 17), changed(&book, 6, 2));
    let told = [
        (plant[..15].to_vec(), &bad_header, 1),
        (plant[..71].to_vec(), &book, 1),
        (changed(&bad_label, 14, 2), &bad_header, 1),
        (changed(&bad_label, 70, 4), &bad_header, 2),
        (bad_label, &book, 2),
        (bad_arrow.clone(), &bad_header, 3),
        (bad_arrow, &book, 3),
        (plant.clone(), &bad_header, 4),
        (plant.clone(), &changed(&bad_count, 12, 17), 4),
        (plant.clone(), &book[..47].to_vec(), 4),
        (changed(&plant, 2, 4), &book, 4),  // with another move than the book's
        (changed(&plant, 14, 1), &book, 4), // it must settle, and the book has no stages
        (plant.clone(), &changed(&book, 8, 15), 4),
        (plant.clone(), &bad_count, 5),
        (plant.clone(), &changed(&book, 17, 4), 5), // a wait of 1,024
        (plant.clone(), &changed(&book, 47, 0), 5), // a row that is not wholly lost
        (plant.clone(), &changed(&book, 8, 3), 5),  // move 2 is out of service, and listed
    ];
    for (plant, book, number) in told {
        Table { desk, plant, book: book.clone() }.refuses(number);
    }
}
