//! One planner held against another: the same call on the same bytes, and then the same answer, the same bytes in every
//! buffer, nothing written beside them and nothing changed in what was only lent to read.
//!
//! A difference is a panic whose message has the call's input in hex. Places in a buffer are told with the watched bytes
//! before it counted.

use std::fmt::Debug;

use crate::calls::Calls;
use crate::second::format::{in_mask, number, read_masks, together, BookView, Plant, LOST};
use crate::sys::{Advice, Answer, Cost, Mask, Part, LONGEST_BOOK, LONGEST_INDEX, LONGEST_LIST};

pub mod desks;
pub mod gauges;
pub mod rounds;

/// How many bytes are watched on each side of a buffer.
const GUARD: usize = 24;

/// What compares calls, and counts them.
pub trait Counts {
    /// How many calls were compared.
    fn calls(&self) -> u64;
}

/// Compares `ours` with `second`, and counts the calls compared.
pub struct Comparison<'a> {
    ours: &'a dyn Calls,
    second: &'a dyn Calls,
    calls: u64,
    refused: u64,
    /// Books written that keep some states and lose others.
    mixed: u64,
    /// Withdrawals that drop some states and keep others.
    partial: u64,
    /// Previews of such withdrawals.
    previewed: u64,
    /// Sets of good moves that leave a choice.
    choices: u64,
    /// Consults that pass one goal or more.
    passes: u64,
    /// Consults in which there is more than one goal, and all are served.
    all_served: u64,
    /// Lists of withdrawals that are accepted.
    lists: u64,
    /// Such lists in which a single withdrawal after the first drops states.
    late: u64,
    /// Such lists in which two single withdrawals or more drop states.
    repeated: u64,
    /// Returns that are accepted.
    returns: u64,
    /// Such returns that list states.
    gaining: u64,
    /// Such returns whose book has lost a state that the book handed in keeps, which is then one that nobody made.
    losing: u64,
    /// Makes and withdrawals by an index that are accepted.
    indexed: u64,
    /// Such withdrawals that drop some states and keep others.
    indexed_partial: u64,
    /// Makes and withdrawals that are refused for their index.
    misfits: u64,
    /// Books written that have stages and keep states.
    staged: u64,
    /// Such books with two stages or more.
    deep: u64,
    /// Sets of good moves that lead to earlier stages alone.
    leaving: u64,
}

/// A buffer with watched bytes on each side, filled with a pattern.
struct Buffer {
    bytes: Vec<u8>,
    length: usize,
}

impl Buffer {
    /// The pattern depends on the place and on `seed` and is never long the same.
    fn new(length: usize, seed: u64) -> Buffer {
        let pattern = |at: usize| (at as u64).wrapping_mul(0x9e37_79b9).wrapping_add(seed.wrapping_mul(0x85)) >> 5;
        Buffer { bytes: (0..length + 2 * GUARD).map(|at| pattern(at) as u8).collect(), length }
    }

    fn lent(&mut self) -> &mut [u8] {
        &mut self.bytes[GUARD..GUARD + self.length]
    }
}

/// What a withdrawal or a return answers and leaves in its buffers.
struct Outcome {
    answer: Answer,
    book: Buffer,
    list: Buffer,
}

impl Outcome {
    /// The bytes of the states that are listed.
    fn listed(&mut self) -> &[u8] {
        &self.list.lent()[..2 * self.answer.drops as usize]
    }
}

impl Counts for Comparison<'_> {
    fn calls(&self) -> u64 {
        self.calls
    }
}

impl<'a> Comparison<'a> {
    /// Compares two planners.
    pub fn new(ours: &'a dyn Calls, second: &'a dyn Calls) -> Comparison<'a> {
        Comparison {
            ours,
            second,
            calls: 0,
            refused: 0,
            mixed: 0,
            partial: 0,
            previewed: 0,
            choices: 0,
            passes: 0,
            all_served: 0,
            lists: 0,
            late: 0,
            repeated: 0,
            returns: 0,
            gaining: 0,
            losing: 0,
            indexed: 0,
            indexed_partial: 0,
            misfits: 0,
            staged: 0,
            deep: 0,
            leaving: 0,
        }
    }

    /// How many consults passed one goal or more, and how many found all of several goals served.
    pub fn arrivals(&self) -> [u64; 2] {
        [self.passes, self.all_served]
    }

    /// In how many accepted lists of withdrawals one after the first dropped states, and in how many two or more did.
    pub fn lists(&self) -> [u64; 2] {
        [self.late, self.repeated]
    }

    /// How many accepted returns listed states, and how many were of a book that keeps a state which theirs has lost.
    pub fn returns(&self) -> [u64; 2] {
        [self.gaining, self.losing]
    }

    /// How many makes and withdrawals by an index were accepted, how many of them dropped some states and kept others,
    /// and how many were refused for their index.
    pub fn indexes(&self) -> [u64; 3] {
        [self.indexed, self.indexed_partial, self.misfits]
    }

    /// How many books written have stages and keep states, how many of them have two stages or more, and how many sets
    /// of good moves lead to earlier stages alone.
    pub fn stages(&self) -> [u64; 3] {
        [self.staged, self.deep, self.leaving]
    }

    /// What was compared so far, in words.
    pub fn summary(&self) -> String {
        let [ours, second] = [self.ours, self.second].map(|planner| planner.name());
        let Comparison { calls, refused, mixed, partial, previewed, choices, passes, all_served, .. } = self;
        let Comparison { lists, late, repeated, returns, gaining, losing, staged, deep, leaving, .. } = self;
        let Comparison { indexed, indexed_partial, misfits, .. } = self;
        format!(
            "{ours} and {second} do not differ in {calls} calls, of which {refused} are refused, {mixed} write a book \
             with kept and lost states, {partial} drop some states and keep others, {previewed} preview that, \
             {choices} find more than one good move, {passes} consults pass goals, {all_served} find all of several \
             goals served, {lists} are accepted lists of withdrawals, in {late} of which one after the first drops \
             states and in {repeated} two or more do, and {returns} are accepted returns, of which {gaining} list \
             states and {losing} have lost a state that the book handed in keeps; {indexed} make or withdraw by an \
             index, {indexed_partial} of them drop some states and keep others, and {misfits} are refused for their \
             index; {staged} write a book with stages \
             that keeps states, {deep} of them two stages or more, and {leaving} find good moves that leave a stage"
        )
    }

    /// Compares a make with a buffer of this length, and hands back the answer and the book, empty if refused.
    pub fn make(&mut self, plant: &[u8], mask: u32, length: usize) -> (Answer, Vec<u8>) {
        let input = || format!("make, mask {mask:#x}, buffer {length}, plant {}", hex(plant));
        let (answer, book) = self.same_in_one("book buffer", [("plant", plant)], length, &input, |planner, book| {
            planner.make(plant, mask, book)
        });
        self.written(answer, book)
    }

    /// Compares the building of an index in a buffer of this length, and hands back the answer and the index, empty if
    /// refused. The same planner must make by it.
    pub fn index(&mut self, plant: &[u8], length: usize) -> (Answer, Vec<u8>) {
        let input = || format!("index, buffer {length}, plant {}", hex(plant));
        let (answer, mut buffer) =
            self.same_in_one("index buffer", [("plant", plant)], length, &input, |planner, index| {
                planner.index(plant, index)
            });
        let index = buffer.lent()[..answer.length as usize].to_vec();
        if answer.number == 0 {
            let made = self.ours.make_indexed(plant, &index, 0, &mut []).number;
            self.same_answer([made, 7], &|| alone(self.ours, "its make by that index", &input));
        }
        self.count(answer.number);
        (answer, index)
    }

    /// Compares a make by an index with a buffer of this length, and hands back the answer and the book, empty if
    /// refused. It must be what the same planner's make is, if the index is the one that it builds.
    pub fn make_indexed(&mut self, plant: &[u8], index: &[u8], mask: u32, length: usize) -> (Answer, Vec<u8>) {
        let input = || {
            let (index, plant) = (hex(index), hex(plant));
            format!("make by index, mask {mask:#x}, buffer {length}, index {index}, plant {plant}")
        };
        let lent = [("plant", plant), ("index", index)];
        let (answer, book) = self.same_in_one("book buffer", lent, length, &input, |planner, book| {
            planner.make_indexed(plant, index, mask, book)
        });
        let mut plain = Buffer::new(length, self.calls);
        let expected = match self.index_fault(plant, index) {
            0 => self.ours.make(plant, mask, plain.lent()),
            number => Answer::refused(number),
        };
        let plainly = || alone(self.ours, "its make", &input);
        self.same_answer([answer, expected], &plainly);
        self.same_buffers("book buffer", [&book, &plain], answer.number, &plainly);
        self.count_indexed(answer.number);
        self.written(answer, book)
    }

    /// Compares a withdrawal by an index with buffers of these lengths, and hands back the answer and the book, empty
    /// if refused. It must be what the same planner's withdrawal is, if the index is the one that it builds.
    pub fn withdraw_indexed(
        &mut self,
        plant: &[u8],
        index: &[u8],
        book: &[u8],
        mask: u32,
        lengths: [usize; 2],
    ) -> (Answer, Vec<u8>) {
        let input = || {
            let (index, both) = (hex(index), both(plant, book));
            format!("withdraw by index, mask {mask:#x}, buffers {lengths:?}, index {index}, {both}")
        };
        let lent = [("plant", plant), ("index", index), ("book", book)];
        let ours = self.same_from_both(lent, lengths, &input, |planner, out, list| {
            planner.withdraw_indexed(plant, index, book, mask, out, list)
        });
        let plain = self.outcome(lengths, |out, list| match self.index_fault(plant, index) {
            0 => self.ours.withdraw(plant, book, mask, out, list),
            number => Answer::refused(number),
        });
        self.same_outcome(&ours, &plain, &|| alone(self.ours, "its withdrawal", &input));
        self.count_indexed(ours.answer.number);
        let partial = self.partial;
        let written = self.count_withdrawal(ours);
        self.indexed_partial += self.partial - partial;
        written
    }

    /// The number for a plant and an index lent with it, told from the index that the same planner builds.
    fn index_fault(&self, plant: &[u8], index: &[u8]) -> u32 {
        let mut built = vec![0; LONGEST_INDEX];
        match self.ours.index(plant, &mut built) {
            Answer { number: 0, length, .. } if built[..length as usize] == *index => 0,
            Answer { number: 0, .. } => 10,
            refused => refused.number,
        }
    }

    /// Counts what is to be counted of a make or a withdrawal by an index.
    fn count_indexed(&mut self, number: u32) {
        self.indexed += u64::from(number == 0);
        self.misfits += u64::from(number == 10);
    }

    /// Compares a withdrawal with buffers of these lengths, and hands back the answer and the book, empty if refused.
    pub fn withdraw(&mut self, plant: &[u8], book: &[u8], mask: u32, lengths: [usize; 2]) -> (Answer, Vec<u8>) {
        let ours = self.withdrawal(plant, book, mask, lengths);
        self.count_withdrawal(ours)
    }

    /// Compares a withdrawal, and does not count it.
    fn withdrawal(&self, plant: &[u8], book: &[u8], mask: u32, lengths: [usize; 2]) -> Outcome {
        let input = || format!("withdraw, mask {mask:#x}, buffers {lengths:?}, {}", both(plant, book));
        self.same_from_both([("plant", plant), ("book", book)], lengths, &input, |planner, out, list| {
            planner.withdraw(plant, book, mask, out, list)
        })
    }

    /// Compares a list of withdrawals with buffers of these lengths, and hands back the answer and the book, empty if
    /// refused. It must be what the single withdrawals in turn come to, and what one withdrawal of all the moves does.
    pub fn withdraw_list(&mut self, plant: &[u8], book: &[u8], masks: &[u8], lengths: [usize; 2]) -> (Answer, Vec<u8>) {
        let input = || format!("withdraw list, masks {}, buffers {lengths:?}, {}", hex(masks), both(plant, book));
        let lent = [("plant", plant), ("book", book), ("masks", masks)];
        let ours = self.same_from_both(lent, lengths, &input, |planner, out, list| {
            planner.withdraw_list(plant, book, masks, out, list)
        });
        let at_once = || alone(self.ours, "its withdrawal of all these moves", &input);
        let expected = self.at_once(plant, book, masks, lengths);
        self.same_answer([ours.answer.number, expected.answer.number], &at_once);
        if let (0, Ok(masks)) = (ours.answer.number, read_masks(masks)) {
            let in_turn = || alone(self.ours, "its single withdrawals in turn", &input);
            let drops = self.in_turn(plant, book, &masks, &ours, &in_turn);
            self.lists += 1;
            self.late += u64::from(drops[1..].iter().any(|&drops| drops != 0));
            self.repeated += u64::from(drops.iter().filter(|&&drops| drops != 0).count() > 1);
        }
        self.same_outcome(&ours, &expected, &at_once);
        self.count_withdrawal(ours)
    }

    /// What a list must answer and leave: what the same planner's withdrawal of all its moves does. One whose length is
    /// wrong is refused with 9, unless the plant or the book is refused.
    fn at_once(&self, plant: &[u8], book: &[u8], masks: &[u8], lengths: [usize; 2]) -> Outcome {
        if let Ok(masks) = read_masks(masks) {
            return self.outcome(lengths, |out, list| self.ours.withdraw(plant, book, together(&masks), out, list));
        }
        let (mut out, mut list) = (vec![0; LONGEST_BOOK], vec![0; LONGEST_LIST]);
        let number = match self.ours.withdraw(plant, book, 0, &mut out, &mut list).number {
            0 => 9,
            number => number,
        };
        self.outcome(lengths, |_, _| Answer::refused(number))
    }

    /// Holds an accepted list against the same planner's single withdrawals in turn, each from the book of the one
    /// before: all are accepted, the book is the last of theirs, and the drop list has the states that the rows of the
    /// first book keep and those of the last do not, by rising number. Answers how many states each of them drops.
    fn in_turn(
        &self,
        plant: &[u8],
        book: &[u8],
        masks: &[u32],
        listed: &Outcome,
        input: &dyn Fn() -> String,
    ) -> Vec<u32> {
        let mut last = book.to_vec();
        let mut list = vec![0; LONGEST_LIST];
        let single = |&mask: &u32| {
            let before = last.clone();
            let answer = self.ours.withdraw(plant, &before, mask, &mut last, &mut list);
            self.same_answer([answer, Answer { number: 0, length: book.len() as u32, ..answer }], input);
            answer.drops
        };
        let drops = masks.iter().map(single).collect();
        let lengths = [&listed.book, &listed.list].map(|buffer| buffer.length);
        let expected = self.outcome(lengths, |out, list| {
            out[..last.len()].copy_from_slice(&last);
            Answer { number: 0, length: last.len() as u32, drops: list_states(kept_in_the_first(book, &last), list) }
        });
        self.same_outcome(listed, &expected, input);
        drops
    }

    /// Compares a return with buffers of these lengths, and hands back the answer and the book, empty if refused. It
    /// must be refused as the withdrawal of these moves is, and be what a making comes to.
    pub fn return_moves(&mut self, plant: &[u8], book: &[u8], mask: u32, lengths: [usize; 2]) -> (Answer, Vec<u8>) {
        let ours = self.returning(plant, book, mask, lengths);
        self.count_return(book, ours)
    }

    /// Compares a return, and does not count it.
    fn returning(&self, plant: &[u8], book: &[u8], mask: u32, lengths: [usize; 2]) -> Outcome {
        let input = || format!("return, mask {mask:#x}, buffers {lengths:?}, {}", both(plant, book));
        let lent = [("plant", plant), ("book", book)];
        let ours = self.same_from_both(lent, lengths, &input, |planner, out, list| {
            planner.return_moves(plant, book, mask, out, list)
        });
        let withdrawn = self.outcome(lengths, |out, list| self.ours.withdraw(plant, book, mask, out, list));
        let refused_alike = || alone(self.ours, "its withdrawal", &input);
        self.same_answer([ours.answer.number, withdrawn.answer.number], &refused_alike);
        let made = self.outcome(lengths, |out, list| match ours.answer.number {
            0 => self.made_with(plant, book, mask, out, list),
            number => Answer::refused(number),
        });
        self.same_outcome(&ours, &made, &|| alone(self.ours, "its making", &input));
        ours
    }

    /// What an accepted return must answer and leave: the book that the same planner makes for the moves in service and
    /// those returned, and the states that its rows keep and those of the book handed in do not, by rising number.
    fn made_with(&self, plant: &[u8], book: &[u8], mask: u32, out: &mut [u8], list: &mut [u8]) -> Answer {
        match self.ours.make(plant, in_service(book) | mask, out) {
            made @ Answer { number: 0, .. } => {
                Answer { drops: list_states(kept_in_the_first(out, book), list), ..made }
            }
            refused => refused,
        }
    }

    /// Compares a withdrawal from a book that was made, and then the return of the moves that it took out of service:
    /// that gives the first book again, and lists as gained the states listed as dropped. Hands back what the
    /// withdrawal gave.
    pub fn there_and_back(&mut self, plant: &[u8], book: &[u8], mask: u32, lengths: [usize; 2]) -> (Answer, Vec<u8>) {
        let mut there = self.withdrawal(plant, book, mask, lengths);
        let dropped = there.listed().to_vec();
        let (answer, rest) = self.count_withdrawal(there);
        if answer.number == 0 {
            let taken = in_service(book) & mask;
            let mut back = self.returning(plant, &rest, taken, lengths);
            let input = || format!("return of mask {taken:#x}, just withdrawn, {}", both(plant, book));
            self.same_bytes("drop lists", back.listed(), &dropped, &input);
            let (_, again) = self.count_return(&rest, back);
            self.same_bytes("book", &again, book, &input);
        }
        (answer, rest)
    }

    /// Compares a preview with a drop buffer of this length, and hands back the answer. It must be what the withdrawal
    /// gives.
    pub fn preview(&mut self, plant: &[u8], book: &[u8], mask: u32, length: usize) -> Cost {
        let input = || format!("preview, mask {mask:#x}, buffer {length}, {}", both(plant, book));
        let lent = [("plant", plant), ("book", book)];
        let before = bytes_lent(lent);
        let mut lists = [(); 2].map(|()| Buffer::new(length, self.calls));
        let [ours, second] = &mut lists;
        let costs =
            [self.ours.preview(plant, book, mask, ours.lent()), self.second.preview(plant, book, mask, second.lent())];
        self.same_answer(costs, &input);
        self.only_read(lent, before, &input);
        self.same_buffers("drop buffer", lists.each_ref(), costs[0].number, &input);
        let alone = || alone(self.ours, "its withdrawal", &input);
        let (withdrawn, list) = self.withdrawn(plant, book, mask, length);
        self.same_answer([costs[0], withdrawn], &alone);
        self.same_bytes("drop buffer", &lists[0].bytes, &list.bytes, &alone);
        match costs[0].number {
            0 => self.same_answer([costs[0].drops + costs[0].kept, kept_count(book)], &alone),
            number => self.same_answer([costs[0], Cost::refused(number)], &alone),
        }
        self.count(costs[0].number);
        self.previewed += u64::from(costs[0].kept != 0 && costs[0].drops != 0);
        costs[0]
    }

    /// What a preview must answer and leave in a drop buffer of this length: what the same planner's withdrawal does,
    /// with room for any book, and K of the book that it writes.
    fn withdrawn(&self, plant: &[u8], book: &[u8], mask: u32, length: usize) -> (Cost, Buffer) {
        let mut out = vec![0; LONGEST_BOOK];
        let mut list = Buffer::new(length, self.calls);
        let Answer { number, drops, .. } = self.ours.withdraw(plant, book, mask, &mut out, list.lent());
        (Cost { number, drops, kept: kept_count(&out) }, list)
    }

    /// Compares a consult, and hands back the advice. It must be the same for the goal that it says to seek.
    pub fn consult(&mut self, book: &[u8], state: u32, goal: u32) -> Advice {
        let input = || format!("consult, state {state}, goal {goal}, book {}", hex(book));
        let advice = [self.ours, self.second].map(|planner| planner.consult(book, state, goal));
        self.same_answer(advice, &input);
        let [Advice { number: refused, lost, wait, seek, .. }, _] = advice;
        if refused == 0 {
            let alone = || alone(self.ours, &format!("goal {seek}"), &input);
            self.same_answer([advice[0], self.ours.consult(book, state, seek)], &alone);
        }
        if (refused, lost) == (0, 0) {
            self.passes += u64::from(seek != goal);
            self.all_served += u64::from(wait == 0 && number(book, 4) > 1);
        }
        self.count(refused);
        advice[0]
    }

    /// Compares a row, and hands back its place. Its number must be the one of consult with goal 0.
    pub fn row(&mut self, book: &[u8], state: u32) -> Part {
        let input = || format!("row, state {state}, book {}", hex(book));
        let parts = [self.ours, self.second].map(|planner| planner.row(book, state));
        self.same_answer(parts, &input);
        self.same_answer([parts[0].number, self.ours.consult(book, state, 0).number], &input);
        self.count(parts[0].number);
        parts[0]
    }

    /// Compares the call for every good move, and hands back the answer. It must be the same for the goal that consult
    /// says to seek.
    pub fn moves(&mut self, plant: &[u8], book: &[u8], state: u32, goal: u32) -> Mask {
        let input = || format!("moves, state {state}, goal {goal}, {}", both(plant, book));
        let lent = [("plant", plant), ("book", book)];
        let before = bytes_lent(lent);
        let sets = [self.ours, self.second].map(|planner| planner.moves(plant, book, state, goal));
        self.same_answer(sets, &input);
        self.only_read(lent, before, &input);
        if sets[0].number == 0 {
            let Advice { seek, .. } = self.ours.consult(book, state, goal);
            let alone = || alone(self.ours, &format!("goal {seek}"), &input);
            self.same_answer([sets[0], self.ours.moves(plant, book, state, seek)], &alone);
        }
        self.count(sets[0].number);
        self.choices += u64::from(sets[0].mask.count_ones() > 1);
        self.leaving += u64::from(sets[0].mask != 0 && leaves(plant, book, state, sets[0].mask));
        sets[0]
    }

    /// A book that must be the one that the second planner makes afresh for these moves.
    pub fn made_afresh(&self, plant: &[u8], mask: u32, book: &[u8]) {
        let input = || format!("book after a list of calls, moves {mask:#x}, plant {}", hex(plant));
        let mut afresh = vec![0; book.len()];
        let answer = self.second.make(plant, mask, &mut afresh);
        self.same_answer([answer.length as usize, book.len()], &input);
        self.same_bytes("book", book, &afresh, &input);
    }

    /// What a call answers and leaves in a book buffer and a drop buffer of these lengths.
    fn outcome(&self, lengths: [usize; 2], call: impl FnOnce(&mut [u8], &mut [u8]) -> Answer) -> Outcome {
        let [mut book, mut list] = lengths.map(|length| Buffer::new(length, self.calls));
        let answer = call(book.lent(), list.lent());
        Outcome { answer, book, list }
    }

    /// Makes a call with such buffers on both planners, which must come to the same and leave what is lent to read as
    /// it was; hands back what ours came to.
    fn same_from_both<const N: usize>(
        &self,
        lent: [(&str, &[u8]); N],
        lengths: [usize; 2],
        input: &dyn Fn() -> String,
        call: impl Fn(&dyn Calls, &mut [u8], &mut [u8]) -> Answer,
    ) -> Outcome {
        let before = bytes_lent(lent);
        let [ours, second] =
            [self.ours, self.second].map(|planner| self.outcome(lengths, |out, list| call(planner, out, list)));
        self.same_outcome(&ours, &second, input);
        self.only_read(lent, before, input);
        ours
    }

    /// The same for a call with one buffer of this length; hands back what ours answered and wrote.
    fn same_in_one<const N: usize>(
        &self,
        what: &str,
        lent: [(&str, &[u8]); N],
        length: usize,
        input: &dyn Fn() -> String,
        call: impl Fn(&dyn Calls, &mut [u8]) -> Answer,
    ) -> (Answer, Buffer) {
        let before = bytes_lent(lent);
        let mut buffers = [(); 2].map(|()| Buffer::new(length, self.calls));
        let [ours, second] = &mut buffers;
        let answers = [call(self.ours, ours.lent()), call(self.second, second.lent())];
        self.same_answer(answers, input);
        self.only_read(lent, before, input);
        self.same_buffers(what, buffers.each_ref(), answers[0].number, input);
        let [ours, _] = buffers;
        (answers[0], ours)
    }

    /// Two calls have the same answer, and the same bytes in their buffers and beside them.
    fn same_outcome(&self, ours: &Outcome, second: &Outcome, input: &dyn Fn() -> String) {
        let answers = [ours.answer, second.answer];
        self.same_answer(answers, input);
        self.same_buffers("drop buffer", [&ours.list, &second.list], answers[0].number, input);
        self.same_buffers("book buffer", [&ours.book, &second.book], answers[0].number, input);
    }

    /// Counts a call that writes a book, and hands back the answer and the book.
    fn written(&mut self, answer: Answer, mut buffer: Buffer) -> (Answer, Vec<u8>) {
        self.count(answer.number);
        let book = buffer.lent()[..answer.length as usize].to_vec();
        if answer.number == 0 {
            let (states, kept) = (number(&book, 0).into(), kept_count(&book));
            self.mixed += u64::from(kept != 0 && kept != states);
            let latest = latest_stage(&book);
            self.staged += u64::from(latest > 0);
            self.deep += u64::from(latest > 1);
        }
        (answer, book)
    }

    /// Counts a withdrawal, and hands back the answer and the book.
    fn count_withdrawal(&mut self, ours: Outcome) -> (Answer, Vec<u8>) {
        let (answer, book) = self.written(ours.answer, ours.book);
        self.partial += u64::from(answer.number == 0 && answer.drops != 0 && kept_count(&book) != 0);
        (answer, book)
    }

    /// Counts a return to a book, and hands back the answer and the new book.
    fn count_return(&mut self, before: &[u8], ours: Outcome) -> (Answer, Vec<u8>) {
        let (answer, book) = self.written(ours.answer, ours.book);
        if answer.number == 0 {
            self.returns += 1;
            self.gaining += u64::from(answer.drops != 0);
            self.losing += u64::from(kept_in_the_first(before, &book).next().is_some());
        }
        (answer, book)
    }

    /// What was lent to read, with its names, is as it was.
    fn only_read<const N: usize>(&self, lent: [(&str, &[u8]); N], before: [Vec<u8>; N], input: &dyn Fn() -> String) {
        for ((what, lent), before) in lent.into_iter().zip(before) {
            self.same_bytes(what, lent, &before, input);
        }
    }

    /// Two buffers have the same bytes, those beside them included, and after a refusal those that they had before.
    fn same_buffers(&self, what: &str, [ours, second]: [&Buffer; 2], number: u32, input: &dyn Fn() -> String) {
        self.same_bytes(what, &ours.bytes, &second.bytes, input);
        if number != 0 {
            let before = Buffer::new(ours.length, self.calls);
            self.same_bytes(&format!("{what} after a refusal"), &ours.bytes, &before.bytes, input);
        }
    }

    fn same_answer<T: PartialEq + Debug>(&self, [ours, second]: [T; 2], input: &dyn Fn() -> String) {
        if ours != second {
            self.differ(&format!("answers {ours:?} and {second:?}"), input);
        }
    }

    fn same_bytes(&self, what: &str, ours: &[u8], second: &[u8], input: &dyn Fn() -> String) {
        if ours != second {
            let at = ours.iter().zip(second).take_while(|(a, b)| a == b).count();
            let [ours, second] = [ours, second].map(|bytes| hex(&bytes[at..bytes.len().min(at + 16)]));
            self.differ(&format!("{what}, from byte {at} on: {ours} and {second}"), input);
        }
    }

    fn differ(&self, what: &str, input: &dyn Fn() -> String) -> ! {
        let [ours, second] = [self.ours, self.second].map(|planner| planner.name());
        panic!("{ours} and {second} differ at call {}: {what}\nin {}", self.calls, input())
    }

    fn count(&mut self, number: u32) {
        self.calls += 1;
        self.refused += u64::from(number != 0);
    }
}

/// The bytes that are lent to read, without their names.
fn bytes_lent<const N: usize>(lent: [(&str, &[u8]); N]) -> [Vec<u8>; N] {
    lent.map(|(_, bytes)| bytes.to_vec())
}

/// K of a book.
fn kept_count(book: &[u8]) -> u32 {
    number(book, 6).into()
}

/// The moves in service in a book.
fn in_service(book: &[u8]) -> u32 {
    u32::from(number(book, 8)) | u32::from(number(book, 10)) << 16
}

/// The states that the first book keeps and the other has lost, by rising number.
fn kept_in_the_first<'a>(first: &'a [u8], other: &'a [u8]) -> impl Iterator<Item = u16> + 'a {
    (0..number(first, 0)).filter(|&state| is_kept(first, state) && !is_kept(other, state))
}

/// Writes the numbers of these states to the start of a list; answers how many.
fn list_states(states: impl Iterator<Item = u16>, list: &mut [u8]) -> u32 {
    let bytes: Vec<u8> = states.flat_map(u16::to_le_bytes).collect();
    list[..bytes.len()].copy_from_slice(&bytes);
    bytes.len() as u32 / 2
}

/// Whether a state's row is not lost: its first number says so, whether that is a stage or a wait.
fn is_kept(book: &[u8], state: u16) -> bool {
    let row_length = (book_length(book) - 16) / usize::from(number(book, 0));
    number(book, 16 + row_length * usize::from(state)) != LOST
}

/// How long a book is, by its header.
fn book_length(book: &[u8]) -> usize {
    number(book, 14).into()
}

/// The latest stage of a book that was written; 0 if it has no stages, or keeps no state.
fn latest_stage(book: &[u8]) -> u16 {
    let rows = BookView::read(book, None).ok().filter(|rows| rows.has_stages);
    let latest = |rows: BookView| (0..rows.states).map(|state| rows.stage(state)).filter(|&stage| stage != LOST).max();
    rows.and_then(latest).unwrap_or(0)
}

/// Whether all arrows of these moves of a state end in earlier stages than its own.
fn leaves(plant: &[u8], book: &[u8], state: u32, mask: u32) -> bool {
    let rows = BookView::read(book, None).ok().filter(|rows| rows.has_stages);
    rows.zip(Plant::read(plant).ok()).is_some_and(|(rows, plant)| {
        let state = state as usize;
        let actions = (0..32).filter(|&action| in_mask(mask, action));
        actions.flat_map(|action| plant.ends(state, action)).all(|end| rows.stage(end) < rows.stage(state))
    })
}

/// The input of a call on one planner alone, which is held against something else that the same planner says.
fn alone(planner: &dyn Calls, second: &str, input: &dyn Fn() -> String) -> String {
    format!("{} alone, with {second} second: {}", planner.name(), input())
}

/// A book and a plant in hex.
fn both(plant: &[u8], book: &[u8]) -> String {
    format!("book {}, plant {}", hex(book), hex(plant))
}

/// Bytes in hex.
fn hex(bytes: &[u8]) -> String {
    bytes.iter().map(|byte| format!("{byte:02x}")).collect()
}
