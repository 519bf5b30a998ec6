//! The comparison finds planners that are wrong in ways this trade has met, and gives an input that shows it.

#![deny(warnings)]

use std::panic::{catch_unwind, set_hook, take_hook, AssertUnwindSafe};
use std::sync::Mutex;

use planbook::calls::{mask_bytes, Calls};
use planbook::compare::{rounds, Comparison};
use planbook::second::format::{in_mask, number, read_masks, together, BookView, Plant};
use planbook::second::{Fast, Solve, Table};
use planbook::sys::{Advice, Answer, Cost, Mask, Part, LONGEST_LIST};

/// A planner that remakes the book and ignores the one handed in.
struct Remake;

impl Solve for Remake {
    const NAME: &'static str = "remake";

    fn solve(plant: &Plant, mask: u32, _within: &[bool]) -> Table {
        Fast::solve(plant, mask, &vec![true; plant.states])
    }
}

/// A planner that calls every state lost.
struct AllLost;

impl Solve for AllLost {
    const NAME: &'static str = "all lost";

    fn solve(plant: &Plant, _mask: u32, _within: &[bool]) -> Table {
        Table::lost(plant)
    }
}

/// A planner that takes a move that may reach the goal for one that must.
struct MayForMust;

impl Solve for MayForMust {
    const NAME: &'static str = "may for must";

    fn solve(plant: &Plant, mask: u32, within: &[bool]) -> Table {
        let mut plant = plant.clone();
        plant.arrows.dedup_by_key(|arrow| (arrow.from, arrow.action));
        Fast::solve(&plant, mask, within)
    }
}

/// A planner whose waits stop at 1.
struct ShortWaits;

impl Solve for ShortWaits {
    const NAME: &'static str = "short waits";

    fn solve(plant: &Plant, mask: u32, within: &[bool]) -> Table {
        let mut table = Fast::solve(plant, mask, within);
        for wait in table.waits.iter_mut().filter(|wait| **wait < 1024) {
            *wait = (*wait).min(1);
        }
        table
    }
}

mod desks;
mod gauges;
mod indexes;
mod settling;

/// The good moves of a kept state for a goal, by some rule.
type Rule = fn(&Plant, &BookView, usize, usize) -> u32;

/// The goal whose good moves are given, from the plant, the book, a kept state and the goal sought.
type Aim = fn(&Plant, &BookView, usize, usize) -> usize;

/// What consult answers, from the book, a kept state and the goal sought.
type Ask = fn(&BookView, usize, usize) -> Advice;

/// What a preview answers and writes: from the plant, the book, the mask and the drop buffer.
type Look = fn(&[u8], &[u8], u32, &mut [u8]) -> Cost;

/// What a list of withdrawals answers and writes: from the call, the book buffer and the drop buffer.
type Sheet = fn(&Lines, &mut [u8], &mut [u8]) -> Answer;

/// What a return answers and writes: from the call, the book buffer and the drop buffer.
type Repair = fn(&Returned, &mut [u8], &mut [u8]) -> Answer;

/// A planner with a goal and a rule of its own for the good moves, a consult of its own, a drop list and a book of a
/// withdrawal of which it makes what it likes, and a preview, a list of withdrawals and a return of its own; all else is
/// right.
struct Own {
    name: &'static str,
    aim: Aim,
    rule: Rule,
    ask: Ask,
    list: fn(&mut [[u8; 2]]),
    patch: fn(&[u8], &mut [u8]),
    look: Look,
    sheet: Sheet,
    repair: Repair,
}

impl Calls for Own {
    fn name(&self) -> &'static str {
        self.name
    }

    fn make(&self, plant: &[u8], mask: u32, book: &mut [u8]) -> Answer {
        Fast.make(plant, mask, book)
    }

    fn withdraw(&self, plant: &[u8], book: &[u8], mask: u32, out: &mut [u8], drops: &mut [u8]) -> Answer {
        let answer = Fast.withdraw(plant, book, mask, out, drops);
        let part = &mut drops[..2 * answer.drops as usize];
        let mut numbers: Vec<[u8; 2]> = part.chunks_exact(2).map(|pair| [pair[0], pair[1]]).collect();
        (self.list)(&mut numbers);
        part.copy_from_slice(&numbers.concat());
        if answer.number == 0 {
            (self.patch)(book, &mut out[..answer.length as usize]);
        }
        answer
    }

    fn withdraw_list(&self, plant: &[u8], book: &[u8], masks: &[u8], out: &mut [u8], drops: &mut [u8]) -> Answer {
        (self.sheet)(&Lines { plant, book, masks }, out, drops)
    }

    fn return_moves(&self, plant: &[u8], book: &[u8], mask: u32, out: &mut [u8], gained: &mut [u8]) -> Answer {
        (self.repair)(&Returned { plant, book, mask }, out, gained)
    }

    fn index(&self, plant: &[u8], index: &mut [u8]) -> Answer {
        Fast.index(plant, index)
    }

    fn make_indexed(&self, plant: &[u8], index: &[u8], mask: u32, book: &mut [u8]) -> Answer {
        Fast.make_indexed(plant, index, mask, book)
    }

    fn withdraw_indexed(
        &self,
        plant: &[u8],
        index: &[u8],
        book: &[u8],
        mask: u32,
        out: &mut [u8],
        drops: &mut [u8],
    ) -> Answer {
        Fast.withdraw_indexed(plant, index, book, mask, out, drops)
    }

    fn preview(&self, plant: &[u8], book: &[u8], mask: u32, drops: &mut [u8]) -> Cost {
        (self.look)(plant, book, mask, drops)
    }

    fn consult(&self, book: &[u8], state: u32, goal: u32) -> Advice {
        match (Fast.consult(book, state, goal), BookView::read(book, None)) {
            (Advice { number: 0, lost: 0, .. }, Ok(book)) => (self.ask)(&book, state as usize, goal as usize),
            (right, _) => right,
        }
    }

    fn row(&self, book: &[u8], state: u32) -> Part {
        Fast.row(book, state)
    }

    fn moves(&self, plant: &[u8], book: &[u8], state: u32, goal: u32) -> Mask {
        let right = Fast.moves(plant, book, state, goal);
        match (Plant::read(plant), BookView::read(book, None)) {
            (Ok(plant), Ok(book)) if right.number == 0 && book.is_kept(state as usize) => {
                let goal = (self.aim)(&plant, &book, state as usize, goal as usize);
                Mask { number: 0, mask: (self.rule)(&plant, &book, state as usize, goal) }
            }
            _ => right,
        }
    }
}

/// The moves in service that lead somewhere, and wherever they may lead to a state at which the test holds.
fn all_into(plant: &Plant, mask: u32, state: usize, test: impl Fn(usize) -> bool) -> u32 {
    let good = |action: &u16| {
        let ends = plant.ends(state, *action);
        !ends.is_empty() && ends.into_iter().all(&test)
    };
    (0..32).filter(|&action| in_mask(mask, action)).filter(good).map(|action| 1 << action).sum()
}

/// Whether an end meets the rule of documents 01 and 02 for the entry of a state and a goal, where the stage cannot be
/// left; without stages all rows are of one.
fn rule<'a>(book: &'a BookView, state: usize, goal: usize) -> impl Fn(usize) -> bool + 'a {
    let (wait, stage, earlier) = (book.entry(state, goal).0, book.stage(state), is_earlier(book, state));
    let nearer = move |end| wait == 0 || book.entry(end, goal).0 < wait;
    move |end| earlier(end) || book.is_kept(end) && book.stage(end) == stage && nearer(end)
}

/// Whether an end is of an earlier stage than a state.
fn is_earlier<'a>(book: &'a BookView, state: usize) -> impl Fn(usize) -> bool + 'a {
    let stage = book.stage(state);
    move |end| book.is_kept(end) && book.stage(end) < stage
}

/// The moves of a mask that leave the stage, or if there are none, those that lead only to where the test holds.
fn leaving_or(plant: &Plant, book: &BookView, mask: u32, state: usize, test: impl Fn(usize) -> bool) -> u32 {
    match all_into(plant, mask, state, is_earlier(book, state)) {
        0 => all_into(plant, mask, state, test),
        leaving => leaving,
    }
}

/// Passes goals one by one, `most` of them at the most, as long as the test holds.
fn pass(book: &BookView, sought: usize, most: usize, test: impl Fn(usize) -> bool) -> usize {
    let passed = (0..most).take_while(|turn| test((sought + turn) % book.goals)).count();
    (sought + passed) % book.goals
}

/// Whether a state serves a goal.
fn serves<'a>(book: &'a BookView, state: usize) -> impl Fn(usize) -> bool + 'a {
    move |goal| book.entry(state, goal).0 == 0
}

/// The goal arrived at: to pass them all leads back to the one sought.
fn arrive(book: &BookView, state: usize, sought: usize) -> usize {
    pass(book, sought, book.goals, serves(book, state))
}

/// One goal is passed and no more.
fn one_pass(book: &BookView, state: usize, sought: usize) -> usize {
    pass(book, sought, 1, serves(book, state))
}

/// No goal is passed round the end: the last one stays.
fn up_to_the_last(book: &BookView, state: usize, sought: usize) -> usize {
    pass(book, sought, book.goals - 1 - sought, serves(book, state))
}

/// A goal at wait 1 is passed, too.
fn over_wait_1(book: &BookView, state: usize, sought: usize) -> usize {
    pass(book, sought, book.goals, |goal| book.entry(state, goal).0 <= 1)
}

/// Another goal where all are served.
fn if_all_served(book: &BookView, state: usize, sought: usize, other: usize) -> usize {
    match (0..book.goals).all(serves(book, state)) {
        true => other % book.goals,
        false => arrive(book, state, sought),
    }
}

/// Consult's answer with the move and the wait of a goal.
fn shown(book: &BookView, state: usize, goal: usize, seek: usize) -> Advice {
    let (wait, action) = book.entry(state, goal);
    Advice { number: 0, lost: 0, action: action.into(), wait: wait.into(), seek: seek as u32 }
}

/// Consult's answer for a goal.
fn show(book: &BookView, state: usize, goal: usize) -> Advice {
    shown(book, state, goal, goal)
}

/// The rules of document 02, and drop lists, previews, lists of withdrawals and returns as they are.
const RIGHT: Own = Own {
    name: "right",
    aim: |_, book, state, sought| arrive(book, state, sought),
    ask: |book, state, sought| show(book, state, arrive(book, state, sought)),
    rule: |plant, book, state, goal| leaving_or(plant, book, book.mask, state, rule(book, state, goal)),
    list: |_| {},
    patch: |_, _| {},
    look: |plant, book, mask, drops| Fast.preview(plant, book, mask, drops),
    sheet: |lines, out, drops| lines.right(out, drops),
    repair: |returned, out, gained| returned.right(out, gained),
};

const fn wrong_rule(name: &'static str, rule: Rule) -> Own {
    Own { name, rule, ..RIGHT }
}

const fn wrong_aim(name: &'static str, aim: Aim) -> Own {
    Own { name, aim, ..RIGHT }
}

const fn wrong_ask(name: &'static str, ask: Ask) -> Own {
    Own { name, ask, ..RIGHT }
}

const fn wrong_list(name: &'static str, list: fn(&mut [[u8; 2]])) -> Own {
    Own { name, list, ..RIGHT }
}

const fn wrong_look(name: &'static str, look: Look) -> Own {
    Own { name, look, ..RIGHT }
}

const fn wrong_sheet(name: &'static str, sheet: Sheet) -> Own {
    Own { name, sheet, ..RIGHT }
}

const fn wrong_repair(name: &'static str, repair: Repair) -> Own {
    Own { name, repair, ..RIGHT }
}

/// What a list of withdrawals is handed to read.
struct Lines<'a> {
    plant: &'a [u8],
    book: &'a [u8],
    masks: &'a [u8],
}

impl Lines<'_> {
    /// The right answer, and what is written with it.
    fn right(&self, out: &mut [u8], drops: &mut [u8]) -> Answer {
        Fast.withdraw_list(self.plant, self.book, self.masks, out, drops)
    }

    /// The number of the right answer, for which nothing is solved; nothing is written.
    fn number(&self, out: &[u8], drops: &[u8]) -> u32 {
        AllLost.withdraw_list(self.plant, self.book, self.masks, &mut out.to_vec(), &mut drops.to_vec()).number
    }

    /// The right answer, but with other masks in an accepted list.
    fn changed(&self, out: &mut [u8], drops: &mut [u8], change: fn(Vec<u32>) -> Vec<u32>) -> Answer {
        match (self.number(out, drops), read_masks(self.masks)) {
            (0, Ok(masks)) => self.with(&change(masks), out, drops),
            _ => self.right(out, drops),
        }
    }

    /// The right answer for other masks.
    fn with(&self, masks: &[u32], out: &mut [u8], drops: &mut [u8]) -> Answer {
        Lines { masks: &mask_bytes(masks), ..*self }.right(out, drops)
    }

    /// The whole masks of a list of any length.
    fn whole_masks(&self) -> Vec<u32> {
        self.masks.chunks_exact(4).flat_map(|four| read_masks(four).expect("one mask")).collect()
    }

    /// Whether a mask names only moves that the plant has.
    fn is_good(&self, mask: u32) -> bool {
        Plant::read(self.plant).is_ok_and(|plant| plant.has_moves(mask))
    }

    /// Whether a buffer is too short for the book handed in or for its states.
    fn is_short(&self, out: &[u8], drops: &[u8]) -> bool {
        is_short(self.book, out, drops)
    }

    /// The drop lists of the single withdrawals in turn, of an accepted list.
    fn drop_lists(&self) -> Vec<Vec<u8>> {
        let mut book = self.book.to_vec();
        let single = |mask: u32| {
            let mut list = vec![0; LONGEST_LIST];
            let answer = Fast.withdraw(self.plant, &book.clone(), mask, &mut book, &mut list);
            list.truncate(2 * answer.drops as usize);
            list
        };
        read_masks(self.masks).expect("an accepted list").into_iter().map(single).collect()
    }
}

/// Whether a buffer is too short for a book or for its states.
fn is_short(book: &[u8], out: &[u8], list: &[u8]) -> bool {
    out.len() < book.len() || list.len() < 2 * usize::from(number(book, 0))
}

/// The moves in service in a book.
fn in_service(book: &[u8]) -> u32 {
    u32::from(number(book, 8)) | u32::from(number(book, 10)) << 16
}

/// The states kept in both books, of which each has stages.
fn kept_in_both<'a>(old: &'a [u8], book: &'a [u8]) -> impl Iterator<Item = u16> + 'a {
    let staged = BookView::read(old, None).is_ok_and(|old| old.has_stages);
    (0..number(old, 0)).filter(move |&state| staged && is_kept(old, state) && is_kept(book, state))
}

/// Puts the old stages in the rows of states that are still kept.
fn keep_old_stages(old: &[u8], book: &mut [u8]) {
    let kept: Vec<u16> = kept_in_both(old, book).collect();
    for state in kept {
        let place = row_of(old, state).start;
        book[place..place + 2].copy_from_slice(&old[place..place + 2]);
    }
}

/// The same for stages that would be earlier than before, as those of a book that was made never are.
fn raise_to_old_stages(old: &[u8], book: &mut [u8]) {
    let kept: Vec<u16> = kept_in_both(old, book).collect();
    for state in kept {
        let place = row_of(old, state).start;
        let stage = number(old, place).max(number(book, place));
        book[place..place + 2].copy_from_slice(&stage.to_le_bytes());
    }
}

/// The bytes of a state's row.
fn row_of(book: &[u8], state: u16) -> std::ops::Range<usize> {
    let length = (usize::from(number(book, 14)) - 16) / usize::from(number(book, 0));
    let start = 16 + length * usize::from(state);
    start..start + length
}

/// Whether a state's row is not lost.
fn is_kept(book: &[u8], state: u16) -> bool {
    number(&book[row_of(book, state)], 0) != u16::MAX
}

/// Sets K of a book to the number of its rows that are not lost.
fn count_kept(book: &mut [u8]) {
    let kept = (0..number(book, 0)).filter(|&state| is_kept(book, state)).count() as u16;
    book[6..8].copy_from_slice(&kept.to_le_bytes());
}

/// What a return is handed to read.
struct Returned<'a> {
    plant: &'a [u8],
    book: &'a [u8],
    mask: u32,
}

impl Returned<'_> {
    /// The right answer, and what is written with it.
    fn right(&self, out: &mut [u8], gained: &mut [u8]) -> Answer {
        Fast.return_moves(self.plant, self.book, self.mask, out, gained)
    }

    /// The number of the right answer, for which nothing is solved; nothing is written.
    fn number(&self, out: &[u8], gained: &[u8]) -> u32 {
        AllLost.return_moves(self.plant, self.book, self.mask, &mut out.to_vec(), &mut gained.to_vec()).number
    }

    /// The moves in service before, and those returned.
    fn served(&self) -> u32 {
        in_service(self.book) | self.mask
    }

    /// The right answer, but if it is accepted, with other moves in service than those before and those returned.
    fn serving(&self, out: &mut [u8], gained: &mut [u8], serve: fn(u32, u32) -> u32) -> Answer {
        match self.number(out, gained) {
            0 => self.making(serve(in_service(self.book), self.mask), out, gained),
            _ => self.right(out, gained),
        }
    }

    /// Makes the book for these moves, and lists the states that it keeps and the one handed in does not.
    fn making(&self, mask: u32, out: &mut [u8], gained: &mut [u8]) -> Answer {
        let made = Fast.make(self.plant, mask, out);
        self.listing(made, out, gained, |before, after| !before && after)
    }

    /// The right answer, but if it is accepted, with another list: of the states that are picked by whether they were
    /// kept before and are kept now.
    fn listed(&self, out: &mut [u8], gained: &mut [u8], pick: fn(bool, bool) -> bool) -> Answer {
        match self.right(out, &mut gained.to_vec()) {
            right @ Answer { number: 0, .. } => self.listing(right, out, gained, pick),
            refused => refused,
        }
    }

    /// Lists such states of an accepted answer.
    fn listing(&self, answer: Answer, out: &[u8], list: &mut [u8], pick: fn(bool, bool) -> bool) -> Answer {
        let picked = |state: &u16| pick(is_kept(self.book, *state), is_kept(out, *state));
        let states: Vec<u8> = (0..number(self.book, 0)).filter(picked).flat_map(u16::to_le_bytes).collect();
        list[..states.len()].copy_from_slice(&states);
        Answer { drops: states.len() as u32 / 2, ..answer }
    }

    /// The right answer, but if it is accepted, with the old rows of the states that are picked by whether they were
    /// kept before and are kept now; K is that of the rows.
    fn patched(&self, out: &mut [u8], gained: &mut [u8], pick: fn(bool, bool) -> bool) -> Answer {
        let right = self.right(out, gained);
        if right.number == 0 {
            for state in 0..number(self.book, 0) {
                if pick(is_kept(self.book, state), is_kept(out, state)) {
                    let row = row_of(self.book, state);
                    out[row.clone()].copy_from_slice(&self.book[row]);
                }
            }
            count_kept(out);
        }
        right
    }

    /// Hands the old book back, and lists nothing.
    fn unchanged(&self, out: &mut [u8]) -> Answer {
        out[..self.book.len()].copy_from_slice(self.book);
        Answer { number: 0, length: self.book.len() as u32, drops: 0 }
    }
}

/// Planners with one fault each in the rule or in the drop list.
const WRONG: [Own; 16] = [
    wrong_rule("the listed move alone", |_, book, state, goal| 1 << book.entry(state, goal).1),
    wrong_rule("kept not tested at wait 0", |plant, book, state, goal| {
        let good = rule(book, state, goal);
        leaving_or(plant, book, book.mask, state, |end| book.entry(state, goal).0 == 0 || good(end))
    }),
    wrong_rule("the plant's moves for the book's mask", |plant, book, state, goal| {
        leaving_or(plant, book, u32::MAX, state, rule(book, state, goal))
    }),
    wrong_rule("the label's goal for the row's wait", |plant, book, state, goal| {
        let (wait, there) = (book.entry(state, goal).0, plant.in_goal(state, goal));
        let nearer = |end| there || book.entry(end, goal).0 < wait;
        let (earlier, stage) = (is_earlier(book, state), book.stage(state));
        let beside = |end| book.is_kept(end) && book.stage(end) == stage && nearer(end);
        leaving_or(plant, book, book.mask, state, |end| earlier(end) || beside(end))
    }),
    wrong_rule("only allowed ends", |plant, book, state, goal| {
        let good = rule(book, state, goal);
        leaving_or(plant, book, book.mask, state, |end| plant.is_allowed(end) && good(end))
    }),
    wrong_rule("leaving moves joined with others", |plant, book, state, goal| {
        all_into(plant, book.mask, state, rule(book, state, goal))
    }),
    wrong_rule("leaving asked at wait 0 alone", |plant, book, state, goal| match book.entry(state, goal).0 {
        0 => leaving_or(plant, book, book.mask, state, rule(book, state, goal)),
        _ => all_into(plant, book.mask, state, rule(book, state, goal)),
    }),
    wrong_rule("waits across stages", |plant, book, state, goal| {
        let wait = book.entry(state, goal).0;
        let nearer = |end| wait == 0 || book.entry(end, goal).0 < wait;
        leaving_or(plant, book, book.mask, state, |end| book.is_kept(end) && nearer(end))
    }),
    wrong_rule("later stages at wait 0", |plant, book, state, goal| {
        let (wait, good) = (book.entry(state, goal).0, rule(book, state, goal));
        leaving_or(plant, book, book.mask, state, |end| good(end) || wait == 0 && book.is_kept(end))
    }),
    wrong_rule("a smaller wait in earlier stages too", |plant, book, state, goal| {
        let wait = book.entry(state, goal).0;
        let good = rule(book, state, goal);
        let nearer = |end| wait == 0 || book.entry(end, goal).0 < wait;
        leaving_or(plant, book, book.mask, state, |end| good(end) && nearer(end))
    }),
    Own { name: "old stages kept in a withdrawal", patch: keep_old_stages, ..RIGHT },
    Own { name: "stages that never fall kept", patch: raise_to_old_stages, ..RIGHT },
    wrong_list("dropped states by falling number", |list| list.reverse()),
    wrong_list("dropped states by their bytes", |list| list.sort_unstable()),
    wrong_list("dropped states high byte first", |list| list.iter_mut().for_each(|number| number.reverse())),
    wrong_list("the last dropped state first", |list| list.rotate_right(usize::from(!list.is_empty()))),
];

/// Planners with one fault each in the goal whose good moves they give. Beside themselves, the first `UNSTEADY_AIMS`
/// show by consult: they give other moves for the goal that it says to seek.
const WRONG_AIMS: [Own; 7] = [
    wrong_aim("the good moves of the goal sought", |_, _, _, sought| sought),
    wrong_aim("the good moves after one pass", |_, book, state, sought| one_pass(book, state, sought)),
    wrong_aim("the good moves with none passed round the end", |_, book, state, sought| {
        up_to_the_last(book, state, sought)
    }),
    wrong_aim("the good moves with goals passed by the label", |plant, book, state, sought| {
        pass(book, sought, book.goals, |goal| plant.in_goal(state, goal))
    }),
    wrong_aim("the good moves with wait 1 passed", |_, book, state, sought| over_wait_1(book, state, sought)),
    wrong_aim("the good moves from the first goal on", |_, book, state, _| arrive(book, state, 0)),
    wrong_aim("the good moves of one goal too far", |_, book, state, sought| {
        (arrive(book, state, sought) + 1) % book.goals
    }),
];
const UNSTEADY_AIMS: usize = 5;

/// Planners with one fault each in consult alone. Beside themselves, the first `UNSTEADY_ASKS` show by the goal that
/// they say to seek: for it they answer otherwise, or their good moves are others.
const WRONG_ASKS: [Own; 14] = [
    wrong_ask("none passed, and the next goal to seek at wait 0", |book, state, sought| {
        shown(book, state, sought, one_pass(book, state, sought))
    }),
    wrong_ask("one pass", |book, state, sought| show(book, state, one_pass(book, state, sought))),
    wrong_ask("one pass too few", |book, state, sought| {
        show(book, state, pass(book, sought, book.goals - 1, serves(book, state)))
    }),
    wrong_ask("from the first goal on", |book, state, _| show(book, state, arrive(book, state, 0))),
    wrong_ask("wait 1 passed", |book, state, sought| show(book, state, over_wait_1(book, state, sought))),
    wrong_ask("the next goal when all are served", |book, state, sought| {
        show(book, state, if_all_served(book, state, sought, sought + 1))
    }),
    wrong_ask("move and wait of the goal sought", |book, state, sought| {
        shown(book, state, sought, arrive(book, state, sought))
    }),
    wrong_ask("the move of the goal sought", |book, state, sought| {
        let Advice { action, .. } = show(book, state, sought);
        Advice { action, ..show(book, state, arrive(book, state, sought)) }
    }),
    wrong_ask("the wait of the goal sought", |book, state, sought| {
        let Advice { wait, .. } = show(book, state, sought);
        Advice { wait, ..show(book, state, arrive(book, state, sought)) }
    }),
    wrong_ask("one goal too far to seek", |book, state, sought| {
        let goal = arrive(book, state, sought);
        shown(book, state, goal, (goal + 1) % book.goals)
    }),
    wrong_ask("none passed", show),
    wrong_ask("none passed round the end", |book, state, sought| {
        show(book, state, up_to_the_last(book, state, sought))
    }),
    wrong_ask("the first goal when all are served", |book, state, sought| {
        show(book, state, if_all_served(book, state, sought, 0))
    }),
    wrong_ask("the goal sought still to seek", |book, state, sought| {
        shown(book, state, arrive(book, state, sought), sought)
    }),
];
const UNSTEADY_ASKS: usize = 10;

/// Planners with one fault each in the preview alone.
const WRONG_LOOKS: [Own; 7] = [
    wrong_look("the old K", |plant, book, mask, drops| {
        let right = Fast.preview(plant, book, mask, drops);
        Cost { kept: right.kept + right.drops, ..right }
    }),
    wrong_look("nothing listed", |plant, book, mask, drops| Fast.preview(plant, book, mask, &mut drops.to_vec())),
    wrong_look("every kept state listed", |plant, book, mask, drops| {
        let right = Fast.preview(plant, book, mask, drops);
        if right.number == 0 {
            // Without any move, every kept state is dropped.
            Fast.preview(plant, book, in_service(book), drops);
        }
        right
    }),
    wrong_look("an end mark past the list", |plant, book, mask, drops| {
        let right = Fast.preview(plant, book, mask, drops);
        if right.number == 0 {
            drops[2 * right.drops as usize..].iter_mut().take(2).for_each(|byte| *byte = 0xff);
        }
        right
    }),
    wrong_look("room for a book asked for", |plant, book, mask, drops| {
        let lent = if drops.len() < book.len() { 0 } else { drops.len() };
        Fast.preview(plant, book, mask, &mut drops[..lent])
    }),
    wrong_look("K in a refusal", |plant, book, mask, drops| match Fast.preview(plant, book, mask, drops) {
        Cost { number: 7, .. } => Cost { kept: number(book, 6).into(), ..Cost::refused(7) },
        right => right,
    }),
    wrong_look("the book handed in ignored", |plant, book, mask, drops| Remake.preview(plant, book, mask, drops)),
];

/// Planners with one fault each in the list of withdrawals alone. Beside themselves, the first `WRONG_IN_TURN` show by
/// their single withdrawals in turn, and the others by what they refuse, too, or by what they write though they refuse.
const WRONG_SHEETS: [Own; 18] = [
    wrong_sheet("the drop lists joined", |lines, out, drops| {
        let right = lines.right(out, drops);
        if right.number == 0 {
            let joined = lines.drop_lists().concat();
            drops[..joined.len()].copy_from_slice(&joined);
        }
        right
    }),
    wrong_sheet("only the last drops listed", |lines, out, drops| match lines.right(out, &mut drops.to_vec()) {
        right @ Answer { number: 0, .. } => {
            let last = lines.drop_lists().pop().expect("one withdrawal at least");
            drops[..last.len()].copy_from_slice(&last);
            Answer { drops: last.len() as u32 / 2, ..right }
        }
        refused => refused,
    }),
    wrong_sheet("an empty list hands the old book back", |lines, out, drops| match lines.number(out, drops) {
        0 if lines.masks.is_empty() => {
            out[..lines.book.len()].copy_from_slice(lines.book);
            Answer { number: 0, length: lines.book.len() as u32, drops: 0 }
        }
        _ => lines.right(out, drops),
    }),
    wrong_sheet("only the last mask", |lines, out, drops| {
        lines.changed(out, drops, |masks| masks[masks.len() - 1..].to_vec())
    }),
    wrong_sheet("the first mask forgotten", |lines, out, drops| lines.changed(out, drops, |masks| masks[1..].to_vec())),
    wrong_sheet("exclusive or of the masks", |lines, out, drops| {
        lines.changed(out, drops, |masks| vec![masks.into_iter().fold(0, |all, mask| all ^ mask)])
    }),
    wrong_sheet("the book handed in ignored by a list", |lines, out, drops| {
        Remake.withdraw_list(lines.plant, lines.book, lines.masks, out, drops)
    }),
    wrong_sheet("masks high byte first", |lines, out, drops| {
        lines.changed(out, drops, |masks| masks.into_iter().map(u32::swap_bytes).collect())
    }),
    wrong_sheet("60 bytes at most", |lines, out, drops| match lines.number(out, drops) {
        0 | 6 | 7 if lines.masks.len() > 60 => Answer::refused(9),
        _ => lines.right(out, drops),
    }),
    wrong_sheet("68 bytes at most", |lines, out, drops| match lines.number(out, drops) {
        9 if lines.masks.len() == 68 => {
            Fast.withdraw(lines.plant, lines.book, together(&lines.whole_masks()), out, drops)
        }
        _ => lines.right(out, drops),
    }),
    wrong_sheet("a cut mask left out", |lines, out, drops| match lines.number(out, drops) {
        9 if lines.masks.len() < 64 && !lines.is_short(out, drops) => lines.with(&lines.whole_masks(), out, drops),
        _ => lines.right(out, drops),
    }),
    wrong_sheet("an empty list refused", |lines, out, drops| match lines.number(out, drops) {
        0 | 7 if lines.masks.is_empty() => Answer::refused(9),
        _ => lines.right(out, drops),
    }),
    wrong_sheet("9 before all others", |lines, out, drops| match lines.number(out, drops) {
        1..=5 if read_masks(lines.masks).is_err() => Answer::refused(9),
        _ => lines.right(out, drops),
    }),
    wrong_sheet("6 before 9", |lines, out, drops| match lines.number(out, drops) {
        9 if !lines.is_good(together(&lines.whole_masks())) => Answer::refused(6),
        _ => lines.right(out, drops),
    }),
    wrong_sheet("7 before 9", |lines, out, drops| match lines.number(out, drops) {
        9 if lines.is_short(out, drops) => Answer::refused(7),
        _ => lines.right(out, drops),
    }),
    wrong_sheet("7 before 6", |lines, out, drops| match lines.number(out, drops) {
        6 if lines.is_short(out, drops) => Answer::refused(7),
        _ => lines.right(out, drops),
    }),
    wrong_sheet("a bad mask skipped", |lines, out, drops| match lines.number(out, drops) {
        6 if !lines.is_short(out, drops) => {
            let good: Vec<u32> = lines.whole_masks().into_iter().filter(|&mask| lines.is_good(mask)).collect();
            lines.with(&good, out, drops)
        }
        _ => lines.right(out, drops),
    }),
    wrong_sheet("good masks before a bad one withdrawn", |lines, out, drops| match lines.number(out, drops) {
        6 => {
            let good: Vec<u32> = lines.whole_masks().into_iter().take_while(|&mask| lines.is_good(mask)).collect();
            if !good.is_empty() {
                lines.with(&good, out, drops);
            }
            Answer::refused(6)
        }
        _ => lines.right(out, drops),
    }),
];
const WRONG_IN_TURN: usize = 7;

/// Planners with one fault each in the return alone. Beside themselves, the first `WRONG_MAKINGS` show by their making,
/// and the others by what their withdrawal refuses, or by what they write though they refuse.
const WRONG_REPAIRS: [Own; 31] = [
    wrong_repair("within the old kept states", |returned, out, gained| match returned.number(out, gained) {
        0 => {
            let mut book = returned.book.to_vec();
            book[8..12].copy_from_slice(&returned.served().to_le_bytes());
            let answer = Fast.withdraw(returned.plant, &book, 0, out, &mut gained.to_vec());
            Answer { drops: 0, ..answer }
        }
        _ => returned.right(out, gained),
    }),
    wrong_repair("a withdrawal", |returned, out, gained| {
        Fast.withdraw(returned.plant, returned.book, returned.mask, out, gained)
    }),
    wrong_repair("exclusive or of old and returned moves", |returned, out, gained| {
        returned.serving(out, gained, |old, mask| old ^ mask)
    }),
    wrong_repair("the returned moves alone", |returned, out, gained| returned.serving(out, gained, |_, mask| mask)),
    wrong_repair("the old moves again", |returned, out, gained| returned.serving(out, gained, |old, _| old)),
    wrong_repair("and in place of or", |returned, out, gained| returned.serving(out, gained, |old, mask| old & mask)),
    wrong_repair("and not in place of or", |returned, out, gained| {
        returned.serving(out, gained, |old, mask| old & !mask)
    }),
    wrong_repair("the lowest returned move alone", |returned, out, gained| {
        returned.serving(out, gained, |old, mask| old | mask & mask.wrapping_neg())
    }),
    wrong_repair("the low half of the returned moves", |returned, out, gained| {
        returned.serving(out, gained, |old, mask| old | mask & 0xffff)
    }),
    wrong_repair("the old book for no move", |returned, out, gained| match returned.number(out, gained) {
        0 if returned.mask == 0 => returned.unchanged(out),
        _ => returned.right(out, gained),
    }),
    wrong_repair("the old book for no new move", |returned, out, gained| match returned.number(out, gained) {
        0 if returned.mask & !in_service(returned.book) == 0 => returned.unchanged(out),
        _ => returned.right(out, gained),
    }),
    wrong_repair("the old book with another mask", |returned, out, gained| match returned.number(out, gained) {
        0 => {
            let answer = returned.unchanged(out);
            out[8..12].copy_from_slice(&returned.served().to_le_bytes());
            answer
        }
        _ => returned.right(out, gained),
    }),
    wrong_repair("old rows kept, new states added", |returned, out, gained| {
        returned.patched(out, gained, |before, after| before && after)
    }),
    wrong_repair("kept states stay kept", |returned, out, gained| {
        returned.patched(out, gained, |before, after| before && !after)
    }),
    wrong_repair("every kept state listed as gained", |returned, out, gained| {
        returned.listed(out, gained, |_, after| after)
    }),
    wrong_repair("every state listed that is lost before", |returned, out, gained| {
        returned.listed(out, gained, |before, _| !before)
    }),
    wrong_repair("states kept before or after but not both", |returned, out, gained| {
        returned.listed(out, gained, |before, after| before != after)
    }),
    wrong_repair("dropped states for gained ones", |returned, out, gained| {
        returned.listed(out, gained, |before, after| before && !after)
    }),
    wrong_repair("nothing listed as gained", |returned, out, gained| returned.listed(out, gained, |_, _| false)),
    wrong_repair("gained states written, and not counted", |returned, out, gained| Answer {
        drops: 0,
        ..returned.right(out, gained)
    }),
    wrong_repair("gained states by falling number", |returned, out, gained| {
        let right = returned.right(out, gained);
        let list = &mut gained[..2 * right.drops as usize];
        let falling: Vec<u8> = list.chunks_exact(2).rev().flatten().copied().collect();
        list.copy_from_slice(&falling);
        right
    }),
    wrong_repair("gained states high byte first", |returned, out, gained| {
        let right = returned.right(out, gained);
        gained[..2 * right.drops as usize].chunks_exact_mut(2).for_each(|number| number.reverse());
        right
    }),
    wrong_repair("an end mark past the gained states", |returned, out, gained| {
        let right = returned.right(out, gained);
        if right.number == 0 {
            gained[2 * right.drops as usize..].iter_mut().take(2).for_each(|byte| *byte = 0xff);
        }
        right
    }),
    wrong_repair("the length in a refusal", |returned, out, gained| match returned.right(out, gained) {
        Answer { number: 7, .. } => Answer { length: returned.book.len() as u32, ..Answer::refused(7) },
        right => right,
    }),
    wrong_repair("a move in service refused", |returned, out, gained| match returned.number(out, gained) {
        0 | 7 if returned.mask & in_service(returned.book) != 0 => Answer::refused(6),
        _ => returned.right(out, gained),
    }),
    wrong_repair("the returned mask not checked", |returned, out, gained| match returned.number(out, gained) {
        6 if !is_short(returned.book, out, gained) => {
            let every_move = u32::MAX >> (32 - number(returned.book, 2));
            Returned { mask: returned.mask & every_move, ..*returned }.right(out, gained)
        }
        _ => returned.right(out, gained),
    }),
    wrong_repair("7 before 6 in a return", |returned, out, gained| match returned.number(out, gained) {
        6 if is_short(returned.book, out, gained) => Answer::refused(7),
        _ => returned.right(out, gained),
    }),
    wrong_repair("one byte more asked for", |returned, out, gained| match returned.number(out, gained) {
        0 if out.len() == returned.book.len() => Answer::refused(7),
        _ => returned.right(out, gained),
    }),
    wrong_repair("room for the kept states alone", |returned, out, gained| match returned.number(out, gained) {
        7 if out.len() >= returned.book.len() => {
            let (mut book, mut list) = (out.to_vec(), vec![0; LONGEST_LIST]);
            let right = returned.right(&mut book, &mut list);
            if gained.len() < 2 * usize::from(number(&book, 6)) {
                return Answer::refused(7);
            }
            out.copy_from_slice(&book);
            returned.listing(right, out, gained, |before, after| !before && after)
        }
        _ => returned.right(out, gained),
    }),
    wrong_repair("K not checked", |returned, out, gained| match returned.number(out, gained) {
        5 => {
            let mut book = returned.book.to_vec();
            count_kept(&mut book);
            Returned { book: &book, ..*returned }.right(out, gained)
        }
        _ => returned.right(out, gained),
    }),
    wrong_repair("the book written though the list is refused", |returned, out, gained| {
        let right = returned.right(out, gained);
        if right.number == 7 && out.len() >= returned.book.len() {
            Fast.make(returned.plant, returned.served(), out);
        }
        right
    }),
];
const WRONG_MAKINGS: usize = 24;

/// All random rounds, for some calls of each kind.
fn compare(planner: &dyn Calls, second: &dyn Calls) {
    let mut comparison = Comparison::new(planner, second);
    for (_, round) in rounds::RANDOM_ROUNDS {
        rounds::run(&mut comparison, round, 1, 3_000);
    }
}

/// Finds each of these planners to differ from the one beside it.
fn check_found<'a>(pairs: impl Iterator<Item = [&'a dyn Calls; 2]>, part: &str) {
    differences(pairs.map(|[wrong, second]| (wrong.name(), move || compare(wrong, second))), part);
}

/// One at a time: what is printed of a panic is one for all tests.
static QUIET: Mutex<()> = Mutex::new(());

/// Each of these comparisons finds a difference. The message has the name beside it and the call's input, with the part
/// that is named.
fn differences<C: FnOnce()>(comparisons: impl Iterator<Item = (&'static str, C)>, part: &str) {
    let quiet = QUIET.lock();
    // The differences are wanted: nothing is printed of them.
    set_hook(Box::new(|_| {}));
    let found: Vec<_> = comparisons.map(|(name, compare)| (name, catch_unwind(AssertUnwindSafe(compare)))).collect();
    let _ = take_hook();
    drop(quiet);
    for (name, compared) in found {
        let payload = compared.err().unwrap_or_else(|| panic!("{name}: no difference"));
        let message = payload.downcast::<String>().expect("a message");
        println!("{name}: {}", &message[..message.len().min(160)]);
        assert!(message.contains(name) && message.contains(part), "{message}");
    }
}

/// Beside a right planner.
fn beside_fast(wrong: &dyn Calls) -> [&dyn Calls; 2] {
    [wrong, &Fast]
}

/// Beside itself, so that the fault must show by what the planner says elsewhere.
fn beside_itself(wrong: &dyn Calls) -> [&dyn Calls; 2] {
    [wrong, wrong]
}

#[test]
fn wrong_planners_are_found() {
    // No difference: what is found of the others is their faults alone.
    compare(&RIGHT, &Fast);
    let solvers = [&Remake as &dyn Calls, &AllLost, &MayForMust, &ShortWaits];
    let own = WRONG.iter().chain(&WRONG_LOOKS).chain(&WRONG_AIMS).map(|planner| planner as &dyn Calls);
    check_found(solvers.into_iter().chain(own).map(beside_fast), ", plant ");
    check_found(WRONG_SHEETS.iter().map(|planner| beside_fast(planner)), "in withdraw list, masks ");
    check_found(WRONG_REPAIRS.iter().map(|planner| beside_fast(planner)), "in return, mask ");
    // A wrong preview shows by the planner's own withdrawal, and a wrong goal by its own consult.
    let unsteady = WRONG_LOOKS.iter().chain(&WRONG_AIMS[..UNSTEADY_AIMS]);
    check_found(unsteady.map(|planner| beside_itself(planner)), ", plant ");
    // A wrong list shows by the planner's own withdrawals, and a wrong refusal of it by that of all its moves at once.
    let (in_turn, others) = WRONG_SHEETS.split_at(WRONG_IN_TURN);
    let part = " alone, with its single withdrawals in turn second: withdraw list";
    check_found(in_turn.iter().map(|planner| beside_itself(planner)), part);
    check_found(others.iter().map(|planner| beside_itself(planner)), "withdraw list, masks ");
    // A wrong return shows by the planner's own making, and a wrong refusal of it by its own withdrawal.
    let (makings, others) = WRONG_REPAIRS.split_at(WRONG_MAKINGS);
    check_found(makings.iter().map(|planner| beside_itself(planner)), " alone, with its making second: return, mask ");
    check_found(others.iter().map(|planner| beside_itself(planner)), "return, mask ");
    // What is wrong by an index shows by the calls without one, but for what is wrong in building it alone.
    compare(&indexes::RIGHT, &Fast);
    check_found(indexes::all().map(beside_fast), "index, ");
    check_found(indexes::unlike_without().map(beside_itself), " by index, mask ");
    // Consult takes no plant.
    check_found(WRONG_ASKS.iter().map(|planner| beside_fast(planner)), "in consult, state ");
    check_found(WRONG_ASKS[..UNSTEADY_ASKS].iter().map(|planner| beside_itself(planner)), ", book ");
    // In plants that must settle alone.
    compare(&settling::Settling::<0>, &Fast);
    check_found(settling::flawed().into_iter().map(beside_fast), ", plant ");
    check_found(settling::LENIENT.iter().map(|planner| beside_fast(planner)), " differ at call ");
}
