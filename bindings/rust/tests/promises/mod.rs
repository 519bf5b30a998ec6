//! What requests (i), (ii), (iv) to (x) of document 02 promise of the books that make, withdraw or return wrote
//! for a plant: which goal is arrived at and which the good moves are, that following the book meets all goals, by its
//! own moves or by any pick from the good ones, what a drop list says of the books before and after, that previews come
//! true, what a list of withdrawals comes to, that returns undo withdrawals, what an index is and that calls by it come
//! to those without, what any list of calls comes to, and which part of the plant a row hangs on.
//! Run on any planner; nothing is compared with another.

use planbook::calls::{mask_bytes, Calls};
use planbook::plants::{self, Model, Random, FAMILIES, SETTLED, WAYS_TO_SETTLE};
use planbook::second::format::{in_mask, number, together, BookView, Plant};
use planbook::sys::{Advice, Answer, LONGEST_INDEX};

/// Every move of a mask.
fn moves_of(mask: u32) -> Vec<u16> {
    (0..32).filter(|&action| in_mask(mask, action)).collect()
}

/// How long a plant's books are, and the list of all its states.
fn lengths(model: &Model) -> [usize; 2] {
    [model.book_length(), model.list_length()]
}

/// The book of a plant with the moves of a mask in service.
fn make(planner: &dyn Calls, model: &Model, mask: u32) -> Vec<u8> {
    let mut book = vec![0; lengths(model)[0]];
    assert_eq!(planner.make(&model.bytes(), mask, &mut book).number, 0);
    book
}

/// The book that an accepted call writes, and the states that it lists.
fn written_by(model: &Model, call: impl FnOnce(&mut [u8], &mut [u8]) -> Answer) -> (Vec<u8>, Vec<u16>) {
    let [mut out, mut list] = lengths(model).map(|length| vec![0; length]);
    let answer = call(&mut out, &mut list);
    assert_eq!(answer.number, 0);
    (out, listed(&list, answer.drops))
}

/// The book without the moves of a mask, and the drop list.
fn withdraw_listed(planner: &dyn Calls, model: &Model, book: &[u8], mask: u32) -> (Vec<u8>, Vec<u16>) {
    written_by(model, |out, list| planner.withdraw(&model.bytes(), book, mask, out, list))
}

/// The book without the moves of a list of masks, and the drop list.
fn withdraw_list(planner: &dyn Calls, model: &Model, book: &[u8], masks: &[u32]) -> (Vec<u8>, Vec<u16>) {
    written_by(model, |out, list| planner.withdraw_list(&model.bytes(), book, &mask_bytes(masks), out, list))
}

/// The book with the moves of a mask back in service, and the states gained.
fn return_moves(planner: &dyn Calls, model: &Model, book: &[u8], mask: u32) -> (Vec<u8>, Vec<u16>) {
    written_by(model, |out, list| planner.return_moves(&model.bytes(), book, mask, out, list))
}

/// The states that a withdrawal of the moves of a mask would drop, and how many it would keep.
fn preview(planner: &dyn Calls, model: &Model, book: &[u8], mask: u32) -> (Vec<u16>, usize) {
    let mut drops = vec![0; 2 * model.labels.len()];
    let cost = planner.preview(&model.bytes(), book, mask, &mut drops);
    assert_eq!(cost.number, 0);
    (listed(&drops, cost.drops), cost.kept as usize)
}

/// The first `count` numbers of a list of states.
fn listed(list: &[u8], count: u32) -> Vec<u16> {
    (0..count as usize).map(|at| number(list, 2 * at)).collect()
}

/// The book without the moves of a mask.
fn withdraw(planner: &dyn Calls, model: &Model, book: &[u8], mask: u32) -> Vec<u8> {
    withdraw_listed(planner, model, book, mask).0
}

/// What is read from a book that was written.
fn read(book: &[u8]) -> BookView<'_> {
    BookView::read(book, None).expect("a book that was written")
}

/// A plant of any size and either sort, and a book of it that make wrote for all moves or some, or withdraw or return
/// from that.
fn any_book(planner: &dyn Calls, random: &mut Random) -> (Model, Vec<u8>) {
    let model = if random.once_in(2) { plants::tiny(random) } else { plants::any_size(random) };
    let model = plants::either_sort(model, random);
    let some = if random.once_in(4) { random.bits() as u32 } else { u32::MAX };
    let mut book = make(planner, &model, model.every_move() & some);
    for _ in 0..random.below(3) {
        let mask = 1 << random.below(model.moves.into());
        book = match random.once_in(4) {
            true => return_moves(planner, &model, &book, mask).0,
            false => withdraw(planner, &model, &book, mask),
        };
    }
    (model, book)
}

/// A drop list strictly rises, and a state is in it exactly when its row is kept in the book before and lost in the one
/// after.
pub fn drop_lists_are_read_from_the_books(planner: &dyn Calls) {
    // How many lists have no state, one, and more, and how many reach past state 255.
    let (mut sizes, mut high) = ([0; 3], 0);
    for seed in 0..4_000 {
        let random = &mut Random::new(seed);
        let (model, book) = any_book(planner, random);
        let (after, list) = withdraw_listed(planner, &model, &book, random.bits() as u32 & model.every_move());
        let (before, after) = (read(&book), read(&after));
        assert!(list.windows(2).all(|pair| pair[0] < pair[1]), "the list of seed {seed} rises: {list:?}");
        for state in 0..before.states {
            let dropped = before.is_kept(state) && !after.is_kept(state);
            assert_eq!(list.contains(&(state as u16)), dropped, "state {state} in the list of seed {seed}: {list:?}");
        }
        assert!(list.iter().all(|&state| usize::from(state) < before.states), "states alone, seed {seed}: {list:?}");
        sizes[list.len().min(2)] += 1;
        high += u64::from(list.len() > 1 && list.last() > Some(&255));
    }
    let [none, one, more] = sizes;
    println!("{}: {none} empty drop lists, {one} of one state, {more} of more, {high} past 255", planner.name());
    assert!(none > 1_000 && one > 50 && more > 500 && high > 50);
}

/// The states whose rows are kept, by rising number.
fn kept_states(book: &[u8]) -> Vec<u16> {
    let rows = read(book);
    (0..rows.states).filter(|&state| rows.is_kept(state)).map(|state| state as u16).collect()
}

/// The states whose rows are kept in the book before and lost in the one after, by rising number.
fn dropped_states(before: &[u8], after: &[u8]) -> Vec<u16> {
    let after = read(after);
    kept_states(before).into_iter().filter(|&state| !after.is_kept(state.into())).collect()
}

/// Previews come true. For each withdrawal of a list the preview tells which kept rows the book after it has lost, and
/// how many it has kept; and from the first book, the preview of all these moves at once tells the same of the last.
pub fn previews_come_true(planner: &dyn Calls) {
    // How many previews drop no state, drop some and keep others, and drop all.
    let mut costs = [0; 3];
    for seed in 0..2_000 {
        let random = &mut Random::new(seed);
        let (model, first) = any_book(planner, random);
        let masks: Vec<u32> = (0..random.from_to(1, 5)).map(|_| 1 << random.below(model.moves.into())).collect();
        let mut check = |before: &[u8], mask: u32, after: &[u8]| {
            let (dropped, kept) = (dropped_states(before, after), kept_states(after));
            let previewed = preview(planner, &model, before, mask);
            let kind = match (dropped.is_empty(), kept.is_empty()) {
                (true, _) => 0,
                (false, false) => 1,
                (false, true) => 2,
            };
            costs[kind] += 1;
            assert_eq!(previewed, (dropped, kept.len()), "mask {mask:#x} of {masks:x?}, seed {seed}");
        };
        let mut book = first.clone();
        for &mask in &masks {
            let after = withdraw(planner, &model, &book, mask);
            check(&book, mask, &after);
            book = after;
        }
        check(&first, together(&masks), &book);
    }
    let [none, some, all] = costs;
    println!("{}: {none} previews drop no state, {some} drop some and keep others, {all} drop all", planner.name());
    assert!(none > 1_000 && some > 200 && all > 200);
}

/// A list of withdrawals comes to the book of the single ones in turn, which is the one made afresh for the moves left
/// in service; to cut it in two, anywhere, or to turn it round makes no difference. Its drop list has the states whose
/// rows are kept in the first book and lost in the last, by rising number.
pub fn lists_come_to_the_withdrawals_in_turn(planner: &dyn Calls) {
    // How many lists have each number of masks; and in how many no mask drops states, one does, and more do.
    let (mut lengths, mut costs) = ([0; 17], [0; 3]);
    for seed in 0..1_000 {
        let random = &mut Random::new(seed);
        let (model, first) = any_book(planner, random);
        let mut masks = vec![0; random.from_to(0, 16)];
        masks.fill_with(|| 1 << random.below(model.moves.into()) & random.bits() as u32);
        let (mut last, mut dropping) = (first.clone(), 0);
        for &mask in &masks {
            let (next, list) = withdraw_listed(planner, &model, &last, mask);
            dropping += usize::from(!list.is_empty());
            last = next;
        }
        let expected = (last.clone(), dropped_states(&first, &last));
        assert_eq!(withdraw_list(planner, &model, &first, &masks), expected, "{masks:x?}, seed {seed}");
        let afresh = make(planner, &model, read(&first).mask & !together(&masks));
        assert_eq!(last, afresh, "made afresh without {masks:x?}, seed {seed}");
        let (one, two) = masks.split_at(random.below(masks.len() + 1));
        let (between, _) = withdraw_list(planner, &model, &first, one);
        let (in_two, _) = withdraw_list(planner, &model, &between, two);
        assert_eq!(in_two, last, "{one:x?} and then {two:x?}, seed {seed}");
        lengths[masks.len()] += 1;
        costs[dropping.min(2)] += 1;
        masks.reverse();
        assert_eq!(withdraw_list(planner, &model, &first, &masks), expected, "{masks:x?}, seed {seed}");
    }
    let [none, one, more] = costs;
    println!(
        "{}: in {none} lists of withdrawals no mask drops states, in {one} one does, in {more} more do; by their \
         number of masks, from 0 to 16: {lengths:?}",
        planner.name()
    );
    assert!(none > 500 && one > 100 && more > 50 && lengths.iter().all(|&many| many > 30));
}

/// Returns undo withdrawals: when the moves come back that a withdrawal took out of service, at once or in two parts,
/// with or without others that never went, the first book is back, and the states gained are those dropped.
pub fn returns_undo_withdrawals(planner: &dyn Calls) {
    // How many withdrawals drop no state, and in how many others one part of the moves gains states, and both do.
    let mut gains = [0; 3];
    for seed in 0..2_000 {
        let random = &mut Random::new(seed);
        let (model, first) = any_book(planner, random);
        let [withdrawn, part, others] = [(); 3].map(|()| random.bits() as u32 & model.every_move());
        let (rest, dropped) = withdraw_listed(planner, &model, &first, withdrawn);
        let in_service = read(&first).mask;
        let taken = in_service & withdrawn;
        for mask in [taken, taken | others & in_service] {
            let back = return_moves(planner, &model, &rest, mask);
            assert_eq!(back, (first.clone(), dropped.clone()), "{mask:#x} of {withdrawn:#x} back, seed {seed}");
        }
        let (between, one) = return_moves(planner, &model, &rest, taken & part);
        let (last, two) = return_moves(planner, &model, &between, taken & !part);
        let gaining = [&one, &two].into_iter().filter(|list| !list.is_empty()).count();
        let mut gained = [one, two].concat();
        gained.sort_unstable();
        assert_eq!((last, gained), (first, dropped), "{taken:#x} back in two parts, seed {seed}");
        gains[gaining] += 1;
    }
    let [none, one, both] = gains;
    println!("{}: {none} returns gain no state, {one} by one of two parts, {both} by both", planner.name());
    assert!(none > 500 && one > 200 && both > 100);
}

/// The book with some rows set to lost and some to kept, with the lowest move in service, and with K as it is then: one
/// that nobody made.
fn tampered(book: &[u8], random: &mut Random) -> Vec<u8> {
    let mut book = book.to_vec();
    let rows = read(&book);
    let (row_length, opening) = (rows.row_length(), if rows.has_stages { 2 } else { 0 });
    let lowest = moves_of(rows.mask).first().map(|&action| [0, 0, action as u8, 0]);
    for row in book[16..].chunks_exact_mut(row_length) {
        match (random.below(4), lowest) {
            (0, _) => row.fill(0xff),
            (1, Some(entry)) => {
                row[..opening].copy_from_slice(&[1, 0][..opening]);
                row[opening..].chunks_exact_mut(4).for_each(|place| place.copy_from_slice(&entry));
            }
            _ => {}
        }
    }
    let kept = book[16..].chunks_exact(row_length).filter(|row| row[..2] != [0xff; 2]).count() as u16;
    book[6..8].copy_from_slice(&kept.to_le_bytes());
    book
}

/// A return comes to the book that is made afresh for the moves in service together with those returned, whichever
/// states the book handed in keeps. Its list strictly rises, and a state is in it exactly when its row is lost in the
/// book before and kept in the one after.
pub fn returns_come_to_a_making(planner: &dyn Calls) {
    // How many lists have no state, one, and more, and how many reach past state 255; and how many books have lost a
    // state that the one handed in keeps.
    let (mut sizes, mut high, mut losing) = ([0; 3], 0, 0);
    for seed in 0..2_000 {
        let random = &mut Random::new(seed);
        let (model, written) = any_book(planner, random);
        let mask = random.bits() as u32 & model.every_move();
        for book in [tampered(&written, random), written] {
            let (after, list) = return_moves(planner, &model, &book, mask);
            let afresh = make(planner, &model, read(&book).mask | mask);
            assert_eq!(after, afresh, "made afresh with {mask:#x}, seed {seed}");
            assert_eq!(list, dropped_states(&after, &book), "lost before and kept after, {mask:#x}, seed {seed}");
            sizes[list.len().min(2)] += 1;
            high += u64::from(list.len() > 1 && list.last() > Some(&255));
            losing += u64::from(!dropped_states(&book, &after).is_empty());
        }
    }
    let [none, one, more] = sizes;
    println!(
        "{}: {none} empty lists of states gained, {one} of one, {more} of more, {high} past 255; {losing} from books \
         that keep a state which is then lost",
        planner.name()
    );
    assert!(none > 1_000 && one > 100 && more > 500 && high > 50 && losing > 500);
}

/// The index that a planner builds for a plant.
fn index_of(planner: &dyn Calls, model: &Model) -> Vec<u8> {
    let mut index = vec![0; LONGEST_INDEX];
    let answer = planner.index(&model.bytes(), &mut index);
    assert_eq!(answer.number, 0);
    index.truncate(answer.length as usize);
    index
}

/// Bytes that are not the plant's index: cut, longer, with a bit changed, or with two arrows exchanged.
fn other_index(index: &[u8], random: &mut Random) -> Vec<u8> {
    let mut other = index.to_vec();
    let [one, two] = [(); 2].map(|()| 4 + random.below(index.len().max(10) / 2 - 4));
    match random.below(4) {
        0 => other.truncate(random.below(index.len())),
        1 => other.push(0),
        2 if one != two => {
            for at in 0..2 {
                other.swap(2 * one + at, 2 * two + at);
            }
        }
        _ => other[random.below(index.len())] ^= 1 << random.below(8),
    }
    other
}

/// An index has S, E, 8 and its length, and then the number of each arrow once, in the order of where they end and, for
/// one end, of their numbers. A make and a withdrawal by it come to those without, from books that were written and
/// from others; by any other bytes they are refused and write nothing.
pub fn calls_by_index_come_to_those_without(planner: &dyn Calls) {
    // How many withdrawals drop no state, drop some and keep others, and drop all; and how many indexes have ties.
    let (mut costs, mut ties) = ([0; 3], 0);
    for seed in 0..2_000 {
        let random = &mut Random::new(seed);
        let (model, written) = any_book(planner, random);
        let (bytes, index) = (model.bytes(), index_of(planner, &model));
        let plant = Plant::read(&bytes).expect("a plant");
        let numbers = listed(&index, index.len() as u32 / 2);
        let [states, arrows] = [plant.states, plant.arrows.len()].map(|count| count as u16);
        assert_eq!(numbers[..4], [states, arrows, 8, index.len() as u16], "the header of seed {seed}");
        let ranks: Vec<(u16, u16)> =
            numbers[4..].iter().map(|&arrow| (plant.arrows[usize::from(arrow)].to, arrow)).collect();
        assert_eq!(ranks.len(), plant.arrows.len(), "as many as there are arrows, seed {seed}");
        assert!(ranks.windows(2).all(|pair| pair[0] < pair[1]), "the arrows of seed {seed} rise: {ranks:?}");
        ties += u64::from(ranks.windows(2).any(|pair| pair[0].0 == pair[1].0));

        let made = written_by(&model, |out, _| planner.make_indexed(&bytes, &index, read(&written).mask, out));
        assert_eq!(made, (make(planner, &model, read(&written).mask), vec![]), "made by index, seed {seed}");
        let mask = random.bits() as u32 & random.bits() as u32 & model.every_move();
        for book in [tampered(&written, random), written] {
            let by_index = |index: &[u8], out: &mut [u8], list: &mut [u8]| {
                planner.withdraw_indexed(&bytes, index, &book, mask, out, list)
            };
            let (rest, dropped) = written_by(&model, |out, list| by_index(&index, out, list));
            let kind = match (dropped.is_empty(), kept_states(&rest).is_empty()) {
                (true, _) => 0,
                (false, false) => 1,
                (false, true) => 2,
            };
            costs[kind] += 1;
            let plain = withdraw_listed(planner, &model, &book, mask);
            assert_eq!((rest, dropped), plain, "{mask:#x} withdrawn by index, seed {seed}");
            let other = other_index(&index, random);
            let [mut out, mut list] = lengths(&model).map(|length| vec![0xa5; length]);
            let refused = [by_index(&other, &mut out, &mut list), planner.make_indexed(&bytes, &other, mask, &mut out)];
            assert_eq!(refused, [Answer::refused(10); 2], "by {other:?}, seed {seed}");
            assert!(out.iter().chain(&list).all(|&byte| byte == 0xa5), "a refused call writes nothing, seed {seed}");
        }
    }
    let [none, some, all] = costs;
    println!(
        "{}: by an index {none} withdrawals drop no state, {some} drop some and keep others, {all} drop all; {ties} \
         indexes have several arrows into one state",
        planner.name()
    );
    assert!(none > 1_000 && some > 200 && all > 200 && ties > 1_000);
}

/// A planner's standing book on one plant, and the moves in service as they are told from the calls alone.
struct Standing<'a> {
    planner: &'a dyn Calls,
    model: &'a Model,
    index: &'a [u8],
    book: Vec<u8>,
    in_service: u32,
}

impl Standing<'_> {
    /// Makes any call, with any mask and buffers, and any index if it takes one; answers its number, which is told from
    /// these alone. A refused call writes nothing, and leaves the standing book.
    fn call(&mut self, random: &mut Random) -> u32 {
        let any_length = |needed: usize, random: &mut Random| if random.once_in(12) { needed - 1 } else { needed + 2 };
        let [mut out, mut list] = lengths(self.model).map(|needed| vec![0xa5; any_length(needed, random)]);
        let [a, b] = [(); 2].map(|()| self.any_mask(random));
        let (planner, plant, book) = (self.planner, self.model.bytes(), &self.book);
        let right = !random.once_in(4);
        let index = if right { self.index.to_vec() } else { other_index(self.index, random) };
        let kind = random.below(10);
        let (answer, named, then) = match kind {
            0 => (planner.make(&plant, a, &mut out), a, a),
            7 => (planner.make_indexed(&plant, &index, a, &mut out), a, a),
            8..=9 => {
                let answer = planner.withdraw_indexed(&plant, &index, book, a, &mut out, &mut list);
                (answer, a, self.in_service & !a)
            }
            1 => {
                let masks = mask_bytes(&[a, b]);
                let answer = planner.withdraw_list(&plant, book, &masks, &mut out, &mut list);
                (answer, a | b, self.in_service & !(a | b))
            }
            2..=3 => (planner.withdraw(&plant, book, a, &mut out, &mut list), a, self.in_service & !a),
            _ => (planner.return_moves(&plant, book, a, &mut out, &mut list), a, self.in_service | a),
        };
        let [length, list_length] = lengths(self.model);
        let short = out.len() < length || (![0, 7].contains(&kind) && list.len() < list_length);
        let told = match (kind < 7 || right, named & !self.model.every_move() == 0) {
            (false, _) => 10,
            (true, false) => 6,
            (true, true) => 7 * u32::from(short),
        };
        assert_eq!(answer.number, told, "told from the call alone");
        if told == 0 {
            out.truncate(answer.length as usize);
            (self.book, self.in_service) = (out, then);
        } else {
            assert_eq!(answer, Answer::refused(told));
            assert!(out.iter().chain(&list).all(|&byte| byte == 0xa5), "a refused call writes nothing");
        }
        told
    }

    /// A few moves, or some; once in a while one that the plant does not have.
    fn any_mask(&self, random: &mut Random) -> u32 {
        let some = random.bits() as u32 & self.model.every_move();
        match random.below(12) {
            0 => some | 1 << random.below(32),
            1..=3 => some,
            _ => 1 << random.below(self.model.moves.into()),
        }
    }
}

/// Demand 3: after any list of makes, withdrawals, lists of withdrawals, returns, and makes and withdrawals by an
/// index, refused ones among them, the standing book is the one made afresh for the moves in service; and the books
/// after two lists on one plant are equal exactly when the same moves are in service.
pub fn lists_of_calls_come_to_a_making(planner: &dyn Calls) {
    // How many calls are accepted, refused with 6, with 7 and with 10; how many pairs of books differ and are equal.
    let (mut calls, mut pairs) = ([0; 11], [0; 2]);
    for seed in 0..1_500 {
        let random = &mut Random::new(seed);
        let model = if random.once_in(4) { plants::any_size(random) } else { plants::tiny(random) };
        let model = plants::either_sort(model, random);
        let index = index_of(planner, &model);
        let [one, two] = [(); 2].map(|()| {
            let in_service = random.bits() as u32 & model.every_move();
            let book = make(planner, &model, in_service);
            let mut standing = Standing { planner, model: &model, index: &index, book, in_service };
            for _ in 0..random.from_to(0, 12) {
                calls[standing.call(random) as usize] += 1;
            }
            let afresh = make(planner, &model, standing.in_service);
            assert_eq!(standing.book, afresh, "after a list of calls, seed {seed}");
            standing
        });
        let equal = one.in_service == two.in_service;
        assert_eq!(one.book == two.book, equal, "the same moves in service, seed {seed}");
        pairs[usize::from(equal)] += 1;
    }
    let [differ, equal] = pairs;
    let [accepted, bad_masks, short, misfits] = [0, 6, 7, 10].map(|number: usize| calls[number]);
    println!(
        "{}: {accepted} calls are accepted, {bad_masks} refused with 6, {short} with 7, {misfits} with 10; of the \
         books after two lists {equal} pairs are equal and {differ} differ",
        planner.name()
    );
    assert!(accepted > 10_000 && bad_masks > 300 && short > 500 && misfits > 500 && equal > 200 && differ > 500);
}

/// The states that a state can come to by moves in service, itself included.
fn reached(model: &Model, mask: u32, state: usize) -> Vec<bool> {
    let mut found = vec![false; model.labels.len()];
    found[state] = true;
    // A way that does not come back to a state has fewer arrows than there are states.
    for _ in 0..found.len() {
        for &[from, action, to] in &model.arrows {
            found[usize::from(to)] |= found[usize::from(from)] && in_mask(mask, action);
        }
    }
    found
}

/// A label for a state, and some arrows from there to states below `ends`.
fn drawn(model: &Model, state: usize, ends: usize, random: &mut Random) -> (u16, Vec<[u16; 3]>) {
    let bits = (1..=model.goals).chain(model.settles.then_some(9));
    let label = bits.map(|bit| u16::from(!random.once_in(4)) << bit).sum::<u16>() + u16::from(!random.once_in(16));
    let mut arrow = || [state, random.below(model.moves.into()), random.below(ends)].map(|number| number as u16);
    (label, [(); 3].map(|()| arrow()).to_vec())
}

/// A plant of two ends, of which one seldom leads to the other, a mask and a state; and the same plant remodelled
/// wherever the state does not come to: with new labels and arrows there, and new arrows of moves out of service.
fn remodelled(random: &mut Random) -> ([Model; 2], u32, usize) {
    let states = if random.once_in(4) { random.from_to(1, 64) } else { random.from_to(2, 12) };
    let (moves, goals) = ([1, 2, 3, 4, 32][random.below(5)], [1, 1, 2, 8][random.below(4)]);
    let mut one = Model { moves, goals, settles: random.once_in(2), labels: vec![], arrows: vec![] };
    for state in 0..states {
        let ends = if state < states / 2 && !random.once_in(40) { states / 2 } else { states };
        let (label, arrows) = drawn(&one, state, ends, random);
        one.labels.push(label);
        one.arrows.extend(arrows);
    }
    let one = one.shuffled(random);
    let (mask, state) = ((random.bits() | random.bits()) as u32 & one.every_move(), random.below(states));
    let same = reached(&one, mask, state);
    let stays = |&[from, action, _]: &[u16; 3]| same[usize::from(from)] && in_mask(mask, action);
    let mut other = one.clone();
    other.arrows.retain(stays);
    for (at, &same) in same.iter().enumerate() {
        let (label, arrows) = drawn(&one, at, states, random);
        other.labels[at] = if same { one.labels[at] } else { label };
        other.arrows.extend(arrows.into_iter().filter(|arrow| !stays(arrow)));
    }
    ([one, other], mask, state)
}

/// Two plants with as many states, moves and goals, of one sort and made with one mask, that agree on the labels and
/// arrows in service of all that a state can come to, have the same row for it, and for all that it can come to.
pub fn rows_come_from_what_is_reached(planner: &dyn Calls) {
    // Of each sort, how many pairs there are, in how many of them the state is kept, in how many it has a stage after the
    // first, and in how many the two books do not keep as many states.
    let mut seen = [[0; 4]; 2];
    for seed in 0..6_000 {
        let (models, mask, state) = remodelled(&mut Random::new(seed));
        let books = models.each_ref().map(|model| {
            let index = index_of(planner, model);
            let by_index = |out: &mut [u8], _: &mut [u8]| planner.make_indexed(&model.bytes(), &index, mask, out);
            [make(planner, model, mask), written_by(model, by_index).0]
        });
        for at in (0..).zip(reached(&models[0], mask, state)).filter(|(_, same)| *same).map(|(at, _)| at) {
            let row = |book: &Vec<u8>| {
                let part = planner.row(book, at);
                book[part.start as usize..][..part.length as usize].to_vec()
            };
            let rows = books.each_ref().map(|ways| ways.each_ref().map(row)).concat();
            assert!(rows.iter().all(|other| *other == rows[0]), "state {at} by state {state}, seed {seed}: {rows:?}");
        }
        let [one, other] = [&books[0][0], &books[1][0]].map(|book| read(book));
        let kept = [one, other].map(|rows| (0..rows.states).filter(|&state| rows.is_kept(state)).count());
        let later = one.has_stages && one.is_kept(state) && one.stage(state) > 1;
        let counts = [true, one.is_kept(state), later, kept[0] != kept[1]];
        seen[usize::from(one.has_stages)].iter_mut().zip(counts).for_each(|(many, one)| *many += u32::from(one));
    }
    println!("{}: pairs of plants, rows kept, after stage 1, with other K, of each sort: {seen:?}", planner.name());
    assert!(seen.iter().all(|&[pairs, kept, _, other]| kept > pairs / 5 && other > pairs / 5) && seen[1][2] > 100);
}

/// The plant of one stage, which need not settle: settled states, and those that leave for the states given, which stay
/// where they are and are in every goal. `stay` is a move in service.
fn plant_of_stage(model: &Model, leaves: &[bool], stay: u16) -> Model {
    let every_goal = (1 << (model.goals + 1)) - 1;
    let label = |(&label, &leaves): (&u16, &bool)| match (leaves, label & SETTLED != 0) {
        (true, _) => every_goal,
        (false, true) => label & !SETTLED,
        (false, false) => 0,
    };
    let labels = model.labels.iter().zip(leaves).map(label).collect();
    let mut arrows = model.arrows.clone();
    arrows.retain(|[from, ..]| !leaves[usize::from(*from)]);
    arrows.extend((0..).zip(leaves).filter(|(_, &leaves)| leaves).map(|(state, _)| [state, stay, state]));
    Model { settles: false, labels, arrows, ..model.clone() }
}

/// For each allowed state its lowest move that leads wholly into the states given, if it has one.
fn leaving_moves(plant: &Plant, mask: u32, earlier: &[bool]) -> Vec<Option<u16>> {
    let leads = |state: usize, action: u16| {
        let ends = plant.ends(state, action);
        !ends.is_empty() && ends.into_iter().all(|end| earlier[end])
    };
    let lowest = |state: usize| moves_of(mask).into_iter().find(|&action| leads(state, action));
    (0..plant.states).map(|state| lowest(state).filter(|_| plant.is_allowed(state))).collect()
}

/// A plant of any size that must settle.
fn any_settled(random: &mut Random) -> Model {
    match random.once_in(2) {
        true => plants::tiny_settled(random),
        false => WAYS_TO_SETTLE[random.below(3)].of(plants::any_size(random), random),
    }
}

/// Where runs must settle, a book comes to those of plants that need not: the rows of each stage are those of the plant
/// that passes settled states alone, and in which a state stays and is in every goal that has a move wholly into the
/// stages before. Such a state has wait 0 and the lowest such move.
pub fn stages_come_to_plain_books(planner: &dyn Calls) {
    // How many rows of kept states are compared, of how many of these the state leaves, and the latest stage.
    let (mut compared, mut leaving, mut latest) = (0, 0, 0);
    for seed in 0..1_500 {
        let random = &mut Random::new(seed);
        let model = any_settled(random);
        let mask = model.every_move() & if random.once_in(2) { u32::MAX } else { random.bits() as u32 };
        let (plant, book) = (Plant::read(&model.bytes()).expect("a plant"), make(planner, &model, mask));
        let (rows, stay) = (read(&book), moves_of(mask).first().copied().unwrap_or(0));
        let mut earlier = vec![false; plant.states];
        for stage in 1.. {
            let leave = leaving_moves(&plant, mask, &earlier);
            let leaves: Vec<bool> = leave.iter().map(Option::is_some).collect();
            let plain = make(planner, &plant_of_stage(&model, &leaves, stay), mask);
            let plain = read(&plain);
            let own: Vec<usize> = (0..plant.states).filter(|&state| plain.is_kept(state) && !earlier[state]).collect();
            for &state in &own {
                assert_eq!(rows.stage(state), stage, "the stage of state {state}, seed {seed}");
                for goal in 0..plant.goals {
                    let expected = leave[state].map_or(plain.entry(state, goal), |action| (0, action));
                    assert_eq!(rows.entry(state, goal), expected, "state {state}, goal {goal}, seed {seed}");
                }
                earlier[state] = true;
            }
            if own.is_empty() {
                break;
            }
            compared += own.len();
            leaving += own.iter().filter(|&&state| leaves[state]).count();
            latest = stage.max(latest);
        }
        let kept: Vec<bool> = (0..plant.states).map(|state| rows.is_kept(state)).collect();
        assert_eq!(kept, earlier, "a state is kept exactly if it has a stage, seed {seed}");
    }
    println!(
        "{}: {compared} rows with stages are those of plain books, in {leaving} the stage is left; the latest is {latest}",
        planner.name()
    );
    assert!(compared > 20_000 && leaving > 2_000 && latest > 8);
}

/// In a withdrawal from a book that was written, the stages of states that are still kept never fall. Waits may.
pub fn stages_never_fall(planner: &dyn Calls) {
    // How many stages are as before and how many are later; and how many waits fall.
    let (mut stages, mut falling) = ([0; 2], 0);
    for seed in 0..3_000 {
        let random = &mut Random::new(seed);
        let model = any_settled(random);
        let before = make(planner, &model, model.every_move());
        let after = withdraw(planner, &model, &before, 1 << random.below(model.moves.into()));
        let (before, after) = (read(&before), read(&after));
        for state in (0..before.states).filter(|&state| after.is_kept(state)) {
            let [old, new] = [before, after].map(|rows| rows.stage(state));
            assert!(old <= new, "state {state} of stage {old} has {new}, seed {seed}");
            stages[usize::from(old < new)] += 1;
            let falls = |goal: &usize| after.entry(state, *goal).0 < before.entry(state, *goal).0;
            falling += (0..before.goals).filter(falls).count();
        }
    }
    let [same, later] = stages;
    println!("{}: {same} stages stay and {later} rise in withdrawals, {falling} waits fall", planner.name());
    assert!(same > 10_000 && later > 30 && falling > 10);
}

/// A plant and a mask with a move and move 0 in each other's place.
fn with_first(model: &Model, mask: u32, first: u16) -> (Model, u32) {
    let place = |action: u16| match action {
        0 => first,
        _ if action == first => 0,
        _ => action,
    };
    let arrows = model.arrows.iter().map(|&[from, action, to]| [from, place(action), to]).collect();
    let mask = moves_of(mask).into_iter().map(|action| 1 << place(action)).sum();
    (Model { arrows, ..model.clone() }, mask)
}

/// The goal arrived at in a kept state, told from the labels alone: goals are passed as long as the state is in them,
/// and after all of them comes the one sought again. Where runs must settle, a kept state that is not settled is one
/// that leaves its stage, and there the goal sought stays.
fn arrived_at(plant: &Plant, state: usize, sought: usize) -> usize {
    let mut goal = sought;
    for _ in 0..plant.goals {
        if plant.in_goal(state, goal) && !is_restless(plant, state) {
            goal = (goal + 1) % plant.goals;
        }
    }
    goal
}

/// Whether runs must settle, and not in this state.
fn is_restless(plant: &Plant, state: usize) -> bool {
    plant.settles && !plant.is_settled(state)
}

/// What was seen of sets of good moves.
#[derive(Default)]
struct Sets {
    /// How many are of no move, of one, and of more.
    sizes: [u64; 3],
    /// How many are for another goal than the one sought.
    passed: u64,
    /// How many are of a state that serves all of several goals.
    all_served: u64,
    /// How many lead from one stage to earlier ones alone.
    leaving: u64,
}

/// A lost state has no good move. A kept state has some, for the goal arrived at; consult gives that goal, and the move
/// listed for it, which is the lowest of them. A move is good exactly when it is the one listed as soon as the moves
/// are numbered with it in the first place: kept states and waits do not hang on the numbers.
pub fn sets_are_those_of_the_rule(planner: &dyn Calls) {
    let mut seen = Sets::default();
    for seed in 0..1_500 {
        let random = &mut Random::new(seed);
        let (model, book) = any_book(planner, random);
        let rows = read(&book);
        let renumbered = |action| {
            let (model, mask) = with_first(&model, rows.mask, action);
            make(planner, &model, mask)
        };
        let books: Vec<Vec<u8>> = (0..model.moves).map(renumbered).collect();
        let books: Vec<BookView> = books.iter().map(|book| read(book)).collect();
        let step = rows.states.div_ceil(24);
        for state in (random.below(step)..rows.states).step_by(step) {
            for sought in 0..rows.goals {
                let input = || format!("state {state}, goal {sought}, plant and book of seed {seed}");
                check_set(planner, &model.bytes(), &book, &books, [state, sought], &input, &mut seen);
            }
        }
    }
    let Sets { sizes: [none, one, more], passed, all_served, leaving } = seen;
    println!(
        "{}: {none} sets of lost states, {one} of one move, {more} of more; {passed} after goals passed, {all_served} \
         of states that serve all of several goals, {leaving} of states that leave their stage",
        planner.name()
    );
    assert!(none > 20_000 && one > 5_000 && more > 10_000 && passed > 4_000 && all_served > 4_000 && leaving > 1_000);
}

/// The good moves and consult for a state and the goal sought, from the book and from those in which each move in turn
/// comes first.
fn check_set(
    planner: &dyn Calls,
    plant: &[u8],
    book: &[u8],
    books: &[BookView],
    [state, sought]: [usize; 2],
    input: &dyn Fn() -> String,
    seen: &mut Sets,
) {
    let set = planner.moves(plant, book, state as u32, sought as u32);
    let advice = planner.consult(book, state as u32, sought as u32);
    let (plant, rows, good) = (Plant::read(plant).expect("a plant"), read(book), moves_of(set.mask));
    let goal = arrived_at(&plant, state, sought);
    let (wait, listed) = rows.entry(state, goal);
    let expected = match rows.is_kept(state) {
        true => Advice { number: 0, lost: 0, action: listed.into(), wait: wait.into(), seek: goal as u32 },
        false => Advice { lost: 1, ..Advice::default() },
    };
    assert_eq!(advice, expected, "consult gives the goal arrived at, {}", input());
    let lowest = rows.is_kept(state).then_some(&listed);
    assert_eq!((set.number, good.first()), (0, lowest), "the listed move is the lowest, {}", input());
    let firsts = (0..).zip(books).filter(|(_, book)| book.entry(state, goal).1 == 0);
    let expected: Vec<u16> = firsts.map(|(action, _)| action).collect();
    assert_eq!(good, expected, "each is listed when it comes first, {}", input());

    let mut ends = good.iter().flat_map(|&action| plant.ends(state, action));
    if rows.is_kept(state) && is_restless(&plant, state) {
        assert!(ends.all(|end| rows.stage(end) < rows.stage(state)), "the stage is left, {}", input());
        seen.leaving += 1;
    }
    seen.sizes[good.len().min(2)] += 1;
    seen.passed += u64::from(!good.is_empty() && goal != sought);
    seen.all_served += u64::from(wait == 0 && rows.goals > 1);
}

/// How far a walk goes.
const STEPS: usize = 3_000;

/// What was seen on walks.
#[derive(Default)]
struct Seen {
    /// Walks by consult's own moves, and by picks from the good ones.
    walks: [u64; 2],
    /// Moves made that are not the ones listed.
    unlisted: u64,
    /// Times that a goal was met that had not been met when it became the one to seek.
    reached: u64,
    /// The most moves that this took.
    most: usize,
    /// Goals that were passed without having been the one to seek before.
    passed: u64,
    /// Times that all of several goals were met in one state.
    all_met: u64,
    /// Times that a stage was left, and the most on one walk.
    left: [u64; 2],
    /// The most states on one walk that are not settled, where runs must settle.
    restless: u16,
}

/// Following the book from any kept state and first goal, in plants of all families and any size, of both sorts: in half
/// of the walks by consult's own moves, and in the others by any pick from the good ones, made anew at each step. The
/// arrow that is followed is any one or, in half of the walks, one that leads farthest from the goal to seek.
pub fn following_meets_the_goals(planner: &dyn Calls) {
    let mut seen = Seen::default();
    for family in FAMILIES {
        for states in family.quick_sizes(&[5, 40, 300, 1024]) {
            walk_family(
                planner,
                &family.build(states, 1),
                &format!("{} with {states} states", family.name()),
                &mut seen,
            );
            for way in WAYS_TO_SETTLE {
                let model = way.of(family.build(states, 1), &mut Random::new(1));
                let what = format!("{} with {states} states, {}", family.name(), way.name());
                walk_family(planner, &model, &what, &mut seen);
            }
        }
    }
    for seed in 0..1_200 {
        let random = &mut Random::new(seed);
        let (model, book) = any_book(planner, random);
        let what = format!("plant and book of seed {seed}");
        Walk { planner, plant: &model.bytes(), book: &book, own: seed % 2 == 0, what }.go(random, &mut seen);
    }
    let Seen { walks: [own, picks], unlisted, reached, most, passed, all_met, left: [left, most_left], restless } =
        seen;
    println!(
        "{}: {own} walks of {STEPS} steps by consult's moves and {picks} by picks, {unlisted} steps by moves that are \
         not listed; goals were reached {reached} times, after {most} moves at the most, {passed} more were passed, \
         and all of several were met in one state {all_met} times; stages were left {left} times, {most_left} on one \
         walk at the most, with {restless} states that are not settled at the most",
        planner.name()
    );
    assert!(own > 100 && picks > 100 && unlisted > 50_000);
    assert!(reached > 50_000 && most > 400 && passed > 200_000 && all_met > 50_000);
    assert!(left > 2_000 && most_left > 400 && restless > 400);
}

/// Walks in a plant by the book that is made with all moves and by the one without the highest.
fn walk_family(planner: &dyn Calls, model: &Model, what: &str, seen: &mut Seen) {
    let made = make(planner, model, model.every_move());
    let less = withdraw(planner, model, &made, model.highest_move());
    for (book, own) in [made, less].iter().flat_map(|book| [(book, true), (book, false)]) {
        let what = what.to_string();
        Walk { planner, plant: &model.bytes(), book, own, what }.go(&mut Random::new(1), seen);
    }
}

/// A walk by a book.
struct Walk<'a> {
    planner: &'a dyn Calls,
    plant: &'a [u8],
    book: &'a [u8],
    /// Whether consult's own move is made, and not any pick from the good ones.
    own: bool,
    /// What it is a walk in, for messages.
    what: String,
}

impl Walk<'_> {
    /// Goes from a kept state, if there is one, mostly of the latest stage, and any first goal.
    fn go(&self, random: &mut Random, seen: &mut Seen) {
        let (plant, rows) = (Plant::read(self.plant).expect("a plant"), read(self.book));
        let kept: Vec<usize> = (0..rows.states).filter(|&state| rows.is_kept(state)).collect();
        let latest = kept.iter().copied().max_by_key(|&state| rows.stage(state));
        let waits = kept.iter().flat_map(|&state| (0..rows.goals).map(move |goal| rows.entry(state, goal).0));
        let Some(most) = waits.max() else {
            return;
        };
        let (mut state, mut sought) = (kept[random.below(kept.len())], random.below(rows.goals));
        state = latest.filter(|_| rows.has_stages && !random.once_in(4)).unwrap_or(state);
        let mut watch = Watch::new(&plant, rows, most, state);
        let farthest = random.once_in(2);
        for step in 0..STEPS {
            let here = || format!("step {step}, state {state}, goal {sought}, {}", self.what);
            let advice = self.planner.consult(self.book, state as u32, sought as u32);
            assert_eq!((advice.number, advice.lost), (0, 0), "the state is kept: {}", here());
            let action = if self.own { advice.action as u16 } else { self.pick(state, sought, random) };
            let ends = plant.ends(state, action);
            assert!(in_mask(rows.mask, action) && !ends.is_empty(), "the move is available: {}", here());
            seen.unlisted += u64::from(u32::from(action) != advice.action);
            // The latest stage, and there the longest wait, is farthest.
            let seek = advice.seek as usize;
            let far = ends.iter().copied().max_by_key(|&end| (rows.stage(end), rows.entry(end, seek).0));
            let next = far.filter(|_| farthest).unwrap_or(ends[random.below(ends.len())]);
            watch.step(step, [state, next], sought, &advice, &here, seen);
            (state, sought) = (next, seek);
        }
        seen.walks[usize::from(!self.own)] += 1;
        seen.left[1] = seen.left[1].max(watch.left);
        seen.restless = seen.restless.max(watch.restless);
    }

    /// One of the good moves, at random.
    fn pick(&self, state: usize, goal: usize, random: &mut Random) -> u16 {
        let set = self.planner.moves(self.plant, self.book, state as u32, goal as u32);
        assert_eq!(set.number, 0);
        let good = moves_of(set.mask);
        assert_ne!(good, [], "a kept state has a good move: state {state}, goal {goal}, {}", self.what);
        good[random.below(good.len())]
    }
}

/// What is watched on a walk.
struct Watch<'a> {
    plant: &'a Plant,
    rows: BookView<'a>,
    /// The most moves from one time that a goal is met to the next, or that the stage is left.
    turns: usize,
    /// When each goal was met last, or the stage was entered.
    met: Vec<usize>,
    /// When the goal sought became the one to seek, and by when it is to be met; nothing at first, after a state in
    /// which all were met, and in a new stage.
    span: Option<(usize, usize)>,
    /// The stage of the first state; so many states at the most, less one, are not settled.
    first_stage: u16,
    /// How many states were not settled so far, where runs must settle.
    restless: u16,
    /// How often a stage was left.
    left: u64,
}

impl<'a> Watch<'a> {
    fn new(plant: &'a Plant, rows: BookView<'a>, most: u16, start: usize) -> Watch<'a> {
        // Each goal has its turn, which takes at most its wait; before that there may be a move from where all are met,
        // and a stage is left with the move after the wait.
        let turns = 2 + plant.goals * usize::from(most);
        let (met, first_stage) = (vec![0; plant.goals], rows.stage(start));
        Watch { plant, rows, turns, met, span: None, first_stage, restless: 0, left: 0 }
    }

    /// A move leads from a state to the next. What is promised of goals is so unless the stage is left with it.
    fn step(
        &mut self,
        step: usize,
        [state, next]: [usize; 2],
        sought: usize,
        advice: &Advice,
        here: &dyn Fn() -> String,
        seen: &mut Seen,
    ) {
        let (goals, wait, seek) = (self.plant.goals, advice.wait as usize, advice.seek as usize);
        let [stage, next_stage] = [state, next].map(|state| self.rows.stage(state));
        assert!(next_stage <= stage, "no later stage is entered: {}", here());
        let left = next_stage < stage;
        self.restless += u16::from(is_restless(self.plant, state));
        let few = !self.plant.settles || self.restless < self.first_stage;
        assert!(few, "fewer states are not settled than the first stage says: {}", here());

        let met_here = |goal| self.plant.in_goal(state, goal);
        for goal in (0..goals).filter(|&goal| met_here(goal)) {
            self.met[goal] = step;
        }
        assert!(self.met.iter().all(|&last| step - last <= self.turns), "each is met again and again: {}", here());
        assert!(met_here(seek) == (wait == 0) || left, "the goal to seek is met here at wait 0 alone: {}", here());
        assert!(wait != 0 || seek == sought, "the goal sought stays if all are met: {}", here());
        let passed = if wait == 0 { goals } else { (seek + goals - sought) % goals };
        let mut in_turn = (0..passed).map(|turn| (sought + turn) % goals);
        assert!(in_turn.all(met_here) || left, "goals are met where they are passed: {}", here());
        if let Some((begun, end)) = self.span {
            assert!(step + usize::from(passed == 0) <= end, "it is met within the wait that was shown: {}", here());
            seen.reached += u64::from(passed != 0);
            seen.most = seen.most.max(step - begun);
        }
        if passed != 0 || self.span.is_none() {
            seen.passed += passed.saturating_sub(usize::from(self.span.is_some())) as u64;
            self.span = (wait != 0).then_some((step, step + wait));
        }
        seen.all_met += u64::from(wait == 0 && goals > 1);
        if left {
            self.span = None;
            self.met.fill(step + 1);
            self.left += 1;
            seen.left[0] += 1;
        }
    }
}
