//! What is compared: exhaustive rounds on strip plant P and on a small plant that must settle, and random rounds that a
//! seed fixes.

use super::{in_service, Comparison, Counts};
use crate::calls::mask_bytes;
use crate::plants::{self, bytes_of, Model, Random, FAMILIES};
use crate::second::format::{number, read_masks, together};
use crate::sys::{Answer, LONGEST_BOOK, LONGEST_LIST};
use indexes::{index_of, mostly_right};
use lists::{any_list, masks_in_turn};
use returns::moves_back;

mod faults;
pub(in crate::compare) mod indexes;
pub(in crate::compare) mod lists;
pub(in crate::compare) mod returns;
mod stages;

/// A random round: some calls on inputs that come from the numbers given.
pub type Round = fn(&mut Comparison, &mut Random);

/// The random rounds, with their names.
pub const RANDOM_ROUNDS: [(&str, Round); 11] = [
    ("lists of calls", list_of_calls),
    ("lists of withdrawals", lists::lists_of_withdrawals),
    ("returns", returns::returns),
    ("indexes", indexes::indexes),
    ("good moves", good_moves),
    ("stages", stages::stages),
    ("invented books", invented_book),
    ("damaged plants", damaged_plant),
    ("damaged books", damaged_book),
    ("random headers", random_header),
    ("buffers", buffers),
];

/// The rounds that leave nothing to chance.
pub const EXHAUSTIVE_ROUNDS: [fn(&mut Comparison); 18] = [
    single_bytes,
    other_lengths,
    every_mask,
    every_buffer,
    lists::every_short_list,
    lists::every_list_length,
    lists::every_combination_of_refusals,
    returns::every_return,
    returns::every_round_trip,
    returns::every_combination_of_refusals,
    returns::longest,
    indexes::every_byte,
    indexes::every_length,
    indexes::every_order,
    indexes::every_combination_of_refusals,
    stages::every_stage,
    stages::every_other_sort,
    largest,
];

/// Runs random rounds of one kind, from a seed on, until so many calls were compared; answers how many rounds.
pub fn run<C: Counts>(comparison: &mut C, round: fn(&mut C, &mut Random), seed: u64, calls: u64) -> u64 {
    let end = comparison.calls() + calls;
    let mut rounds = 0;
    while comparison.calls() < end {
        round(comparison, &mut Random::new(seed + rounds));
        rounds += 1;
    }
    rounds
}

/// A plant of any size or family, of either sort.
pub(in crate::compare) fn any_plant(random: &mut Random) -> Model {
    let model = if random.once_in(8) {
        let family = FAMILIES[random.below(FAMILIES.len())];
        let most = if family.is_slow() { 40 } else { 160 };
        family.build(random.from_to(1, most) as u16, random.bits())
    } else {
        plants::any_size(random)
    };
    plants::either_sort(model, random)
}

/// A tiny plant of either sort.
pub(in crate::compare) fn tiny_plant(random: &mut Random) -> Model {
    match random.once_in(2) {
        true => plants::tiny(random),
        false => plants::tiny_settled(random),
    }
}

/// How long the model's books are, and the list of all its states.
fn lengths_of(model: &Model) -> [usize; 2] {
    [model.book_length(), model.list_length()]
}

/// Moves to have in service: mostly many of them.
pub(in crate::compare) fn many_moves(model: &Model, random: &mut Random) -> u32 {
    let [a, b, c] = [(); 3].map(|()| random.bits() as u32);
    let mask = match random.below(8) {
        0 => a,
        1..=3 => a | b | c,
        _ => u32::MAX,
    };
    mask & model.every_move()
}

/// Moves to withdraw: mostly few of them.
pub(in crate::compare) fn few_moves(model: &Model, random: &mut Random) -> u32 {
    let [a, b, c] = [(); 3].map(|()| random.bits() as u32);
    let mask = match random.below(8) {
        0 => a,
        1 => 0,
        2..=3 => a & b & c,
        _ => 1 << random.below(model.moves.into()),
    };
    mask & model.every_move()
}

/// The mask, or once in a while one that names moves that the plant may not have.
fn or_too_high(mask: u32, random: &mut Random) -> u32 {
    if random.once_in(10) {
        mask | 1 << random.below(32)
    } else {
        mask
    }
}

/// A length that is often enough, sometimes exactly, and sometimes too short.
fn any_length(needed: usize, random: &mut Random) -> usize {
    match random.below(16) {
        0 => needed.saturating_sub(random.from_to(1, 3)),
        1 => random.below(needed),
        2..=4 => needed + random.from_to(1, 40),
        _ => needed,
    }
}

/// Compares a withdrawal, and the preview of it with a drop buffer of the same length; hands back the withdrawal's.
fn withdraw_and_preview(
    comparison: &mut Comparison,
    plant: &[u8],
    book: &[u8],
    mask: u32,
    lengths: [usize; 2],
) -> (Answer, Vec<u8>) {
    let withdrawn = comparison.withdraw(plant, book, mask, lengths);
    comparison.preview(plant, book, mask, lengths[1]);
    withdrawn
}

/// The first, the last and some other state, consulted for every goal, with their good moves for some goals and their
/// rows; and what is just out of range.
fn look_up(comparison: &mut Comparison, plant: &[u8], book: &[u8], model: &Model, random: &mut Random) {
    let (states, goals) = (model.labels.len() as u32, u32::from(model.goals));
    for state in [0, random.below(states as usize) as u32, states - 1] {
        for goal in 0..goals {
            comparison.consult(book, state, goal);
        }
        for goal in [random.below(goals as usize) as u32, goals - 1] {
            comparison.moves(plant, book, state, goal);
        }
        comparison.row(book, state);
    }
    let far = random.bits() as u32;
    for (state, goal) in [(states, 0), (0, goals), (far, far)] {
        comparison.consult(book, state, goal);
        comparison.moves(plant, book, state, goal);
    }
    comparison.row(book, states);
    comparison.row(book, far);
}

/// Every goal in all states of a small plant and in some of a large one, evenly spread; `first` says which.
fn places(model: &Model, first: usize) -> impl Iterator<Item = (u32, u32)> {
    let (states, goals) = (model.labels.len(), u32::from(model.goals));
    let step = states.div_ceil(24);
    (first % step..states).step_by(step).flat_map(move |state| (0..goals).map(move |goal| (state as u32, goal)))
}

/// Consults and good moves at these places.
fn every_goal(comparison: &mut Comparison, plant: &[u8], book: &[u8], model: &Model, first: usize) {
    for (state, goal) in places(model, first) {
        comparison.consult(book, state, goal);
        comparison.moves(plant, book, state, goal);
    }
}

/// A consult and the good moves for some state and goal.
fn any_goal(comparison: &mut Comparison, plant: &[u8], book: &[u8], model: &Model, random: &mut Random) {
    let [state, goal] = [model.labels.len(), model.goals.into()].map(|count| random.below(count) as u32);
    comparison.consult(book, state, goal);
    comparison.moves(plant, book, state, goal);
}

/// A list of makes, withdrawals, lists of withdrawals and returns on one plant, some makes and withdrawals by an index
/// that is mostly right, refused ones among them, and a preview of each single withdrawal. The standing book is
/// always the one made afresh for the moves in service, and whether a call is refused is told from its masks, index and
/// buffers alone.
fn list_of_calls(comparison: &mut Comparison, random: &mut Random) {
    let model = any_plant(random);
    let plant = model.bytes();
    let in_service = many_moves(&model, random);
    let (_, book) = comparison.make(&plant, in_service, model.book_length());
    let mut standing = Standing { model, plant, book, in_service, last: None };
    for _ in 0..random.from_to(0, 12) {
        match random.below(13) {
            0 => standing.make(comparison, random),
            1 => standing.withdraw_list(comparison, random),
            2 => standing.make_indexed(comparison, random),
            3..=4 => standing.withdraw_indexed(comparison, random),
            5..=8 => standing.return_moves(comparison, random),
            _ => standing.withdraw(comparison, random),
        }
        let Standing { model, plant, book, in_service, .. } = &standing;
        comparison.made_afresh(plant, *in_service, book);
        any_goal(comparison, plant, book, model, random);
    }
    look_up(comparison, &standing.plant, &standing.book, &standing.model, random);
}

/// A plant, its standing book, and the moves in service as they are told from the calls alone.
struct Standing {
    model: Model,
    plant: Vec<u8>,
    book: Vec<u8>,
    in_service: u32,
    /// The last call that was accepted, if it was a withdrawal, single or by a list.
    last: Option<Withdrawal>,
}

/// A withdrawal: the moves that it took out of service, how many states it dropped, and the book before.
struct Withdrawal {
    moves: u32,
    drops: u32,
    before: Vec<u8>,
}

impl Standing {
    fn make(&mut self, comparison: &mut Comparison, random: &mut Random) {
        let mask = or_too_high(many_moves(&self.model, random), random);
        let length = any_length(self.model.book_length(), random);
        let made = comparison.make(&self.plant, mask, length);
        self.take(made, self.told(mask, [length, self.model.list_length()]), mask);
    }

    fn withdraw(&mut self, comparison: &mut Comparison, random: &mut Random) {
        let mask = or_too_high(few_moves(&self.model, random), random);
        let lengths = self.any_lengths(random);
        let withdrawn = comparison.withdraw(&self.plant, &self.book, mask, lengths);
        let cost = comparison.preview(&self.plant, &self.book, mask, lengths[1]);
        let told = self.told(mask, [self.model.book_length(), lengths[1]]);
        assert_eq!(cost.number, told, "told from the preview alone");
        self.take_withdrawal(withdrawn, self.told(mask, lengths), mask);
    }

    fn make_indexed(&mut self, comparison: &mut Comparison, random: &mut Random) {
        let index = mostly_right(&self.model, random);
        let mask = or_too_high(many_moves(&self.model, random), random);
        let length = any_length(self.model.book_length(), random);
        let made = comparison.make_indexed(&self.plant, &index, mask, length);
        self.take(made, self.told_by(&index, mask, [length, self.model.list_length()]), mask);
    }

    fn withdraw_indexed(&mut self, comparison: &mut Comparison, random: &mut Random) {
        let index = mostly_right(&self.model, random);
        let mask = or_too_high(few_moves(&self.model, random), random);
        let lengths = self.any_lengths(random);
        let withdrawn = comparison.withdraw_indexed(&self.plant, &index, &self.book, mask, lengths);
        self.take_withdrawal(withdrawn, self.told_by(&index, mask, lengths), mask);
    }

    fn withdraw_list(&mut self, comparison: &mut Comparison, random: &mut Random) {
        let masks = any_list(&self.model, random);
        let lengths = self.any_lengths(random);
        let withdrawn = comparison.withdraw_list(&self.plant, &self.book, &masks, lengths);
        let masks = read_masks(&masks);
        let all = masks.as_deref().map_or(0, together);
        let told = masks.map_or_else(|refusal| refusal.number(), |_| self.told(all, lengths));
        self.take_withdrawal(withdrawn, told, all);
    }

    /// Often the moves come back that were just withdrawn: then the book before is back, and so are the states dropped.
    fn return_moves(&mut self, comparison: &mut Comparison, random: &mut Random) {
        let last = self.last.as_ref().filter(|_| random.once_in(2));
        let mask = last.map_or_else(|| moves_back(&self.model, self.in_service, random), |last| last.moves);
        let mask = or_too_high(mask, random);
        let lengths = self.any_lengths(random);
        let (answer, book) = comparison.return_moves(&self.plant, &self.book, mask, lengths);
        if let (0, Some(last)) = (answer.number, last.filter(|last| last.moves == mask)) {
            assert_eq!((answer.drops, &book), (last.drops, &last.before), "what was just withdrawn is back");
        }
        self.take((answer, book), self.told(mask, lengths), self.in_service | mask);
    }

    /// Lengths of the buffers for a withdrawal or a return.
    fn any_lengths(&self, random: &mut Random) -> [usize; 2] {
        lengths_of(&self.model).map(|needed| any_length(needed, random))
    }

    /// The number of a call, told from the moves that it names and the lengths of its buffers.
    fn told(&self, moves: u32, lengths: [usize; 2]) -> u32 {
        let short = lengths[0] < self.model.book_length() || lengths[1] < self.model.list_length();
        match (moves & !self.model.every_move() != 0, short) {
            (true, _) => 6,
            (false, true) => 7,
            (false, false) => 0,
        }
    }

    /// The number of a call by an index.
    fn told_by(&self, index: &[u8], moves: u32, lengths: [usize; 2]) -> u32 {
        match index == index_of(&self.plant) {
            true => self.told(moves, lengths),
            false => 10,
        }
    }

    /// A withdrawal of these moves was answered, whose number was told to be this one.
    fn take_withdrawal(&mut self, (answer, book): (Answer, Vec<u8>), told: u32, moves: u32) {
        let before = self.book.clone();
        let last = Withdrawal { moves: self.in_service & moves, drops: answer.drops, before };
        self.take((answer, book), told, self.in_service & !moves);
        if answer.number == 0 {
            self.last = Some(last);
        }
    }

    /// A call was answered, whose number was told to be this one: if it is accepted its book becomes the standing one,
    /// with these moves in service.
    fn take(&mut self, (answer, book): (Answer, Vec<u8>), told: u32, in_service: u32) {
        assert_eq!(answer.number, told, "told from the calls alone");
        if answer.number == 0 {
            (self.book, self.in_service, self.last) = (book, in_service, None);
        }
    }
}

/// Consults and good moves in books that make, withdraw and return wrote for the plant, in one that nobody made, and in
/// books that were made for other plants: one with the same counts, and one with mostly others.
fn good_moves(comparison: &mut Comparison, random: &mut Random) {
    let model = any_plant(random);
    let plant = model.bytes();
    let lengths = lengths_of(&model);
    let (_, mut book) = comparison.make(&plant, many_moves(&model, random), lengths[0]);
    for _ in 0..3 {
        every_goal(comparison, &plant, &book, &model, random.below(1024));
        book = withdraw_and_preview(comparison, &plant, &book, few_moves(&model, random), lengths).1;
    }
    let mask = moves_back(&model, in_service(&book), random);
    let (_, book) = comparison.return_moves(&plant, &book, mask, lengths);
    every_goal(comparison, &plant, &book, &model, random.below(1024));
    every_goal(comparison, &plant, &invent_book(&model, random), &model, random.below(1024));
    let (_, book) = comparison.make(&turned(&model).bytes(), many_moves(&model, random), lengths[0]);
    every_goal(comparison, &plant, &book, &model, random.below(1024));
    let other = tiny_plant(random);
    let (_, book) = comparison.make(&other.bytes(), other.every_move(), other.book_length());
    look_up(comparison, &plant, &book, &model, random);
}

/// The plant with its states in the other order.
pub(in crate::compare) fn turned(model: &Model) -> Model {
    let last = model.labels.len() as u16 - 1;
    let labels = model.labels.iter().rev().copied().collect();
    let arrows = model.arrows.iter().map(|&[from, action, to]| [last - from, action, last - to]).collect();
    Model { labels, arrows, ..model.clone() }
}

/// A book with rows that nobody made, and that is accepted all the same. Some rows serve all goals, and some many.
pub(in crate::compare) fn invent_book(model: &Model, random: &mut Random) -> Vec<u8> {
    let mask = many_moves(model, random);
    let actions: Vec<u16> = (0..32).filter(|action| mask >> action & 1 != 0).collect();
    let often = [1, 2, 4, 8, 16, 32, 64, 128][random.below(8)];
    let waits = [2, 4, 32, 1024][random.below(4)];
    let mut kept = 0;
    let mut rows = Vec::new();
    let states = model.labels.len() as u16;
    let stages = [1, 2, 4, 1024][random.below(4)].min(states.into());
    for _ in &model.labels {
        let lost = actions.is_empty() || random.once_in(often);
        kept += u16::from(!lost);
        if model.settles {
            rows.push(if lost { u16::MAX } else { random.from_to(1, stages) as u16 });
        }
        let served = [1, 2, 16, 256][random.below(4)];
        for _ in 0..model.goals {
            if lost {
                rows.extend([u16::MAX; 2]);
            } else {
                let wait = if random.once_in(served) { 0 } else { random.below(waits) };
                rows.extend([wait as u16, actions[random.below(actions.len())]]);
            }
        }
    }
    let length = model.book_length() as u16;
    let header = [states, model.moves, model.goals, kept, mask as u16, (mask >> 16) as u16, 16, length];
    bytes_of(header.iter().chain(&rows))
}

fn invented_book(comparison: &mut Comparison, random: &mut Random) {
    let model = any_plant(random);
    withdrawals_from_invented(comparison, &model, random);
}

/// Withdrawals, each previewed, from a book that nobody made, and from what they write; lookups in them; and sometimes
/// a list of a few withdrawals from the first book, or a return to it.
pub fn withdrawals_from_invented(comparison: &mut Comparison, model: &Model, random: &mut Random) {
    let plant = model.bytes();
    let lengths = lengths_of(model);
    let mut book = invent_book(model, random);
    match random.below(6) {
        0..=1 => {
            let masks = masks_in_turn(random.from_to(0, 3), model, random);
            comparison.withdraw_list(&plant, &book, &mask_bytes(&masks), lengths);
        }
        2 => {
            comparison.return_moves(&plant, &book, moves_back(model, in_service(&book), random), lengths);
        }
        _ => {}
    }
    for _ in 0..3 {
        let mask = few_moves(model, random);
        let (answer, next) = withdraw_and_preview(comparison, &plant, &book, mask, lengths);
        assert_eq!(answer.number, 0, "an invented book is accepted");
        look_up(comparison, &plant, &book, model, random);
        book = next;
    }
}

/// The plant made with all moves in service, also by its index, and then one more withdrawn and previewed each time,
/// from the highest down, every other one by the index as well; consults and good moves in each of these books; the
/// highest move returned to the first of them; and, unless there are very many states, the upper half of the moves
/// withdrawn by one list and returned at once.
pub fn each_move_in_turn(comparison: &mut Comparison, model: &Model) {
    let plant = model.bytes();
    let lengths = lengths_of(model);
    let (_, mut book) = comparison.make(&plant, model.every_move(), lengths[0]);
    if model.labels.len() <= 400 {
        let half = model.moves / 2;
        let masks: Vec<u32> = (half..model.moves).rev().map(|action| 1 << action).collect();
        let (_, rest) = comparison.withdraw_list(&plant, &book, &mask_bytes(&masks), lengths);
        comparison.made_afresh(&plant, (1 << half) - 1, &rest);
        comparison.return_moves(&plant, &rest, together(&masks), lengths);
    }
    comparison.there_and_back(&plant, &book, model.highest_move(), lengths);
    let (_, index) = comparison.index(&plant, index_of(&plant).len());
    comparison.make_indexed(&plant, &index, model.every_move(), lengths[0]);
    for action in (0..model.moves).rev() {
        every_goal(comparison, &plant, &book, model, action.into());
        if (model.moves - action) % 2 == 1 {
            comparison.withdraw_indexed(&plant, &index, &book, 1 << action, lengths);
        }
        book = withdraw_and_preview(comparison, &plant, &book, 1 << action, lengths).1;
        comparison.made_afresh(&plant, (1 << action) - 1, &book);
    }
}

/// Some bytes changed, cut off or added.
pub(in crate::compare) fn damage(bytes: &mut Vec<u8>, random: &mut Random) {
    match random.below(8) {
        0 => bytes.truncate(random.below(bytes.len() + 1)),
        1 => bytes.extend((0..random.from_to(1, 9)).map(|_| random.bits() as u8)),
        2 => {
            let (a, b) = (random.below(bytes.len()), random.below(bytes.len()));
            bytes.swap(a, b);
        }
        _ => {
            for _ in 0..random.from_to(1, 2) {
                let at = random.below(bytes.len());
                bytes[at] = [0, 1, 0xff, bytes[at].wrapping_add(1), random.bits() as u8][random.below(5)];
            }
        }
    }
}

/// One bit of one label changed, or the last number of the header.
pub(in crate::compare) fn change_sort(plant: &mut [u8], random: &mut Random) {
    if random.once_in(3) {
        let last = [0, 1, 2, 3, 256, 257][random.below(6)];
        plant[14..16].copy_from_slice(&u16::to_le_bytes(last));
    } else {
        let states = usize::from(number(plant, 0));
        plant[16 + random.below(2 * states)] ^= 1 << random.below(8);
    }
}

/// Plants with some bytes damaged, made of, withdrawn and previewed with, by lists and by the index of the whole plant
/// too, returned and looked up with.
fn damaged_plant(comparison: &mut Comparison, random: &mut Random) {
    let model = tiny_plant(random);
    let (book, index) = (invent_book(&model, random), index_of(&model.bytes()));
    for _ in 0..8 {
        let mut plant = model.bytes();
        match random.once_in(2) {
            true => change_sort(&mut plant, random),
            false => damage(&mut plant, random),
        }
        let mask = or_too_high(many_moves(&model, random), random);
        comparison.make(&plant, mask, any_length(book.len(), random));
        comparison.make_indexed(&plant, &index, mask, any_length(book.len(), random));
        comparison.index(&plant, any_length(index.len(), random));
        let mask = or_too_high(few_moves(&model, random), random);
        let lengths = [any_length(book.len(), random), model.list_length()];
        comparison.withdraw_indexed(&plant, &index, &book, mask, lengths);
        withdraw_and_preview(comparison, &plant, &book, mask, lengths);
        comparison.withdraw_list(&plant, &book, &any_list(&model, random), lengths);
        comparison.return_moves(&plant, &book, mask, lengths);
        any_goal(comparison, &plant, &book, &model, random);
    }
}

/// Books with some bytes damaged, withdrawn and previewed from, by lists and by an index too, returned to and looked up
/// in.
fn damaged_book(comparison: &mut Comparison, random: &mut Random) {
    let model = tiny_plant(random);
    let plant = model.bytes();
    let index = mostly_right(&model, random);
    let (_, whole) = comparison.make(&plant, model.every_move(), model.book_length());
    for _ in 0..8 {
        let mut book = if random.once_in(2) { whole.clone() } else { invent_book(&model, random) };
        damage(&mut book, random);
        let mask = or_too_high(few_moves(&model, random), random);
        let lengths = [any_length(whole.len(), random), model.list_length()];
        withdraw_and_preview(comparison, &plant, &book, mask, lengths);
        comparison.withdraw_indexed(&plant, &index, &book, mask, lengths);
        comparison.withdraw_list(&plant, &book, &any_list(&model, random), lengths);
        comparison.return_moves(&plant, &book, mask, lengths);
        look_up(comparison, &plant, &book, &model, random);
    }
}

/// Bytes whose header is random, with counts near the edges of their ranges and places that mostly fit them.
fn random_header(comparison: &mut Comparison, random: &mut Random) {
    let near = |random: &mut Random, most: usize| match random.below(16) {
        0 => random.below(1 << 16),
        1 => random.below(3),
        2..=4 => most + 1 - random.below(3),
        _ => random.from_to(1, most),
    };
    let (states, moves, goals) = (near(random, 1024), near(random, 32), near(random, 8));
    // Plant and book are mostly of one sort.
    let settled = random.once_in(2);
    let settles = [settled, settled != random.once_in(8)];
    let mut header = |numbers: [usize; 8]| {
        bytes_of(&numbers.map(|number| if random.once_in(40) { random.below(1 << 16) } else { number } as u16))
    };
    let stages = if settles[1] { 2 * states } else { 0 };
    let lengths = [16 + 2 * states, 16 + stages + 4 * states * goals];
    let [plant_length, book_length] = lengths.map(|length| length % (1 << 16));
    let mut plant = header([states, moves, goals, 0, 16, plant_length, plant_length, settles[0].into()]);
    let mut book = header([states, moves, goals, 0, 0, 0, 16, book_length]);
    plant.resize(plant_length.max(16), 0);
    book.resize(book_length.max(16), 0xff);
    let masks = [random.bits() as u32 & 3, random.bits() as u32 & 3];
    comparison.withdraw_list(&plant, &book, &mask_bytes(&masks), [LONGEST_BOOK, LONGEST_LIST]);
    if random.once_in(4) {
        comparison.return_moves(&plant, &book, masks[0], [LONGEST_BOOK, LONGEST_LIST]);
    }
    for _ in 0..2 {
        comparison.make(&plant, random.bits() as u32 & 3, LONGEST_BOOK);
        withdraw_and_preview(comparison, &plant, &book, random.bits() as u32 & 3, [LONGEST_BOOK, LONGEST_LIST]);
        comparison.consult(&book, random.below(1025) as u32, random.below(9) as u32);
        comparison.moves(&plant, &book, random.below(1025) as u32, random.below(9) as u32);
        comparison.row(&book, random.below(1025) as u32);
        plant.truncate(random.below(plant.len() + 1));
        book.truncate(random.below(book.len() + 1));
    }
}

/// Buffers of every length around their limits.
fn buffers(comparison: &mut Comparison, random: &mut Random) {
    let model = any_plant(random);
    let plant = model.bytes();
    let (needed, listed) = (model.book_length(), model.list_length());
    let made = many_moves(&model, random);
    let withdrawn = few_moves(&model, random);
    let masks = mask_bytes(&[withdrawn, few_moves(&model, random)]);
    let (_, book) = comparison.make(&plant, made, needed);
    for less in 0..6 {
        let (length, list) = ((needed + 3).saturating_sub(less), (listed + 3).saturating_sub(less));
        comparison.make(&plant, made, length);
        comparison.withdraw(&plant, &book, withdrawn, [length, listed]);
        withdraw_and_preview(comparison, &plant, &book, withdrawn, [needed, list]);
    }
    for length in [0, 1, 15, 16, 17] {
        comparison.make(&plant, made, length);
        withdraw_and_preview(comparison, &plant, &book, withdrawn, [needed, length]);
    }
    for lengths in [[needed - 1, listed], [needed, listed], [needed, listed - 1]] {
        comparison.withdraw_list(&plant, &book, &masks, lengths);
        comparison.return_moves(&plant, &book, model.every_move(), lengths);
    }
}

/// Strip plant P with all moves in service.
fn strip_and_book(comparison: &mut Comparison) -> (Vec<u8>, Vec<u8>) {
    with_book(comparison, &plants::strip())
}

/// A plant's bytes, and its book with all moves in service.
fn with_book(comparison: &mut Comparison, model: &Model) -> (Vec<u8>, Vec<u8>) {
    let plant = model.bytes();
    let (_, book) = comparison.make(&plant, model.every_move(), model.book_length());
    (plant, book)
}

/// Strip plant P, and a small plant that must settle.
pub(in crate::compare) fn both_sorts() -> [Model; 2] {
    [plants::strip(), plants::band()]
}

/// M9's book, which nobody made: M1's with row 1 lost.
pub(in crate::compare) fn m9_book(m1_book: &[u8]) -> Vec<u8> {
    let mut book = m1_book.to_vec();
    book[6] = 2;
    book[24..32].fill(0xff);
    book
}

/// The bytes with one of them changed to every other value, byte by byte.
pub(in crate::compare) fn with_one_changed(bytes: &[u8]) -> impl Iterator<Item = Vec<u8>> + '_ {
    let others = move |at: usize| (0..=255).filter(move |&value| value != bytes[at]).map(move |value| (at, value));
    (0..bytes.len()).flat_map(others).map(|(at, value)| {
        let mut bytes = bytes.to_vec();
        bytes[at] = value;
        bytes
    })
}

/// Every byte of a small plant of either sort, of its book and of a list of masks changed to every other value, in every
/// call.
fn single_bytes(comparison: &mut Comparison) {
    for model in both_sorts() {
        let (plant, book) = with_book(comparison, &model);
        let (lengths, longer) = (lengths_of(&model), lengths_of(&model).map(|length| length + 16));
        let highest = model.highest_move();
        let (_, without_move_0) = comparison.make(&plant, model.every_move() & !1, lengths[0]);
        let masks = mask_bytes(&[2, highest]);
        for masks in with_one_changed(&masks) {
            comparison.withdraw_list(&plant, &book, &masks, lengths);
        }
        for plant in with_one_changed(&plant) {
            comparison.make(&plant, model.every_move(), longer[0]);
            withdraw_and_preview(comparison, &plant, &book, highest, longer);
            comparison.withdraw_list(&plant, &book, &masks, longer);
            comparison.return_moves(&plant, &without_move_0, 1, longer);
            for (state, goal) in places(&model, 0) {
                comparison.moves(&plant, &book, state, goal);
            }
        }
        for book in with_one_changed(&book) {
            withdraw_and_preview(comparison, &plant, &book, highest, lengths);
            comparison.withdraw_list(&plant, &book, &masks, lengths);
            comparison.return_moves(&plant, &book, highest, lengths);
            look_everywhere(comparison, &plant, &book, &model);
        }
    }
}

/// Rows, consults and good moves of all states and goals, and of one more each.
fn look_everywhere(comparison: &mut Comparison, plant: &[u8], book: &[u8], model: &Model) {
    for state in 0..=model.labels.len() as u32 {
        comparison.row(book, state);
        for goal in 0..=model.goals.into() {
            comparison.consult(book, state, goal);
            comparison.moves(plant, book, state, goal);
        }
    }
}

/// The bytes cut off at a length, or with bytes of 0 added up to it.
pub(in crate::compare) fn of_length(bytes: &[u8], length: usize) -> Vec<u8> {
    let mut bytes = bytes.to_vec();
    bytes.resize(length, 0);
    bytes
}

/// A small plant of either sort and its book cut short everywhere, and with bytes added.
fn other_lengths(comparison: &mut Comparison) {
    for model in both_sorts() {
        let (plant, book) = with_book(comparison, &model);
        let (lengths, highest) = (lengths_of(&model), model.highest_move());
        let masks = mask_bytes(&[2, highest]);
        for length in 0..plant.len() + 20 {
            let plant = of_length(&plant, length);
            comparison.make(&plant, model.every_move(), lengths[0]);
            withdraw_and_preview(comparison, &plant, &book, highest, lengths);
            comparison.withdraw_list(&plant, &book, &masks, lengths);
            comparison.return_moves(&plant, &book, highest, lengths);
            comparison.moves(&plant, &book, 0, 1);
        }
        for length in 0..book.len() + 20 {
            let book = of_length(&book, length);
            withdraw_and_preview(comparison, &plant, &book, highest, lengths);
            comparison.withdraw_list(&plant, &book, &masks, lengths);
            comparison.return_moves(&plant, &book, highest, lengths);
            comparison.consult(&book, 0, 1);
            comparison.moves(&plant, &book, 0, 1);
            comparison.row(&book, 0);
        }
    }
}

/// A small plant of either sort with every pair of a mask made and a mask withdrawn, those that name a move too many
/// included.
fn every_mask(comparison: &mut Comparison) {
    for model in both_sorts() {
        let plant = model.bytes();
        for made in 0..4 * model.highest_move() {
            let (_, book) = comparison.make(&plant, made, model.book_length());
            for withdrawn in 0..4 * model.highest_move() {
                let (_, rest) = withdraw_and_preview(comparison, &plant, &book, withdrawn, lengths_of(&model));
                for state in 0..model.labels.len() as u32 {
                    comparison.row(&rest, state);
                }
                every_goal(comparison, &plant, &rest, &model, 0);
            }
        }
    }
}

/// A small plant of either sort with buffers of every length up to some bytes more than is needed.
fn every_buffer(comparison: &mut Comparison) {
    for model in both_sorts() {
        let (plant, book) = with_book(comparison, &model);
        let masks = mask_bytes(&[model.highest_move(), 1]);
        let (_, without_move_0) = comparison.make(&plant, model.every_move() & !1, model.book_length());
        for length in 0..book.len() + 8 {
            comparison.make(&plant, model.every_move(), length);
            for list in 0..16 {
                comparison.withdraw(&plant, &book, 1, [length, list]);
                comparison.withdraw_list(&plant, &book, &masks, [length, list]);
                comparison.return_moves(&plant, &without_move_0, 1, [length, list]);
            }
            comparison.preview(&plant, &book, 1, length);
        }
    }
}

/// The largest plants, and those just past each limit.
fn largest(comparison: &mut Comparison) {
    for (states, moves, goals, arrows) in [
        (1024, 32, 8, 8192),
        (1025, 32, 8, 8192),
        (1024, 33, 8, 8192),
        (1024, 32, 9, 8192),
        (1024, 32, 8, 8193),
        (1, 1, 1, 0),
        (0, 1, 1, 0),
        (1, 0, 1, 0),
        (1, 1, 0, 0),
    ] {
        let model = filled(states, moves, goals, arrows);
        let all_settled = model.clone().settled(|_| true);
        let half_settled = model.clone().settled(|state| state < 512);
        for model in [model, all_settled, half_settled] {
            every_call_once(comparison, &model.bytes(), u32::MAX >> (32 - moves.clamp(1, 32)));
        }
    }
}

/// Every call on a large plant, with the moves of a mask in service.
fn every_call_once(comparison: &mut Comparison, plant: &[u8], mask: u32) {
    let (_, book) = comparison.make(plant, mask, 1 << 16);
    let (_, rest) = withdraw_and_preview(comparison, plant, &book, mask & 1, [1 << 16, 1 << 12]);
    comparison.return_moves(plant, &rest, mask & 1, [1 << 16, 1 << 12]);
    let masks: Vec<u32> = (0..16).map(|action| mask & 1 << action).collect();
    comparison.withdraw_list(plant, &book, &mask_bytes(&masks), [1 << 16, 1 << 12]);
    let (_, index) = comparison.index(plant, 1 << 15);
    comparison.make_indexed(plant, &index, mask, 1 << 16);
    comparison.withdraw_indexed(plant, &index, &book, mask & 1, [1 << 16, 1 << 12]);
    comparison.consult(&book, 1023, 7);
    comparison.moves(plant, &book, 1023, 7);
    comparison.row(&book, 1023);
}

/// A plant with exactly these counts: every state allowed and in every goal, and arrows spread evenly.
pub(in crate::compare) fn filled(states: u16, moves: u16, goals: u16, arrows: u16) -> Model {
    let label = ((1u32 << (goals + 1)) - 1) as u16;
    let arrow = |number: u16| {
        let (from, lap) = (number % states, number / states);
        [from, lap % moves, (from + lap / moves + 1) % states]
    };
    let labels = vec![label; states.into()];
    Model { moves, goals, settles: false, labels, arrows: (0..arrows).map(arrow).collect() }
}
