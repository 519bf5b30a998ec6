//! Calls with faults put in, one of them or many at once: the first refusal that applies is returned.

use super::indexes::index_of;
use super::{invent_book, lengths_of, masks_in_turn, strip_and_book, tiny_plant, Comparison};
use crate::calls::mask_bytes;
use crate::plants::Random;
use crate::second::format::{read_masks, together};
use crate::sys::Answer;

/// What a call takes that checks much: a plant with an arrow and fewer than 32 moves, its index, a book for it, a mask
/// at least, the lengths of the buffers for a book and a list of states, and that of one for an index.
#[derive(Clone)]
pub struct Call {
    pub plant: Vec<u8>,
    pub index: Vec<u8>,
    pub book: Vec<u8>,
    pub masks: Vec<u8>,
    pub lengths: [usize; 2],
    pub index_length: usize,
}

/// What a call writes.
#[derive(Clone, Copy)]
pub enum Writes {
    Book,
    BookAndList,
    Index,
}

/// A kind of call: what it is refused with, in the order of the checks, what it writes, and how it is compared.
pub struct Kind {
    pub refusals: &'static [u32],
    pub writes: Writes,
    pub compare: fn(&mut Comparison, &Call) -> Answer,
}

impl Kind {
    /// Some calls on tiny plants, with books that nobody made and lists of so many masks, and with some faults put in.
    pub fn some_faults(&self, comparison: &mut Comparison, most_masks: usize, random: &mut Random) {
        for _ in 0..4 {
            let call = Call::any(random.from_to(1, most_masks), random);
            let faults = random.bits() as u8 & random.bits() as u8;
            self.check(comparison, call, faults, random.below(16));
        }
    }

    /// P with all faults put in that there can be together, none and each by itself among them.
    pub fn every_combination(&self, comparison: &mut Comparison, masks: &[u32]) {
        let (plant, book) = strip_and_book(comparison);
        let index = index_of(&plant);
        let call = Call { plant, index, book, masks: mask_bytes(masks), lengths: [48, 8], index_length: 24 };
        for faults in 0..=u8::MAX >> (8 - self.refusals.len()) {
            for place in 0..6 {
                self.check(comparison, call.clone(), faults, place);
            }
        }
    }

    /// Compares a call with faults put in, bit i for the i-th refusal: the first that applies is returned.
    fn check(&self, comparison: &mut Comparison, mut call: Call, faults: u8, place: usize) {
        let refusals = || (0..).zip(self.refusals).filter(|(bit, _)| faults >> bit & 1 != 0).map(|(_, &number)| number);
        for number in refusals() {
            call.spoil(number, place, self.writes);
        }
        let answer = (self.compare)(comparison, &call);
        assert_eq!(answer.number, refusals().next().unwrap_or(0), "the first that applies of {faults:#010b}");
    }
}

impl Call {
    /// A call on a tiny plant, with a book that nobody made and so many masks.
    fn any(masks: usize, random: &mut Random) -> Call {
        let mut model = tiny_plant(random);
        model.arrows.push([0, 0, 0]); // it may have had none
        let book = invent_book(&model, random);
        let masks = mask_bytes(&masks_in_turn(masks, &model, random));
        let (plant, lengths) = (model.bytes(), lengths_of(&model));
        let index = index_of(&plant);
        let index_length = index.len();
        Call { plant, index, book, masks, lengths, index_length }
    }

    /// The mask of a call that takes one alone.
    pub fn mask(&self) -> u32 {
        together(&read_masks(&self.masks).expect("one mask"))
    }

    /// Puts in what is refused with this number; `place` says where, or how, if there is a choice.
    fn spoil(&mut self, refusal: u32, place: usize, writes: Writes) {
        let (masks, last_arrow, last_index) = (self.masks.len() / 4, self.plant.len() - 6, self.index.len() - 1);
        match refusal {
            1 => self.plant[14] = 2,                                  // the last number of the header
            2 => self.plant[17] |= 0x80,                              // bit 15 of the first label
            3 => self.plant[last_arrow + 1 + 2 * (place % 3)] = 0xff, // the high byte of from, move or to
            10 if place % 3 == 0 => self.index.push(0),
            10 if place % 3 == 1 => self.index.truncate(8 * (place % 2)),
            10 => self.index[last_index * place / 15] ^= 1, // any byte of the index
            4 => self.book[12] = 15,                        // where the rows begin
            5 => self.book[6] ^= 1,                         // K
            9 if place % 2 == 0 => self.masks.resize(68, 0),
            9 => self.masks.extend(vec![0xff; 1 + place % 3]),
            6 => self.masks[4 * (place % masks) + 3] |= 0x80,
            _ => match writes {
                Writes::Book => self.lengths[0] -= 1,
                Writes::BookAndList => self.lengths[place % 2] -= 1,
                Writes::Index => self.index_length -= 1,
            },
        }
    }
}
