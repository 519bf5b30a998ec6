//! Why a call was refused.

use std::fmt;

/// The numbers 1 to 13 that a call may return in the place of a result. A refused call writes nothing. Where several
/// apply the lowest is returned, but for 9, which comes straight before 6, and 10, which comes straight after 3.
/// 11 and 12 are of the gauge, which has no others, and 13 is of the desk alone.
#[derive(Clone, Copy, Debug, PartialEq, Eq, Hash)]
#[non_exhaustive]
pub enum Refusal {
    /// 1: the plant's header or length is not valid.
    PlantHeader,
    /// 2: a label of the plant has a bit that means nothing.
    PlantLabel,
    /// 3: an arrow of the plant is out of range or out of order.
    PlantArrow,
    /// 4: the book's header or length is not valid, or is not one for the plant, stages included.
    BookHeader,
    /// 5: a row of the book is neither lost nor valid, or the count of kept states is not that of the rows.
    BookRow,
    /// 6: the mask given, or one of a list, names a move that the plant does not have.
    Mask,
    /// 7: a buffer is too short.
    Buffer,
    /// 8: a state, asked for, held or reported, or the goal is not in the book.
    OutOfBook,
    /// 9: the list of masks is not whole, or too long.
    MaskList,
    /// 10: the bytes lent as index are not those of the plant's index.
    Index,
    /// 11: the table of bands is not in order.
    Bands,
    /// 12: the reading, the aim or the deviation is not finite.
    Reading,
    /// 13: the state reported cannot follow the move given in the state held, or the state held is lost in the book.
    Report,
    /// A number that this version of the wrapper does not know.
    Other(u32),
}

/// The refusals by their number, from 1 on, with what was wrong, where, and what to do.
const KNOWN: [(Refusal, &str); 13] = [
    (
        Refusal::PlantHeader,
        "the plant's header is not valid or its length is not the one its header says (plant, bytes 0 to 15): lend \
         exactly 16 + 2S + 6E bytes, with S 1 to 1024, U 1 to 32, N 1 to 8, E 0 to 8192 and the last number 0, or 1 if \
         the plant must settle",
    ),
    (
        Refusal::PlantLabel,
        "a label has a bit above bit N (plant, labels from byte 16 on): set only bit 0 and the bits 1 to N, and bit 9 in \
         a plant that must settle",
    ),
    (
        Refusal::PlantArrow,
        "an arrow names a state or a move that is out of range, or the arrows do not strictly ascend (plant, arrows \
         from byte 16 + 2S on): sort them by from, move and to, and leave out doubles",
    ),
    (
        Refusal::BookHeader,
        "the book's header is not valid, its length is not the one its header says, or it is a book for other counts \
         of states, moves and goals than the plant's, or with stages for a plant that need not settle or without for \
         one that must (book, bytes 0 to 15): lend a whole book that was written for this plant",
    ),
    (
        Refusal::BookRow,
        "a row is neither wholly lost nor has every wait at most 1023, every move in the book's mask and, if it opens \
         with a stage, one from 1 to S, or the count of kept states is not that of the rows (book, rows from byte 16 \
         on): lend a book as it was written",
    ),
    (
        Refusal::Mask,
        "a mask has a bit for a move that the plant does not have (mask, or any one of a list, bit U or above): name \
         only moves 0 to U - 1",
    ),
    (
        Refusal::Buffer,
        "a buffer is too short (book, drop or index buffer): lend at least 16 + 4SN bytes for the book, 2S more if it \
         has stages, 2S for the states dropped or gained, and 8 + 2E for an index",
    ),
    (
        Refusal::OutOfBook,
        "the state, asked for, held or reported, or the goal is not in the book (state, goal): hand in states below S and a \
         goal below N",
    ),
    (
        Refusal::MaskList,
        "the list of masks is not whole, or too long (list of masks, its length): lend exactly 4 bytes for each mask, \
         and at most 16 masks",
    ),
    (
        Refusal::Index,
        "the bytes lent as index are not exactly the index of this plant (index, all of its 8 + 2E bytes): build it \
         anew from the plant's bytes, and lend the whole of it",
    ),
    (
        Refusal::Bands,
        "the table of bands is not in order (bands): have 1 to 64 of them by rising deviation, each with its upper end \
         above its lower one and none begun before the one before it ends, with ends that are open or finite numbers, \
         open ones at the outside alone, and with states below S",
    ),
    (
        Refusal::Reading,
        "the reading, the aim or the reading less the aim is infinite or undefined (reading, aim): hand in finite \
         numbers of millimetres, and look at the gauge",
    ),
    (
        Refusal::Report,
        "the state held is lost in this book, or no arrow of the move given there ends in the state reported (state \
         reported; state and goal held): the desk holds what it held; look which state the line is in and whether this \
         is the book that gave the move, and report again, or start anew where the line is",
    ),
];

impl Refusal {
    /// The refusal with this number.
    pub fn from_number(number: u32) -> Refusal {
        known(number).map_or(Refusal::Other(number), |known| known.0)
    }

    /// The number of this refusal.
    pub fn number(self) -> u32 {
        match self {
            Refusal::PlantHeader => 1,
            Refusal::PlantLabel => 2,
            Refusal::PlantArrow => 3,
            Refusal::BookHeader => 4,
            Refusal::BookRow => 5,
            Refusal::Mask => 6,
            Refusal::Buffer => 7,
            Refusal::OutOfBook => 8,
            Refusal::MaskList => 9,
            Refusal::Index => 10,
            Refusal::Bands => 11,
            Refusal::Reading => 12,
            Refusal::Report => 13,
            Refusal::Other(number) => number,
        }
    }
}

/// The known refusal with this number, and what it means.
fn known(number: u32) -> Option<&'static (Refusal, &'static str)> {
    (number as usize).checked_sub(1).and_then(|at| KNOWN.get(at))
}

impl fmt::Display for Refusal {
    fn fmt(&self, f: &mut fmt::Formatter<'_>) -> fmt::Result {
        let number = self.number();
        let text =
            known(number).map_or("a number that this version does not know: update the wrapper", |known| known.1);
        write!(f, "refused {number}: {text}")
    }
}

impl std::error::Error for Refusal {}

#[cfg(test)]
mod tests {
    use super::*;

    #[test]
    fn numbers_and_names_agree() {
        for number in 0..20 {
            let refusal = Refusal::from_number(number);
            assert_eq!(refusal.number(), number);
            assert_eq!(matches!(refusal, Refusal::Other(_)), !(1..=13).contains(&number));
            assert!(refusal.to_string().starts_with(&format!("refused {number}: ")));
        }
    }
}
