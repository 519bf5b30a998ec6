//! The second solvers against document 01 and against each other: brute force, sweeps and worklist; and the second
//! gauges and desks. Needs no archive.

#![deny(warnings)]

mod document;
mod promises;

use planbook::calls::{mask_bytes, Calls};
use planbook::compare::desks::{self, DeskComparison};
use planbook::compare::gauges::{self, rounds::beside, rounds::special_floats, GaugeComparison};
use planbook::compare::{rounds, Comparison};
use planbook::plants::{self, Family, Model, Random, FAMILIES, WAYS_TO_SETTLE};
use planbook::second::format::{index_bytes, number, read_index, BookView, Plant};
use planbook::second::gauge::{self, deviation, Steps};
use planbook::second::{desk, effort, Brute, Fast, Plain};
use planbook::Refusal;

#[test]
fn marked_examples() {
    for planner in [&Brute as &dyn Calls, &Plain, &Fast] {
        document::marked_examples(planner);
        document::further_examples(planner);
        document::previews(planner);
        document::lists(planner);
        document::returns(planner);
        document::returns_to_invented_books(planner);
        document::good_moves(planner);
        document::arrivals(planner);
        document::settle::rows(planner);
        document::settle::withdrawals(planner);
        document::settle::lookups(planner);
        document::index::indexes(planner);
    }
}

/// Every generated plant is one, and they reach the edges of every range.
#[test]
fn generated_plants_are_accepted() {
    for family in FAMILIES {
        for states in 1..=1024 {
            let plant = Plant::read(&family.build(states, 5).bytes()).expect("a family's plant");
            assert_eq!(plant.states, usize::from(states));
        }
    }
    let gates = Plant::read(&plants::gates().bytes()).expect("the slow one");
    assert_eq!([gates.states, gates.moves, gates.goals, gates.arrows.len()], [1024, 15, 8, 8_086]);
    let detour = Plant::read(&Family::Detour.build(1024, 1).bytes()).expect("the slow family's largest");
    assert_eq!([detour.states, detour.moves, detour.goals, detour.arrows.len()], [1024, 20, 8, 8_192]);
    let (mut least, mut most) = ([usize::MAX; 4], [0; 4]);
    for seed in 0..4_000 {
        let plant = Plant::read(&plants::any_size(&mut Random::new(seed)).bytes()).expect("any size");
        let counts = [plant.states, plant.moves, plant.goals, plant.arrows.len()];
        for (at, count) in counts.into_iter().enumerate() {
            least[at] = least[at].min(count);
            most[at] = most[at].max(count);
        }
    }
    println!("S, U, N and E from {least:?} to {most:?}");
    assert_eq!((least, &most[..3]), ([1, 1, 1, 0], &[1024, 32, 8][..]));
    assert!(most[3] > 7_500);
}

/// The rows of the book that the worklist solver makes, in rising order.
fn sorted_rows(model: &Model) -> Vec<Vec<u8>> {
    let mut book = vec![0; model.book_length()];
    Fast.make(&model.bytes(), model.every_move(), &mut book);
    let rows = &book[16..];
    let mut rows: Vec<_> = rows.chunks_exact(rows.len() / model.labels.len()).map(Vec::from).collect();
    rows.sort();
    rows
}

/// Which numbers the states of a plant have makes no difference: the rows are the same, in another order.
#[test]
fn states_in_any_order() {
    for (family, states) in FAMILIES.into_iter().flat_map(|family| [9, 70, 300].map(|states| (family, states))) {
        let model = family.build(states, 3);
        let settled = model.clone().settled(|state| state % 9 != 4);
        for model in [model, settled] {
            let shuffled = model.clone().shuffled(&mut Random::new(states.into()));
            assert_ne!(model, shuffled);
            assert_eq!(sorted_rows(&model), sorted_rows(&shuffled), "{} with {states} states", family.name());
        }
    }
}

#[test]
fn refusals_and_limits() {
    for planner in [&Plain as &dyn Calls, &Fast] {
        document::refusals(planner);
        document::drop_lists(planner);
        document::lists_that_drop_with_each_mask(planner);
        document::returns_that_gain_with_each_move(planner);
        document::returns_of_the_longest(planner);
        document::gained_lists(planner);
        document::previews_of_the_longest(planner);
        document::good_moves_of_the_longest(planner);
        document::settle::chains(planner);
        document::settle::refusals(planner);
        document::index::books_by_index(planner);
        document::index::refusals(planner);
    }
}

/// What is taken for an index is what is built, though that is sorted and this is not: each bit of small ones changed,
/// arrows exchanged, and other bytes.
#[test]
fn an_index_is_read_as_it_is_built() {
    let mut refused = 0;
    for seed in 0..300 {
        let random = &mut Random::new(seed);
        let plant = Plant::read(&plants::tiny(random).bytes()).expect("a plant");
        let right = index_bytes(&plant);
        let order: Vec<u16> = (0..plant.arrows.len()).map(|at| number(&right, 8 + 2 * at)).collect();
        assert_eq!(read_index(&right, &plant), Ok(order));
        let mut others: Vec<Vec<u8>> = (0..8 * right.len())
            .map(|bit| {
                let mut other = right.clone();
                other[bit / 8] ^= 1 << (bit % 8);
                other
            })
            .collect();
        others.extend((4..right.len() / 2).flat_map(|one| (4..one).map(move |two| (one, two))).map(|(one, two)| {
            let mut other = right.clone();
            (0..2).for_each(|at| other.swap(2 * one + at, 2 * two + at));
            other
        }));
        others.extend((0..right.len()).map(|length| right[..length].to_vec()));
        others.push([&right[..], &[0]].concat());
        for other in others {
            assert_eq!(read_index(&other, &plant), Err(Refusal::Index), "{other:?} for {right:?}");
            refused += 1;
        }
    }
    println!("{refused} are not the index");
}

#[test]
fn promises() {
    promises::drop_lists_are_read_from_the_books(&Fast);
    promises::previews_come_true(&Fast);
    promises::lists_come_to_the_withdrawals_in_turn(&Fast);
    promises::returns_undo_withdrawals(&Fast);
    promises::returns_come_to_a_making(&Fast);
    promises::calls_by_index_come_to_those_without(&Fast);
    promises::lists_of_calls_come_to_a_making(&Fast);
    promises::rows_come_from_what_is_reached(&Fast);
    promises::stages_come_to_plain_books(&Fast);
    promises::stages_never_fall(&Fast);
    promises::sets_are_those_of_the_rule(&Fast);
    promises::following_meets_the_goals(&Fast);
}

/// Brute force and sweeps, each beside the worklist.
struct Trial<'a> {
    brute: Comparison<'a>,
    plain: Comparison<'a>,
    tried: u64,
    kept: usize,
    lost: usize,
    /// Waits above 1.
    long: usize,
}

impl Trial<'_> {
    fn new() -> Trial<'static> {
        let [brute, plain] = [&Brute as &dyn Calls, &Plain].map(|planner| Comparison::new(planner, &Fast));
        Trial { brute, plain, tried: 0, kept: 0, lost: 0, long: 0 }
    }

    /// A tiny plant, with every mask, every withdrawal from what is made, the preview of move 0, and, from what is made
    /// with all moves, the lists of moves 0 and 1 in both orders.
    fn try_plant(&mut self, model: &Model) {
        let (plant, every_move) = (model.bytes(), model.every_move());
        let lengths = [model.book_length(), model.list_length()];
        self.tried += 1;
        for made in 0..=every_move {
            let (_, book) = self.brute.make(&plant, made, lengths[0]);
            self.plain.make(&plant, made, lengths[0]);
            if self.count(&book) == 0 {
                continue;
            }
            for withdrawn in 1..=every_move {
                self.both(|comparison| comparison.withdraw(&plant, &book, withdrawn, lengths));
            }
            self.both(|comparison| comparison.preview(&plant, &book, 1, lengths[1]));
            if made == every_move && model.moves > 1 {
                for masks in [[1, 2], [2, 1]].map(|masks| mask_bytes(&masks)) {
                    self.both(|comparison| comparison.withdraw_list(&plant, &book, &masks, lengths));
                }
            }
        }
    }

    /// Tiny plants that keep states when all moves are in service, made with every mask: all moves that are out come
    /// back.
    fn try_returns(&mut self, model: &Model) {
        let (plant, every_move) = (model.bytes(), model.every_move());
        let lengths = [model.book_length(), model.list_length()];
        if self.plain.make(&plant, every_move, lengths[0]).1[6] != 0 {
            for made in 0..every_move {
                let (_, book) = self.plain.make(&plant, made, lengths[0]);
                self.both(|comparison| comparison.return_moves(&plant, &book, every_move & !made, lengths));
            }
        }
    }

    fn both<T>(&mut self, mut call: impl FnMut(&mut Comparison) -> T) {
        call(&mut self.brute);
        call(&mut self.plain);
    }

    /// Counts what a book has; answers how many states it keeps.
    fn count(&mut self, book: &[u8]) -> usize {
        let rows = BookView::read(book, None).expect("a book that was made");
        let kept: Vec<usize> = (0..rows.states).filter(|&state| rows.is_kept(state)).collect();
        let waits = kept.iter().flat_map(|&state| (0..rows.goals).map(move |goal| rows.entry(state, goal).0));
        self.long += waits.filter(|&wait| wait > 1).count();
        self.kept += kept.len();
        self.lost += rows.states - kept.len();
        kept.len()
    }

    fn print(&self) {
        println!("{} tiny plants: {}; {}", self.tried, self.brute.summary(), self.plain.summary());
        println!("made {} kept and {} lost states, {} waits above 1", self.kept, self.lost, self.long);
    }
}

/// Whether brute force tries at most so many strategies and replies for a plant.
fn is_little(model: &Model, most: f64) -> bool {
    effort(&Plant::read(&model.bytes()).expect("a tiny plant"), model.every_move()) <= most
}

/// Brute force, sweeps and worklist agree on tiny plants.
#[test]
fn brute_force_agrees_on_tiny_plants() {
    let mut trial = Trial::new();
    let models = (0..30_000).map(|seed| plants::tiny(&mut Random::new(seed)));
    models.filter(|model| is_little(model, 3_000.0)).for_each(|model| trial.try_plant(&model));
    trial.print();
    assert!(trial.tried > 20_000 && trial.kept > 30_000 && trial.lost > 30_000 && trial.long > 3_000);
    let [late, repeated] = trial.brute.lists();
    assert!(late > 3_000 && repeated > 600);
}

/// They agree on tiny plants that must settle.
#[test]
fn brute_force_agrees_on_tiny_plants_that_settle() {
    let mut trial = Trial::new();
    let models = (0..20_000).map(|seed| plants::tiny_settled(&mut Random::new(seed)));
    models.filter(|model| is_little(model, 1_000.0)).for_each(|model| trial.try_plant(&model));
    trial.print();
    assert!(trial.tried > 10_000 && trial.kept > 30_000 && trial.lost > 30_000 && trial.long > 500);
    let [staged, deep, _] = trial.brute.stages();
    assert!(staged > 30_000 && deep > 5_000);
}

/// They agree when all moves that are out come back, in plants of both sorts.
#[test]
fn brute_force_agrees_on_returns() {
    let mut trial = Trial::new();
    for seed in 0..30_000 {
        let models = [plants::tiny, plants::tiny_settled].map(|model| model(&mut Random::new(seed)));
        models.iter().filter(|model| is_little(model, 100.0)).for_each(|model| trial.try_returns(model));
    }
    println!("tiny plants: {}; {}", trial.brute.summary(), trial.plain.summary());
    assert!(trial.brute.returns()[0] > 10_000);
}

/// Withdrawals from books that nobody made, some by lists, and returns to them, by brute force.
#[test]
fn brute_force_agrees_on_invented_books() {
    let mut comparison = Comparison::new(&Brute, &Fast);
    let mut tried = 0;
    for seed in 0..20_000 {
        let random = &mut Random::new(seed);
        let model = if seed % 2 == 0 { plants::tiny(random) } else { plants::tiny_settled(random) };
        if is_little(&model, 1_500.0) {
            rounds::withdrawals_from_invented(&mut comparison, &model, random);
            tried += 1;
        }
    }
    println!("{tried} tiny plants: {}", comparison.summary());
    let ([passes, all_served], [late, repeated]) = (comparison.arrivals(), comparison.lists());
    assert!(tried > 3_000 && passes > 5_000 && all_served > 5_000 && late > 60 && repeated > 30);
    assert!(comparison.returns().iter().all(|&many| many > 100));
}

/// All families at all sizes: sweeps and worklist agree on makes, on withdrawals of one move after another, by single
/// calls and by lists, and on returns.
#[test]
fn sweeps_and_worklist_agree_on_families() {
    let mut comparison = Comparison::new(&Plain, &Fast);
    for family in FAMILIES {
        for states in family.quick_sizes(&[1, 2, 3, 4, 7, 16, 33, 64, 150, 400, 1024]) {
            rounds::each_move_in_turn(&mut comparison, &family.build(states, 1));
        }
        for (states, way) in
            [1, 2, 3, 4, 7, 16, 33, 64].iter().flat_map(|&states| WAYS_TO_SETTLE.map(|way| (states, way)))
        {
            let model = way.of(family.build(states, 1), &mut Random::new(1));
            rounds::each_move_in_turn(&mut comparison, &model);
        }
    }
    println!("{}", comparison.summary());
}

/// The rounds that the proved library is put through, with sweeps in its place.
#[test]
fn sweeps_and_worklist_agree_in_every_round() {
    let mut comparison = Comparison::new(&Plain, &Fast);
    for round in rounds::EXHAUSTIVE_ROUNDS {
        round(&mut comparison);
    }
    for (name, round) in rounds::RANDOM_ROUNDS {
        let (seed, calls) = (7_000_000, 30_000);
        let rounds = rounds::run(&mut comparison, round, seed, calls);
        println!("{name}: {rounds} rounds from seed {seed}");
    }
    println!("{}", comparison.summary());
    let ([passes, all_served], [late, repeated]) = (comparison.arrivals(), comparison.lists());
    assert!(passes > 5_000 && all_served > 2_000 && late > 800 && repeated > 300);
    let [gaining, losing] = comparison.returns();
    assert!(gaining > 2_000 && losing > 1_500);
    let [indexed, partial, misfits] = comparison.indexes();
    assert!(indexed > 10_000 && partial > 300 && misfits > 50_000);
}

/// The exact gauge against the documents, and the one by the machine's floats against it.
#[test]
fn gauges() {
    document::gauge::all(&gauge::Exact);
    document::gauge::all(&gauge::Plain);
    let mut comparison = GaugeComparison::new(&gauge::Plain, &gauge::Exact);
    for round in gauges::rounds::EXHAUSTIVE_ROUNDS {
        round(&mut comparison);
    }
    for (_, round) in gauges::rounds::RANDOM_ROUNDS {
        rounds::run(&mut comparison, round, 1, 20_000);
    }
    println!("{}", comparison.summary());
}

/// The desk in the documents' words against the documents, and the one that is written for speed against it.
#[test]
fn desks() {
    document::desk::all(&desk::Plain);
    document::desk::all(&desk::Fast);
    let mut comparison = DeskComparison::new(&desk::Fast, &desk::Plain, &Fast);
    for round in desks::rounds::EXHAUSTIVE_ROUNDS {
        round(&mut comparison);
    }
    for (_, round) in desks::rounds::RANDOM_ROUNDS {
        rounds::run(&mut comparison, round, 7_000_000, 30_000);
    }
    for family in FAMILIES {
        desks::rounds::walk_family(&mut comparison, family, 64, 400);
    }
    println!("{}", comparison.summary());
    assert!(comparison.refused().iter().chain(&comparison.counts()).all(|&many| many > 1_000));
}

/// A whole number of steps is what a float is told from: order, difference and rounding of the machine's floats are
/// those of the numbers that they stand for.
#[test]
fn floats_are_whole_numbers_of_steps() {
    let (mut pairs, mut rounded, mut ties, mut infinite) = (0, 0, 0, 0);
    for [one, other] in pairs_of_floats() {
        let [exact, exact_other] = [one, other].map(|float| Steps::of(float).expect("a finite float"));
        assert_eq!(Some(exact.cmp(&exact_other)), one.partial_cmp(&other), "{one:?} and {other:?}");
        let difference = exact.less(&exact_other);
        assert_eq!(deviation(one, other), Steps::of(one - other), "{one:?} less {other:?}");
        pairs += 1;
        match deviation(one, other) {
            None => infinite += 1,
            Some(near) if near != difference => {
                rounded += 1;
                // A tie: as far away on the other side lies a float, too.
                let off = difference.less(&near);
                let over = difference.less(&Steps::default().less(&off));
                ties += u32::from(over.rounded() == Some(over));
            }
            Some(_) => {}
        }
    }
    println!("{pairs} differences, {rounded} of them rounded, {ties} from between two floats, {infinite} not finite");
    assert!([rounded, ties, infinite].iter().all(|&many| many > 1_000));
}

/// Finite floats: all pairs at the edges and next to them, and random ones, of any bits and of like size; of these some
/// whose difference lies right between two floats.
fn pairs_of_floats() -> impl Iterator<Item = [f64; 2]> {
    let finite = special_floats().into_iter().filter(|float| float.is_finite());
    let edges: Vec<f64> = finite.flat_map(|float| [-1, 0, 1].map(|places| beside(float, places))).collect();
    let edges: Vec<f64> = edges.into_iter().filter(|float| float.is_finite()).collect();
    let at_edges =
        edges.clone().into_iter().flat_map(move |one| edges.clone().into_iter().map(move |other| [one, other]));
    let mut random = Random::new(11);
    let drawn = (0..400_000).map(move |at| {
        let one = f64::from_bits(random.bits());
        let (away, low_bits) = (random.below(120) as u64, random.bits() >> 12);
        let near = f64::from_bits(one.to_bits().wrapping_sub(away << 52) ^ low_bits);
        let beside_it = f64::from_bits(one.to_bits() ^ low_bits >> random.below(52));
        let largest = f64::from_bits(f64::MAX.to_bits() ^ low_bits);
        match at % 6 {
            0 => [one, f64::from_bits(random.bits())],
            1 => [one, near],
            2 => [one, -near],
            3 => [one, beside_it],
            4 => [largest, -near.abs() - largest / 2.0],
            _ => [one, (beside(one.abs(), 1) - one.abs()) * (random.below(64) as f64 + 0.5)],
        }
    });
    at_edges.chain(drawn).filter(|pair| pair.iter().all(|float| float.is_finite()))
}
