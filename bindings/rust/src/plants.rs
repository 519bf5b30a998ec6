//! Plants for tests and benchmarks: families of a fixed shape, and random ones from a fixed seed.

/// A plant as it is built; [`Model::bytes`] lays it out.
#[derive(Clone, Debug, PartialEq, Eq)]
pub struct Model {
    /// U, the number of moves.
    pub moves: u16,
    /// N, the number of goals.
    pub goals: u16,
    /// Whether runs must settle: the last number of the header.
    pub settles: bool,
    /// A label for each state: bit 0 allowed, bit 1 + i in goal i, and bit 9 settled if runs must settle.
    pub labels: Vec<u16>,
    /// From, move, to.
    pub arrows: Vec<[u16; 3]>,
}

/// The most arrows that a plant may have.
const MOST_ARROWS: usize = 8192;

/// Bit 9 of a label: the state is settled.
pub const SETTLED: u16 = 1 << 9;

impl Model {
    /// The plant's bytes. Arrows are put in order, and doubles left out.
    pub fn bytes(&self) -> Vec<u8> {
        let mut arrows = self.arrows.clone();
        arrows.sort_unstable();
        arrows.dedup();
        let states = self.labels.len() as u16;
        let arrows_at = 16 + 2 * states;
        let length = arrows_at + 6 * arrows.len() as u16;
        let last = u16::from(self.settles);
        let header = [states, self.moves, self.goals, arrows.len() as u16, 16, arrows_at, length, last];
        bytes_of(header.iter().chain(&self.labels).chain(arrows.iter().flatten()))
    }

    /// How long the plant's books are.
    pub fn book_length(&self) -> usize {
        let stages = if self.settles { 2 * self.labels.len() } else { 0 };
        16 + stages + 4 * self.labels.len() * usize::from(self.goals)
    }

    /// How long the list of all its states is.
    pub fn list_length(&self) -> usize {
        2 * self.labels.len()
    }

    /// The plant with runs that must settle, in the states that the test picks.
    pub fn settled(mut self, mut test: impl FnMut(usize) -> bool) -> Model {
        self.settles = true;
        for (state, label) in self.labels.iter_mut().enumerate() {
            *label = *label & !SETTLED | if test(state) { SETTLED } else { 0 };
        }
        self
    }

    /// The same plant with its states numbered anew, in an order that has nothing to do with where the arrows lead.
    pub fn shuffled(mut self, random: &mut Random) -> Model {
        let mut numbers: Vec<u16> = (0..self.states()).collect();
        for last in (1..numbers.len()).rev() {
            numbers.swap(last, random.below(last + 1));
        }
        let number = |state: u16| usize::from(numbers[usize::from(state)]);
        let before = self.labels.clone();
        for (state, label) in (0..).zip(before) {
            self.labels[number(state)] = label;
        }
        for [from, _, to] in &mut self.arrows {
            (*from, *to) = (number(*from) as u16, number(*to) as u16);
        }
        self
    }

    /// The mask with all moves in service.
    pub fn every_move(&self) -> u32 {
        u32::MAX >> (32 - self.moves)
    }

    /// The mask of the highest move alone.
    pub fn highest_move(&self) -> u32 {
        1 << (self.moves - 1)
    }

    fn states(&self) -> u16 {
        self.labels.len() as u16
    }
}

/// Two-byte numbers, one after another.
pub fn bytes_of<'a>(numbers: impl IntoIterator<Item = &'a u16>) -> Vec<u8> {
    numbers.into_iter().flat_map(|number| number.to_le_bytes()).collect()
}

/// Numbers that look random and are the same for the same seed (splitmix64).
#[derive(Clone, Debug)]
pub struct Random(u64);

impl Random {
    /// The numbers of a seed.
    pub fn new(seed: u64) -> Random {
        Random(seed)
    }

    /// The next 64 bits.
    pub fn bits(&mut self) -> u64 {
        self.0 = self.0.wrapping_add(0x9e37_79b9_7f4a_7c15);
        let mut mixed = self.0;
        mixed = (mixed ^ (mixed >> 30)).wrapping_mul(0xbf58_476d_1ce4_e5b9);
        mixed = (mixed ^ (mixed >> 27)).wrapping_mul(0x94d0_49bb_1331_11eb);
        mixed ^ (mixed >> 31)
    }

    /// A number below `bound`, which is not 0.
    pub fn below(&mut self, bound: usize) -> usize {
        (self.bits() % bound as u64) as usize
    }

    /// A number from `low` to `high`, both included.
    pub fn from_to(&mut self, low: usize, high: usize) -> usize {
        low + self.below(high - low + 1)
    }

    /// True once in `times`.
    pub fn once_in(&mut self, times: usize) -> bool {
        self.below(times) == 0
    }

    /// One of the numbers below `bound`.
    fn pick(&mut self, bound: u16) -> u16 {
        self.below(bound.into()) as u16
    }
}

/// Strip plant P of document 01.
pub fn strip() -> Model {
    Model {
        moves: 3,
        goals: 2,
        settles: false,
        labels: vec![3, 1, 5, 0],
        arrows: vec![[0, 0, 1], [0, 1, 1], [0, 1, 2], [1, 0, 2], [1, 1, 3], [1, 2, 0], [2, 0, 0], [2, 2, 1]],
    }
}

/// A small plant that must settle, with two stages: state 0 is settled and in goal 0, state 1 is not settled, and state
/// 2 is settled and in both goals and can be stayed in. State 0 may stay too, and has its way to goal 1 over state 1.
pub fn band() -> Model {
    Model {
        moves: 2,
        goals: 2,
        settles: true,
        labels: vec![515, 1, 519],
        arrows: vec![[0, 0, 0], [0, 1, 1], [1, 0, 2], [1, 1, 0], [2, 0, 2]],
    }
}

/// The longest plant there is, with one state as busy as can be while all are kept: the last has 7,169 arrows, to
/// states in every goal, and each of those has one.
pub fn longest() -> Model {
    let last = 1023;
    let mut model = empty(last + 1, 32, 8);
    for state in 0..last {
        set_every_goal(&mut model, state);
        model.arrows.push([state, 0, state + 1]);
    }
    let busy = MOST_ARROWS as u16 - last;
    model.arrows.extend((0..busy).map(|number| [last, number / last, number % last]));
    model
}

/// A plant that takes long to make: gates in every goal of which one more is lost in each round, and a line of states
/// that leads to the first of them, so that each round works out waits as long as the line for all eight goals. A state
/// of the line has many moves that lead away, and its last one leads on. In the end all states are lost.
pub fn gates() -> Model {
    let (line, moves) = (512, 15);
    let mut model = empty(1024, moves, 8);
    for state in 0..line {
        let away = (state + 1..line).take(usize::from(moves) - 1);
        model.arrows.extend(away.zip(0..).map(|(end, action)| [state, action, end]));
        model.arrows.push([state, moves - 1, if state == 0 { line } else { state - 1 }]);
    }
    for gate in line..1024 {
        set_every_goal(&mut model, gate);
        if gate < 1023 {
            model.arrows.push([gate, 0, gate + 1]);
        }
    }
    model
}

/// The families of plants. Each is built for any number of states from 1 to 1,024 and any seed. To withdraw the highest
/// move of a plant is what its family is meant to show.
#[derive(Clone, Copy, Debug, PartialEq, Eq)]
pub enum Family {
    /// Arrows between any states, some states not allowed, goals anywhere.
    Random,
    /// Layers with arrows to the next layer only, the last to the first; each goal is in one layer.
    Layered,
    /// Such layers with the states numbered in any order, so that no pass over the states in turn follows the arrows.
    LayeredShuffled,
    /// A ring with goals on one state each, so that waits get as long as they can.
    Ring,
    /// Such a ring with the states numbered in any order.
    RingShuffled,
    /// Few moves with many arrows each: about as many in all as a plant may have, from 256 states on.
    Dense,
    /// Every state in the one goal, each with an arrow to the next only, and the last one with a move of its own to
    /// stay: without that move all are lost, one more in each round.
    Chain,
    /// The chain with eight goals, and every state in all of them: each round has eight goals to force.
    ChainEight,
    /// Every state in the one goal, each with an arrow to the next only by the one move, and the last one with none:
    /// all are lost, one more in each round, so that there are as many rounds as states.
    DeadEnd,
    /// Rungs that can be stayed on for ever, each of which has its way to the goals over the one below, and the lowest by
    /// a move of its own: without that move all are lost, one more rung in each round.
    Ladder,
    /// The ladder with eight goals, and each goal state in all of them.
    LadderEight,
    /// A ladder beside a ring that stays kept: without the ladder's move many rounds, each with long waits.
    LadderRing,
    /// A grid with walls (one state in twelve, at random, is not allowed), moves in four directions that may slip
    /// aside, and goals in the corners.
    Grid,
    /// Gates of which one dies in each round and a detour from one to the next, beside a line of states with many moves
    /// each that leads to the detour: many rounds, each with long waits that are all longer than in the round before.
    Detour,
}

/// All families.
pub const FAMILIES: [Family; 14] = [
    Family::Random,
    Family::Layered,
    Family::LayeredShuffled,
    Family::Ring,
    Family::RingShuffled,
    Family::Dense,
    Family::Chain,
    Family::ChainEight,
    Family::DeadEnd,
    Family::Ladder,
    Family::LadderEight,
    Family::LadderRing,
    Family::Grid,
    Family::Detour,
];

impl Family {
    /// The family's name, for tables and messages.
    pub fn name(self) -> &'static str {
        match self {
            Family::Random => "random",
            Family::Layered => "layered",
            Family::LayeredShuffled => "layered-shuffled",
            Family::Ring => "ring",
            Family::RingShuffled => "ring-shuffled",
            Family::Dense => "dense",
            Family::Chain => "chain",
            Family::ChainEight => "chain-eight",
            Family::DeadEnd => "dead-end",
            Family::Ladder => "ladder",
            Family::LadderEight => "ladder-eight",
            Family::LadderRing => "ladder-ring",
            Family::Grid => "grid",
            Family::Detour => "detour",
        }
    }

    /// Whether the seed makes a difference.
    pub fn is_random(self) -> bool {
        self.build(24, 1) != self.build(24, 2)
    }

    /// Whether a solver by sweeps may take seconds for one call on its largest plants.
    pub fn is_slow(self) -> bool {
        self == Family::Detour
    }

    /// Of some sizes those that take no such time.
    pub fn quick_sizes(self, sizes: &[u16]) -> impl Iterator<Item = u16> + '_ {
        sizes.iter().copied().filter(move |&states| !self.is_slow() || states <= 64)
    }

    /// The plant of this family with so many states.
    pub fn build(self, states: u16, seed: u64) -> Model {
        let random = &mut Random::new(seed ^ (u64::from(states) << 32));
        match self {
            Family::Random => scattered(states, random),
            Family::Layered => layered(states, random),
            Family::LayeredShuffled => layered(states, random).shuffled(random),
            Family::Ring => ring(states, random),
            Family::RingShuffled => ring(states, random).shuffled(random),
            Family::Dense => dense(states, random),
            Family::Chain => chain(states, 1),
            Family::ChainEight => chain(states, 8),
            Family::DeadEnd => dead_end(states),
            Family::Ladder => ladder(states, 2),
            Family::LadderEight => ladder(states, 8),
            Family::LadderRing => ladder_ring(states),
            Family::Grid => grid(states, random),
            Family::Detour => detour(states),
        }
    }
}

/// Which states of a plant are settled.
#[derive(Clone, Copy, Debug, PartialEq, Eq)]
pub enum Settled {
    /// All of them.
    All,
    /// Those with an odd number.
    EveryOther,
    /// Most of them, at random.
    Most,
}

/// All ways to settle a plant.
pub const WAYS_TO_SETTLE: [Settled; 3] = [Settled::All, Settled::EveryOther, Settled::Most];

impl Settled {
    /// Its name, for tables and messages.
    pub fn name(self) -> &'static str {
        match self {
            Settled::All => "all settled",
            Settled::EveryOther => "every other settled",
            Settled::Most => "most settled",
        }
    }

    /// The plant with runs that must settle in such states.
    pub fn of(self, model: Model, random: &mut Random) -> Model {
        match self {
            Settled::All => model.settled(|_| true),
            Settled::EveryOther => model.settled(|state| state % 2 == 1),
            Settled::Most => model.settled(|_| !random.once_in(8)),
        }
    }
}

/// The plant as it is, or as one that must settle, in as many of its states as may be.
pub fn either_sort(model: Model, random: &mut Random) -> Model {
    match random.below(8) {
        0..=3 => model,
        4 => WAYS_TO_SETTLE[random.below(3)].of(model, random),
        _ => {
            let unsettled = random.from_to(2, 6);
            model.settled(|_| !random.once_in(unsettled))
        }
    }
}

/// A plant that takes the more time to settle the more stages it has: a chain of so many states that are not settled
/// leads to one that is, in all goals, and stays. Beside it stands a tail of settled states in all goals, each of which
/// leads to the next only and the last to a state that is not settled and stays; it is struck out at each stage, from
/// its end on and one state in each round. A path of settled states in no goal leads to its first state, so that each
/// round has as many levels. Each step can be made by any of eight moves.
pub fn slow_stages(stages: u16, tail: u16, path: u16, goals: u16) -> Model {
    let (home, last) = (stages, stages + tail + path + 1);
    let (tail_at, path_at) = (home + 1, home + 1 + tail);
    let mut model = empty(last + 1, 8, goals);
    for state in 0..=last {
        let next = match state {
            _ if state == home || state == last => state,
            _ if state + 1 == path_at => last,
            _ if state + 1 == last => tail_at,
            _ => state + 1,
        };
        let steps = (0..8).map(|action| [state, action, next]);
        model.arrows.extend(steps.take((MOST_ARROWS - model.arrows.len()).min(8)));
        if (home..path_at).contains(&state) || state == last {
            set_every_goal(&mut model, state);
        }
    }
    model.settled(|state| (home..last).contains(&(state as u16)))
}

/// A plant with all states allowed and no arrows.
fn empty(states: u16, moves: u16, goals: u16) -> Model {
    Model { moves, goals, settles: false, labels: vec![1; states.into()], arrows: Vec::new() }
}

/// Puts the state in the goal.
fn set_goal(model: &mut Model, state: u16, goal: u16) {
    model.labels[usize::from(state)] |= 2 << goal;
}

/// Puts the state in all goals.
fn set_every_goal(model: &mut Model, state: u16) {
    for goal in 0..model.goals {
        set_goal(model, state, goal);
    }
}

fn scattered(states: u16, random: &mut Random) -> Model {
    let mut model = empty(states, 16, 4);
    for state in 0..states {
        if random.once_in(16) {
            model.labels[usize::from(state)] = 0;
        }
        for goal in 0..model.goals {
            if random.once_in(12) {
                set_goal(&mut model, state, goal);
            }
        }
        for _ in 0..4 {
            let action = random.pick(model.moves);
            for _ in 0..random.from_to(1, 2) {
                model.arrows.push([state, action, random.pick(states)]);
            }
        }
    }
    model
}

fn layered(states: u16, random: &mut Random) -> Model {
    let mut model = empty(states, 8, 4);
    let width = (states / 16).max(1);
    let layers = states.div_ceil(width);
    let in_layer = |layer: u16, random: &mut Random| (layer * width + random.pick(width)).min(states - 1);
    for state in 0..states {
        let layer = state / width;
        if layer % (layers / 4).max(1) == 0 {
            set_goal(&mut model, state, (layer / (layers / 4).max(1)) % 4);
        }
        for _ in 0..3 {
            let action = random.pick(8);
            for _ in 0..2 {
                let end = in_layer((layer + 1) % layers, random);
                model.arrows.push([state, action, end]);
            }
        }
    }
    model
}

fn ring(states: u16, random: &mut Random) -> Model {
    let mut model = empty(states, 4, 2);
    set_goal(&mut model, 0, 0);
    set_goal(&mut model, states / 2, 1);
    for state in 0..states {
        model.arrows.push([state, 0, (state + 1) % states]);
        // A move that may stay behind, and one that goes back: neither is a shorter way. The last is, here and there.
        model.arrows.push([state, 1, state]);
        model.arrows.push([state, 1, (state + 1) % states]);
        model.arrows.push([state, 2, random.pick(state + 1)]);
        if state % 16 == 3 {
            model.arrows.push([state, 3, (state + 4) % states]);
        }
    }
    model
}

fn dense(states: u16, random: &mut Random) -> Model {
    let mut model = empty(states, 2, 2);
    let fan = (MOST_ARROWS as u16 / (2 * states)).min(states / 4).max(1);
    for state in 0..states {
        // No step of move 0 is so long that it could pass over a goal.
        for goal in 0..2 {
            if (state + goal * (states / 2)) % states < fan {
                set_goal(&mut model, state, goal);
            }
        }
        for step in 1..=fan {
            model.arrows.push([state, 0, (state + step) % states]);
            model.arrows.push([state, 1, (state + 1 + random.pick(2 * fan)) % states]);
        }
    }
    model
}

fn chain(states: u16, goals: u16) -> Model {
    let mut model = one_after_another(states, 2, goals);
    model.arrows.push([states - 1, 1, states - 1]);
    model
}

fn dead_end(states: u16) -> Model {
    one_after_another(states, 1, 1)
}

/// Every state in every goal, each with an arrow to the next, and the last one with none.
fn one_after_another(states: u16, moves: u16, goals: u16) -> Model {
    let mut model = empty(states, moves, goals);
    for state in 0..states {
        set_every_goal(&mut model, state);
        if state + 1 < states {
            model.arrows.push([state, 0, state + 1]);
        }
    }
    model
}

/// Adds rungs of two states each, from state `first` up to `end`: an upper one in every goal, which leads to the lower
/// one only, and a lower one that may stay, or go to the upper one of the rung before. The first rung has only move 2
/// for that.
fn add_rungs(model: &mut Model, first: u16, end: u16) {
    for lower in (first..end).step_by(2) {
        model.arrows.push([lower, 0, lower]);
        if lower > first {
            model.arrows.push([lower, 1, lower - 1]);
        }
        let upper = lower + 1;
        if upper < end {
            set_every_goal(model, upper);
            model.arrows.push([upper, 0, lower]);
        }
    }
    if first + 1 < end {
        model.arrows.push([first, 2, first + 1]);
    }
}

fn ladder(states: u16, goals: u16) -> Model {
    let mut model = empty(states, 3, goals);
    add_rungs(&mut model, 0, states);
    model
}

fn ladder_ring(states: u16) -> Model {
    let mut model = empty(states, 3, 1);
    let around = states.div_ceil(2);
    set_goal(&mut model, 0, 0);
    for state in 0..around {
        model.arrows.push([state, 0, (state + 1) % around]);
    }
    add_rungs(&mut model, around, states);
    model
}

fn grid(states: u16, random: &mut Random) -> Model {
    let mut model = empty(states, 4, 4);
    let width = (f64::from(states).sqrt() as u16).max(1);
    let height = states / width;
    for (goal, corner) in [0, width - 1, (height - 1) * width, height * width - 1].into_iter().enumerate() {
        set_goal(&mut model, corner, goal as u16);
    }
    for state in 0..states {
        if model.labels[usize::from(state)] == 1 && random.once_in(12) {
            model.labels[usize::from(state)] = 0;
        }
        let (column, line) = (i32::from(state % width), i32::from(state / width));
        for (action, (right, down)) in [(1, 0), (0, 1), (-1, 0), (0, -1)].into_iter().enumerate() {
            // Where it was aimed, and in some places one aside of that.
            let slip = if random.once_in(6) { 1 } else { 0 };
            for aside in 0..=slip {
                let (column, line) = (column + right + aside * down, line + down + aside * right);
                let inside = (0..i32::from(width)).contains(&column) && (0..i32::from(height)).contains(&line);
                let end = if inside { line as u16 * width + column as u16 } else { state };
                model.arrows.push([state, action as u16, end]);
            }
        }
    }
    model
}

/// Of 1,024 states 200 are gates in every goal, each of which leads to the next, and the last nowhere. As many stand on
/// the detour: each leads to the next, and by another move to a gate, the first to that which dies first. The others
/// lead to the detour's first state one after another; the last 424 of them are the line, and have up to 19 moves that
/// lead back, before the one that leads on.
fn detour(states: u16) -> Model {
    let moves = 20;
    let share = |of_1024: u32| (u32::from(states) * of_1024 / 1024) as u16;
    let (gates, line_at) = (share(200), states - share(424));
    let mut model = empty(states, moves, 8);
    for gate in 0..gates {
        set_every_goal(&mut model, gate);
        let beside = 2 * gates - 1 - gate;
        model.arrows.push([beside, 0, gate]);
        if gate + 1 < gates {
            model.arrows.extend([[gate, 0, gate + 1], [beside - 1, 1, beside]]);
        }
    }
    for state in 2 * gates..states {
        let next = if state == 2 * gates { gates } else { state - 1 };
        model.arrows.push([state, moves - 1, next]);
    }
    for action in 0..moves - 1 {
        let back = (line_at..states).map(|state| [state, action, (state + 1 + action).min(states - 1)]);
        let room = MOST_ARROWS - model.arrows.len();
        model.arrows.extend(back.take(room));
    }
    model
}

/// A plant of any size whatever, with counts often at the edges of their ranges. Most have some states that are kept
/// and some that are lost.
pub fn any_size(random: &mut Random) -> Model {
    let edge = |random: &mut Random, low: usize, high: usize| match random.below(8) {
        0 => low,
        1 => high,
        _ => random.from_to(low, high),
    };
    let states = match random.below(8) {
        0 => edge(random, 1, 1024),
        1..=2 => edge(random, 1, 128),
        _ => edge(random, 1, 24),
    };
    let mut model = empty(states as u16, edge(random, 1, 32) as u16, edge(random, 1, 8) as u16);
    let forbidden = random.from_to(4, 60);
    let served = random.from_to(1, 4);
    for label in &mut model.labels {
        *label = u16::from(!random.once_in(forbidden));
        for goal in 0..model.goals {
            *label |= u16::from(random.once_in(served)) << (1 + goal);
        }
    }
    let arrows = match random.below(8) {
        0 => edge(random, 0, 8 * states),
        _ => random.from_to(2 * states, 8 * states),
    };
    for _ in 0..arrows {
        let from = random.pick(model.states());
        let near = (from + random.pick(3)) % model.states();
        let to = if random.once_in(2) { near } else { random.pick(model.states()) };
        model.arrows.push([from, random.pick(model.moves), to]);
    }
    model
}

/// A plant of a few states and moves, for the brute solver.
pub fn tiny(random: &mut Random) -> Model {
    let states = random.from_to(1, 5) as u16;
    let mut model = empty(states, random.from_to(1, 3) as u16, random.from_to(1, 3) as u16);
    for label in &mut model.labels {
        *label = u16::from(!random.once_in(10));
        for goal in 0..model.goals {
            *label |= u16::from(random.once_in(3)) << (1 + goal);
        }
    }
    for state in 0..states {
        for action in 0..model.moves {
            for _ in 0..[0, 1, 1, 1, 2, 3][random.below(6)] {
                model.arrows.push([state, action, random.pick(states)]);
            }
        }
    }
    model
}

/// A plant of a few states and moves that must settle, mostly with some settled states that are in every goal.
pub fn tiny_settled(random: &mut Random) -> Model {
    let every_goal = |model: &Model| (1 << (model.goals + 1)) - 1;
    let unsettled = random.from_to(2, 4);
    let mut model = tiny(random).settled(|_| !random.once_in(unsettled));
    for state in 0..model.labels.len() {
        if model.labels[state] & SETTLED != 0 && random.once_in(2) {
            model.labels[state] |= every_goal(&model);
        }
    }
    model
}
