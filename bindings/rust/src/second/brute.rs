//! The brute solver, for tiny plants: it tries strategies and replies one by one.
//!
//! That a state is kept is shown by a strategy whose memory is the goal sought: the graph of all its runs has no dead
//! end, no unusable state, and no cycle that misses a goal or, if runs must settle, has a state that is not settled. That
//! a state is lost is shown by a reply of the opponent, an arrow for each state and move, against which no choice of
//! moves whatever gives a good run: with the replies fixed a run is a path, and no cycle that can be reached in usable
//! states has all goals and, if runs must settle, settled states alone. A wait is the least time that a choice of moves
//! ensures, and the greatest that a reply does. In each case both sides are tried to the end, and it is a panic if a
//! state is on both or on neither. So nothing rests on a theorem about fixed points or about memory.
//!
//! Stages are looked for one after another in the same way, with the words of request (ix): the strategy may pass
//! settled states alone, and a run is over where it comes to a state, settled or not, that has a move wholly into the
//! stages before. From there on no more is asked than not to get stuck and to stay in usable states, which the
//! strategies of those stages do. It is a panic if a kept state has no stage, or a lost one has.

use super::format::{in_mask, Plant};
use super::{Solve, Table};

/// The brute solver.
#[derive(Clone, Copy, Debug)]
pub struct Brute;

/// The moves that a state has: the move and where its arrows end.
type Moves = Vec<(u16, Vec<usize>)>;

/// A tiny game: for each state the moves available there.
struct Game<'a> {
    plant: &'a Plant,
    moves: Vec<Moves>,
}

/// What is asked of every run: to pass these states alone until it is over, if it ever is, and otherwise to meet every
/// goal again and again and to stay in calm states from some moment on.
struct Task {
    passed: Vec<bool>,
    over: Vec<bool>,
    calm: Vec<bool>,
}

/// The states of a stage and of all earlier ones, of the earlier ones alone, and those that can leave.
struct Stage {
    through: Vec<bool>,
    earlier: Vec<bool>,
    leaves: Vec<bool>,
}

impl Solve for Brute {
    const NAME: &'static str = "brute";

    fn solve(plant: &Plant, mask: u32, within: &[bool]) -> Table {
        let states = 0..plant.states;
        let game = Game { plant, moves: moves_in_service(plant, mask) };
        let passed: Vec<bool> = states.clone().map(|state| plant.is_allowed(state) && within[state]).collect();
        let calm: Vec<bool> = states.map(|state| !plant.settles || plant.is_settled(state)).collect();
        let none = vec![false; plant.states];
        let task = Task { passed, over: none.clone(), calm };
        let kept = winners(&game, &task);
        let mut table = Table::lost(plant);
        if !plant.settles {
            write_rows(&game, &Stage { through: kept, earlier: none.clone(), leaves: none }, &mut table);
            return table;
        }
        let mut earlier = none;
        for number in 1.. {
            let stage = next_stage(&game, &task, earlier);
            if stage.through == stage.earlier {
                assert_eq!(stage.through, kept, "a state is kept exactly if it has a stage");
                break;
            }
            for state in (0..plant.states).filter(|&state| stage.is_own(state)) {
                table.stages[state] = number;
            }
            write_rows(&game, &stage, &mut table);
            earlier = stage.through;
        }
        table
    }
}

impl Stage {
    /// Whether the state is of this stage and of no earlier one.
    fn is_own(&self, state: usize) -> bool {
        self.through[state] && !self.earlier[state]
    }
}

/// The stage after these states: those from which every run can be made to pass usable settled states alone and to meet
/// every goal again and again or come to a usable state that has a move wholly into these.
fn next_stage(game: &Game, task: &Task, earlier: Vec<bool>) -> Stage {
    let leads_earlier = |(_, ends): &(u16, Vec<usize>)| ends.iter().all(|&end| earlier[end]);
    let leaves: Vec<bool> =
        (0..earlier.len()).map(|state| task.passed[state] && game.moves[state].iter().any(leads_earlier)).collect();
    let settled = task.passed.iter().zip(&task.calm).map(|(&passed, &calm)| passed && calm).collect();
    let through = winners(game, &Task { passed: settled, over: leaves.clone(), calm: task.calm.clone() });
    assert!((0..earlier.len()).all(|state| through[state] || !earlier[state]), "stages grow");
    Stage { through, earlier, leaves }
}

/// Writes the waits and moves of the states that are of this stage.
fn write_rows(game: &Game, stage: &Stage, table: &mut Table) {
    let Stage { through, earlier, leaves } = stage;
    let goals = game.plant.goals;
    // From here on strategies that never come to a later stage, or to a lost state, are all that counts.
    let mut moves = game.moves.clone();
    for (moves, &here) in moves.iter_mut().zip(through) {
        moves.retain(|(_, ends)| here && ends.iter().all(|&end| through[end]));
    }
    let game = Game { moves, ..*game };
    for goal in 0..goals {
        let there = |state: usize| game.plant.in_goal(state, goal) || earlier[state] || leaves[state];
        let waits = least_waits(&game, through, &there);
        for state in (0..through.len()).filter(|&state| stage.is_own(state)) {
            let wait = waits[state].expect("a kept state meets each goal");
            let nearer = |end: usize| wait == 0 || waits[end].is_some_and(|other| other < wait);
            let good = |end: usize| earlier[end] || !leaves[state] && nearer(end);
            let mut listed = game.moves[state].iter().filter(|(_, ends)| ends.iter().all(|&end| good(end)));
            let (action, _) = listed.next().expect("a move that is listed");
            table.waits[state * goals + goal] = wait;
            table.moves[state * goals + goal] = *action;
        }
    }
}

/// How many strategies and replies [`Brute`] tries for a plant with these moves in service, at the most.
pub fn effort(plant: &Plant, mask: u32) -> f64 {
    let moves = moves_in_service(plant, mask);
    let picks: f64 = moves.iter().map(|moves| moves.len().max(1) as f64).product();
    let replies: f64 = moves.iter().flatten().map(|(_, ends)| ends.len() as f64).product();
    picks.powi(plant.goals as i32) + replies
}

fn moves_in_service(plant: &Plant, mask: u32) -> Vec<Moves> {
    let mut moves: Vec<Moves> = vec![Vec::new(); plant.states];
    for arrow in plant.arrows.iter().filter(|arrow| in_mask(mask, arrow.action)) {
        let here = &mut moves[usize::from(arrow.from)];
        match here.last_mut() {
            Some((action, ends)) if *action == arrow.action => ends.push(arrow.to.into()),
            _ => here.push((arrow.action, vec![arrow.to.into()])),
        }
    }
    moves
}

/// Every way to pick a number below each bound, one after another; for a bound of 0 the pick is 0 too.
fn every_pick(bounds: &[usize], mut visit: impl FnMut(&[usize])) {
    let mut picks = vec![0; bounds.len()];
    loop {
        visit(&picks);
        let Some(at) = (0..picks.len()).find(|&at| picks[at] + 1 < bounds[at]) else {
            return;
        };
        picks[at] += 1;
        picks[..at].fill(0);
    }
}

/// The states from which some strategy does what is asked; the others are those against which some reply always works.
fn winners(game: &Game, task: &Task) -> Vec<bool> {
    let (states, goals) = (game.plant.states, game.plant.goals);
    let mut won = vec![false; states];
    let counts: Vec<usize> = (0..states * goals).map(|node| game.moves[node / goals].len()).collect();
    every_pick(&counts, |picks| {
        for (state, won) in won.iter_mut().enumerate() {
            *won = *won || wins(game, task, picks, state);
        }
    });
    let mut beaten = vec![false; states];
    every_pick(&fan_sizes(game), |replies| {
        let next = replied(game, replies);
        for (state, beaten) in beaten.iter_mut().enumerate() {
            *beaten = *beaten || !has_good_run(game, task, &next, state);
        }
    });
    for state in 0..states {
        assert_ne!(won[state], beaten[state], "state {state} must be won or lost, and not both");
    }
    won
}

/// The number of arrows of each move of each state, in turn.
fn fan_sizes(game: &Game) -> Vec<usize> {
    game.moves.iter().flatten().map(|(_, ends)| ends.len()).collect()
}

/// With the replies fixed, where each move of each state leads.
fn replied(game: &Game, replies: &[usize]) -> Vec<Vec<usize>> {
    let mut replies = replies.iter();
    let mut end = |ends: &[usize]| ends[*replies.next().expect("a reply to each move")];
    game.moves.iter().map(|moves| moves.iter().map(|(_, ends)| end(ends)).collect()).collect()
}

/// Whether the strategy that makes the move `picks[state * goals + sought]` does what is asked from the state, goal 0
/// sought first. The goal sought passes to the next when the run is in it.
fn wins(game: &Game, task: &Task, picks: &[usize], state: usize) -> bool {
    let goals = game.plant.goals;
    let mut next = vec![Vec::new(); game.plant.states * goals];
    for (node, next) in next.iter_mut().enumerate().filter(|(node, _)| !task.over[node / goals]) {
        let (state, sought) = (node / goals, node % goals);
        let sought = if game.plant.in_goal(state, sought) { (sought + 1) % goals } else { sought };
        if let Some((_, ends)) = game.moves[state].get(picks[node]) {
            next.extend(ends.iter().map(|end| end * goals + sought));
        }
    }
    let reached = reach(&next, state * goals, |_| true);
    let nodes = || (0..next.len()).filter(|&node| reached[node]);
    let sound = |node: usize| task.over[node / goals] || task.passed[node / goals] && !next[node].is_empty();
    let turns = |pass: &dyn Fn(usize) -> bool| nodes().any(|node| on_cycle(&next, node, pass));
    let restless = || nodes().any(|node| !task.calm[node / goals] && on_cycle(&next, node, |_| true));
    nodes().all(sound) && !(0..goals).any(|goal| turns(&|node| !game.plant.in_goal(node / goals, goal))) && !restless()
}

/// Whether some path from the state does what is asked: whether it can come, by states that may be passed, to where it
/// is over, or to a cycle of calm ones that has all goals.
fn has_good_run(game: &Game, task: &Task, next: &[Vec<usize>], state: usize) -> bool {
    let states = || 0..next.len();
    let passed = |state: usize| task.passed[state] && !task.over[state];
    let calm = |state: usize| passed(state) && task.calm[state];
    let reached = reach(next, state, passed);
    let comes_to = |end: usize| end == state || states().any(|node| reached[node] && next[node].contains(&end));
    if states().any(|end| task.over[end] && comes_to(end)) {
        return true;
    }
    let around: Vec<Vec<bool>> = states().map(|state| reach(next, state, calm)).collect();
    let on_common_cycle = |a: usize, b: usize| around[a][b] && around[b][a];
    states().filter(|&turn| reached[turn] && on_cycle(next, turn, calm)).any(|turn| {
        (0..game.plant.goals)
            .all(|goal| states().any(|other| on_common_cycle(turn, other) && game.plant.in_goal(other, goal)))
    })
}

/// For each kept state the least number of moves within which one that is `there` can be forced, by both sides: the
/// least that a choice of a move for each state ensures, and the greatest that replies do.
fn least_waits(game: &Game, kept: &[bool], there: &impl Fn(usize) -> bool) -> Vec<Option<u16>> {
    let states = game.plant.states;
    let kept_states = || (0..states).filter(|&state| kept[state]);

    let counts: Vec<usize> = game.moves.iter().map(Vec::len).collect();
    let mut ensured = vec![None; states];
    every_pick(&counts, |picks| {
        let picked = |(moves, &pick): (&Moves, &usize)| moves.get(pick).map_or(Vec::new(), |(_, ends)| ends.clone());
        let next: Vec<Vec<usize>> = game.moves.iter().zip(picks).map(picked).collect();
        for state in kept_states() {
            ensured[state] = ensured[state].into_iter().chain(slowest(&next, there, state, states)).min();
        }
    });

    let mut delayed = vec![Some(0); states];
    every_pick(&fan_sizes(game), |replies| {
        let next = replied(game, replies);
        for state in kept_states() {
            let time = quickest(&next, there, state, states);
            delayed[state] = delayed[state].zip(time).map(|(before, now)| now.max(before));
        }
    });
    for state in kept_states() {
        assert_eq!(ensured[state], delayed[state], "the wait of state {state}, from both sides");
    }
    ensured
}

/// The number of moves after which every path is `there`, if that is below `limit`.
fn slowest(next: &[Vec<usize>], there: &impl Fn(usize) -> bool, state: usize, limit: usize) -> Option<u16> {
    if there(state) || limit == 0 {
        return there(state).then_some(0);
    }
    let times: Option<Vec<u16>> = next[state].iter().map(|&end| slowest(next, there, end, limit - 1)).collect();
    times?.into_iter().max().map(|time| time + 1)
}

/// The number of moves after which some path is `there`, if that is below `limit`.
fn quickest(next: &[Vec<usize>], there: &impl Fn(usize) -> bool, state: usize, limit: usize) -> Option<u16> {
    if there(state) || limit == 0 {
        return there(state).then_some(0);
    }
    let times = next[state].iter().filter_map(|&end| quickest(next, there, end, limit - 1));
    times.min().map(|time| time + 1)
}

/// The nodes that can be reached from one by nodes that `pass`, itself included.
fn reach(next: &[Vec<usize>], from: usize, pass: impl Fn(usize) -> bool) -> Vec<bool> {
    let mut reached = vec![false; next.len()];
    let mut open = vec![from];
    while let Some(node) = open.pop() {
        if !reached[node] && pass(node) {
            reached[node] = true;
            open.extend(&next[node]);
        }
    }
    reached
}

/// Whether the node is on a cycle of nodes that `pass`.
fn on_cycle(next: &[Vec<usize>], node: usize, pass: impl Fn(usize) -> bool) -> bool {
    pass(node) && next[node].iter().any(|&end| reach(next, end, &pass)[node])
}
