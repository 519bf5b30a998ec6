//! The textbook's solver: nested fixed points, level by level, each level by a sweep over all arrows.
//!
//! A stage has the greatest set W of states that may be passed from which, for every goal, a state of the goal with a
//! move wholly into W can be forced, or one that can leave. It is found from above: each round forces every goal for
//! the set of the round before. In a plant whose runs need not settle there is one stage, which passes all usable states
//! and which no state can leave. Otherwise settled states are passed, and a state, settled or not, can leave that has a
//! move wholly into the stages before; the stages are over when one adds no state.

use super::format::{in_mask, Arrow, Plant, LOST};
use super::{Solve, Table};

/// The plain solver.
#[derive(Clone, Copy, Debug)]
pub struct Plain;

/// The states of a stage and of all earlier ones, of the earlier ones alone, and those that can leave.
struct Stage {
    through: Vec<bool>,
    earlier: Vec<bool>,
    leaves: Vec<bool>,
}

impl Solve for Plain {
    const NAME: &'static str = "plain";

    fn solve(plant: &Plant, mask: u32, within: &[bool]) -> Table {
        let usable: Vec<bool> = (0..plant.states).map(|state| plant.is_allowed(state) && within[state]).collect();
        let none = vec![false; plant.states];
        let mut table = Table::lost(plant);
        if !plant.settles {
            let through = held(plant, mask, &usable, &none);
            write_rows(plant, mask, &Stage { through, earlier: none.clone(), leaves: none }, &mut table);
            return table;
        }
        let mut earlier = none;
        for number in 1.. {
            let stage = next_stage(plant, mask, &usable, earlier);
            if stage.through == stage.earlier {
                break;
            }
            for state in (0..plant.states).filter(|&state| stage.is_own(state)) {
                table.stages[state] = number;
            }
            write_rows(plant, mask, &stage, &mut table);
            earlier = stage.through;
        }
        table
    }
}

impl Stage {
    /// Whether the state is of this stage and of no earlier one.
    fn is_own(&self, state: usize) -> bool {
        self.through[state] && !self.earlier[state]
    }
}

/// The stage after these states.
fn next_stage(plant: &Plant, mask: u32, usable: &[bool], earlier: Vec<bool>) -> Stage {
    let mut leaves = vec![false; plant.states];
    for (state, arrows) in by_state(plant) {
        leaves[state] = usable[state] && lowest_move(arrows, mask, |end| earlier[end]).is_some();
    }
    let passed: Vec<bool> =
        (0..plant.states).map(|state| usable[state] && (plant.is_settled(state) || leaves[state])).collect();
    let through = held(plant, mask, &passed, &leaves);
    Stage { through, earlier, leaves }
}

/// Writes the waits and moves of the states that are of this stage.
fn write_rows(plant: &Plant, mask: u32, stage: &Stage, table: &mut Table) {
    let Stage { through, earlier, leaves } = stage;
    for goal in 0..plant.goals {
        let is_end = |state: usize| plant.in_goal(state, goal) || earlier[state] || leaves[state];
        let waits = force(plant, mask, through, |state, _| is_end(state));
        for (state, arrows) in by_state(plant).filter(|&(state, _)| stage.is_own(state)) {
            let wait = waits[state];
            let lands_well = |end: usize| {
                let beside = stage.is_own(end) && (wait == 0 || waits[end] < wait);
                earlier[end] || beside && !leaves[state]
            };
            let at = state * plant.goals + goal;
            table.waits[at] = wait;
            table.moves[at] = lowest_move(arrows, mask, lands_well).expect("a kept state has a move");
        }
    }
}

/// The states from which every goal can be met again and again through states that may be passed, or one come to that
/// can leave, which may be passed as well.
fn held(plant: &Plant, mask: u32, passed: &[bool], leaves: &[bool]) -> Vec<bool> {
    let mut kept = passed.to_vec();
    loop {
        let mut next = passed.to_vec();
        for goal in 0..plant.goals {
            let levels = force(plant, mask, passed, |state, arrows| {
                leaves[state] || plant.in_goal(state, goal) && lowest_move(arrows, mask, |end| kept[end]).is_some()
            });
            for state in 0..plant.states {
                next[state] &= levels[state] != LOST;
            }
        }
        if next == kept {
            return kept;
        }
        kept = next;
    }
}

/// For each state the least number of moves that forces, through usable states, one that `holds` picks by itself and
/// its arrows; or [`LOST`].
fn force(plant: &Plant, mask: u32, usable: &[bool], holds: impl Fn(usize, &[Arrow]) -> bool) -> Vec<u16> {
    let mut levels = vec![LOST; plant.states];
    for (state, arrows) in by_state(plant) {
        if usable[state] && holds(state, arrows) {
            levels[state] = 0;
        }
    }
    for level in 1.. {
        let mut grew = false;
        for (state, arrows) in by_state(plant) {
            let open = usable[state] && levels[state] == LOST;
            if open && lowest_move(arrows, mask, |end| levels[end] < level).is_some() {
                levels[state] = level;
                grew = true;
            }
        }
        if !grew {
            break;
        }
    }
    levels
}

/// The states that have arrows, each with its arrows.
fn by_state(plant: &Plant) -> impl Iterator<Item = (usize, &[Arrow])> {
    plant.arrows.chunk_by(|a, b| a.from == b.from).map(|arrows| (usize::from(arrows[0].from), arrows))
}

/// Of one state's arrows, the lowest move in service all of whose arrows land well.
fn lowest_move(arrows: &[Arrow], mask: u32, lands_well: impl Fn(usize) -> bool) -> Option<u16> {
    arrows
        .chunk_by(|a, b| a.action == b.action)
        .find(|fan| in_mask(mask, fan[0].action) && fan.iter().all(|arrow| lands_well(arrow.to.into())))
        .map(|fan| fan[0].action)
}
