//! Walks by a desk in books that were written for the plant, each state reported being the end of an arrow of the move
//! given: what is promised of them is watched, goals being told from the plant's labels.

use super::DeskComparison;
use crate::calls::Held;
use crate::plants::Random;
use crate::second::format::{in_mask, BookView, Plant};
use crate::sys::Desk;

/// What walks met.
#[derive(Clone, Copy, Debug, Default)]
pub struct Walked {
    /// How many walks there were, on which the line answered as far from the goal as it may, and at random.
    pub walks: [u64; 2],
    /// How many of them were in plants that must settle.
    pub settling: u64,
    /// How many reports there were.
    pub steps: u64,
    /// How many goals that were sought were met.
    pub met: u64,
    /// The most moves that took.
    pub longest: u64,
    /// How many goals were met on the last move that was promised.
    pub just: u64,
    /// How many goals were passed.
    pub passed: u64,
    /// How often all of several goals were met in one state, and how often the one sought was sought anew after that.
    pub all_met: u64,
    /// See there.
    pub anew: u64,
    /// How many walks were long enough for every goal to be due.
    pub whole: u64,
    /// How many walks of the random rounds were by books that make, make by index, withdraw, withdraw by index, a list
    /// of withdrawals and a return wrote.
    pub ways: [u64; 6],
}

impl Walked {
    /// In words, if there was a walk.
    pub fn summary(&self) -> String {
        if self.walks == [0; 2] {
            return String::new();
        }
        let Walked { walks: [far, any], settling, steps, met, longest, just, passed, all_met, anew, whole, ways } =
            self;
        format!(
            "; {far} walks with the farthest ends and {any} with any, {whole} of them till every goal was due and \
             {settling} in plants that must settle, have {steps} reports: {met} goals sought were met, after {longest} \
             moves at the most and {just} times with the last that was promised, {passed} were passed, and all of \
             several were met in one state {all_met} times, after which the same was sought anew {anew} times; \
             {ways:?} are by books of make, make by index, withdraw, withdraw by index, lists and returns"
        )
    }
}

/// A way to go by a desk.
pub struct Walk<'a> {
    /// The plant.
    pub plant: &'a [u8],
    /// A book that was written for it.
    pub book: &'a [u8],
    /// Where it starts: a kept state.
    pub start: usize,
    /// The most reports.
    pub steps: usize,
    /// Whether the end of the move is always one that is as far from the goal sought as there is.
    pub farthest: bool,
}

impl Walk<'_> {
    /// Goes, and compares and watches each step.
    pub fn go(&self, comparison: &mut DeskComparison, random: &mut Random) {
        let plant = Plant::read(self.plant).expect("a plant");
        let rows = BookView::read(self.book, Some(&plant)).expect("a book for it");
        let mut watch = Watch::new(&plant, rows);
        let mut state = self.start;
        let mut desk = comparison.start(self.plant, self.book, state as u32);
        let mut sought = 0;
        let steps = self.steps.min(6 * watch.turn + 60);
        for step in 0..=steps {
            let input = || format!("step {step} from state {}, {}", self.start, super::both(self.plant, self.book));
            let kept = watch.see(step, [state, sought], &desk, &mut comparison.walks);
            comparison.promised(kept, &input);
            if step == steps {
                break;
            }
            sought = desk.seek as usize;
            let ends = plant.ends(state, desk.action as u16);
            let far = |end: &usize| (rows.stage(*end), rows.entry(*end, sought).0);
            let most = ends.iter().map(far).max();
            let ends: Vec<usize> = ends.into_iter().filter(|end| !self.farthest || Some(far(end)) == most).collect();
            state = ends[random.below(ends.len())];
            let held = Held { state: desk.state, goal: desk.goal };
            desk = comparison.report(self.plant, self.book, held, state as u32);
        }
        let walked = &mut comparison.walks;
        walked.walks[usize::from(!self.farthest)] += 1;
        walked.settling += u64::from(plant.settles);
        walked.steps += steps as u64;
        walked.whole += u64::from(steps > watch.turn);
    }
}

/// What is watched on a walk.
struct Watch<'a> {
    plant: &'a Plant,
    rows: BookView<'a>,
    /// The goal sought, when it became that, and by when it is to be met; nothing at the start, and after a state in
    /// which all goals were met.
    sought: Option<[usize; 3]>,
    /// So many moves in all are the longest waits of all goals one after another.
    turn: usize,
    /// By when each goal is to be met.
    due: Vec<usize>,
    /// Whether all goals were met in the state before.
    all_met: bool,
}

impl<'a> Watch<'a> {
    fn new(plant: &'a Plant, rows: BookView<'a>) -> Watch<'a> {
        let waits = |state| (0..rows.goals).map(move |goal| rows.entry(state, goal).0);
        let longest = super::kept_states(&rows).into_iter().flat_map(waits).max().unwrap_or(0);
        let turn = plant.goals * usize::from(longest);
        Watch { plant, rows, sought: None, turn, due: vec![turn; plant.goals], all_met: false }
    }

    /// What the desk shows in a state in which a goal is sought. In plants that must settle goals need not be met.
    fn see(
        &mut self,
        step: usize,
        [state, sought]: [usize; 2],
        desk: &Desk,
        walked: &mut Walked,
    ) -> Result<(), &'static str> {
        require(desk.number == 0, "a report that is right is refused")?;
        require(desk.lost == 0, "a report that is right leads to a lost state")?;
        require([desk.state as usize, desk.goal as usize] == [state, desk.seek as usize], "something else is held")?;
        let action = desk.action as u16;
        let available = in_mask(self.rows.mask, action) && !self.plant.ends(state, action).is_empty();
        require(available, "the move is not available")?;
        if self.plant.settles {
            return Ok(());
        }
        self.arrival(state, sought, desk, walked)?;
        self.in_time(step, state, desk, walked)?;
        self.in_turn(step, state)
    }

    /// Goals that are passed are met, and the goal arrived at is the first that is not met, or the one sought if all
    /// are, which is where the wait is 0.
    fn arrival(&mut self, state: usize, sought: usize, desk: &Desk, walked: &mut Walked) -> Result<(), &'static str> {
        let (goals, seek) = (self.plant.goals, desk.seek as usize);
        let is_met = |goal: usize| self.plant.in_goal(state, goal);
        let passed = (seek + goals - sought) % goals;
        require((0..passed).all(|turn| is_met((sought + turn) % goals)), "a goal is passed that is not met")?;
        let all_met = (0..goals).all(is_met);
        require(all_met == (desk.wait == 0), "the wait is 0 exactly where all goals are met")?;
        require(if all_met { seek == sought } else { !is_met(seek) }, "the goal sought does not stay, or is met")?;
        walked.passed += passed as u64;
        walked.all_met += u64::from(all_met && goals > 1);
        walked.anew += u64::from(self.all_met && goals > 1 && !all_met && seek == sought);
        self.all_met = all_met;
        Ok(())
    }

    /// The goal that became the one sought is met in time.
    fn in_time(&mut self, step: usize, state: usize, desk: &Desk, walked: &mut Walked) -> Result<(), &'static str> {
        if let Some([goal, since, due]) = self.sought {
            if self.plant.in_goal(state, goal) {
                require(step <= due, "a goal is met too late")?;
                walked.met += 1;
                walked.longest = walked.longest.max((step - since) as u64);
                walked.just += u64::from(step == due);
                self.sought = None;
            } else {
                require(goal == desk.seek as usize, "another goal is sought before one is met")?;
                require(step + desk.wait as usize <= due, "a goal will be met too late")?;
            }
        }
        if self.sought.is_none() && desk.wait != 0 {
            self.sought = Some([desk.seek as usize, step, step + desk.wait as usize]);
        }
        Ok(())
    }

    /// Every goal is met in its turn.
    fn in_turn(&mut self, step: usize, state: usize) -> Result<(), &'static str> {
        for (goal, due) in self.due.iter_mut().enumerate() {
            if self.plant.in_goal(state, goal) {
                *due = step + 1 + self.turn;
            }
            require(step < *due || self.plant.in_goal(state, goal), "a goal is not met in its turn")?;
        }
        Ok(())
    }
}

fn require(holds: bool, what: &'static str) -> Result<(), &'static str> {
    match holds {
        true => Ok(()),
        false => Err(what),
    }
}
