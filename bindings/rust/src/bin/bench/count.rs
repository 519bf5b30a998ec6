//! Single calls for a tool that counts instructions.

use crate::cases::{accepted, models};
use crate::PLANTS;
use planbook::calls::Calls;
use planbook::plants::FAMILIES;
use planbook::sys::LONGEST_INDEX;

/// One make and one withdrawal for each plant of a family, one index, and one make and one withdrawal by it, by the
/// planner of this name or the first, and no other call. Prints how many plants there are.
pub fn run(planners: &[&dyn Calls], family: &str, states: &str, plants: Option<&str>, solver: Option<&str>) {
    let family = FAMILIES.into_iter().find(|known| known.name() == family).expect("the name of a family");
    let states = states.parse().expect("a number of states");
    let plants = plants.map_or(PLANTS, |word| word.parse().expect("a number of plants"));
    let planner = match solver {
        Some(name) => *planners.iter().find(|planner| planner.name() == name).expect("the name of a solver"),
        None => planners[0],
    };
    let mut count = 0;
    for model in models(family, states, plants) {
        let plant = model.bytes();
        let [mut book, mut rest] = [(); 2].map(|()| vec![0; model.book_length()]);
        let mut drops = vec![0; model.list_length()];
        accepted(planner.make(&plant, model.every_move(), &mut book).number);
        accepted(planner.withdraw(&plant, &book, model.highest_move(), &mut rest, &mut drops).number);
        let mut index = vec![0; LONGEST_INDEX];
        let built = planner.index(&plant, &mut index);
        accepted(built.number);
        index.truncate(built.length as usize);
        accepted(planner.make_indexed(&plant, &index, model.every_move(), &mut book).number);
        let highest = model.highest_move();
        accepted(planner.withdraw_indexed(&plant, &index, &book, highest, &mut rest, &mut drops).number);
        count += 1;
    }
    println!("{count}");
}
