//! Every crash of a rename or an exchange: all the states that landings and crashes can lead to (rules 112 to 116), and
//! what must hold in each of them (rules 117 and 117a).

mod planned_rename;

pub use planned_rename::PlannedRename;

use crate::model::land::land;
use crate::model::numbers::{BUFFER_TOO_SHORT, DONE};
use crate::model::plan::{Row, PLAN_LEN, ROWS};
use crate::model::repair::Answer;
use std::collections::{HashMap, HashSet, VecDeque};

pub type Repair = fn(&[u8], &mut [u8], &mut [u8]) -> Answer;

/// What a state may have wrong.
#[derive(Clone, Copy, Debug, PartialEq, Eq)]
pub enum Breach {
    /// Repair does not answer 0, though its buffers are long enough.
    RepairRefused(u8),
    /// Repair takes buffers that are too short, or writes to them.
    ShortBuffer,
    /// The scratch does not show what the rows lead to.
    Scratch,
    /// Landing refuses a row whose turn it is.
    RowRefused(u8),
    /// Landing takes what is no row, or a refused landing changes the image.
    RefusedLanding,
    /// Every row of the call has landed, and the image is another than the finished one.
    RenameUnfinished,
    /// Every row of a repair has landed after the deciding row: the same.
    RepairUnfinished,
    /// The same without the deciding row, and the image is another than the one before.
    NotTakenBack,
    /// No used entry targets the moved inode, or an inode of an exchange that has to have a name.
    NoName,
    /// A slot that is to stay has another parent or name, or targets neither inode.
    SlotLost,
}

/// What was found where nothing is wrong.
#[derive(Clone, Copy, Debug, Default)]
pub struct Explored {
    pub images: usize,
    pub states: usize,
}

/// Whose rows have waited since the last crash, or from the start.
#[derive(Clone, Copy, PartialEq, Eq, Hash)]
enum Waited {
    Rename,
    Repair,
    /// A repair was refused.
    Nobody,
}

#[derive(Clone, Copy, PartialEq, Eq, Hash)]
struct State {
    image: usize,
    plan: usize,
    /// A bit for each row that has not landed.
    waiting: u16,
    waited: Waited,
    /// The deciding row has landed.
    decided: bool,
    /// Every row of some repair has landed.
    done: bool,
}

/// Byte strings by number, so that a state is small.
#[derive(Default)]
struct Pool {
    all: Vec<Vec<u8>>,
    numbers: HashMap<Vec<u8>, usize>,
}

impl Pool {
    /// The number of the bytes, and whether they are new.
    fn number(&mut self, bytes: Vec<u8>) -> (usize, bool) {
        let next = self.all.len();
        match self.numbers.get(&bytes) {
            Some(&number) => (number, false),
            None => {
                self.all.push(bytes.clone());
                self.numbers.insert(bytes, next);
                (next, true)
            }
        }
    }
}

struct Explorer<'a> {
    planned: &'a PlannedRename,
    repair: Repair,
    images: Pool,
    /// What plans and scratches hold.
    buffers: Pool,
    /// What landing a plan's row on an image leads to.
    landed: HashMap<(usize, usize, usize), usize>,
    /// What repair makes of an image: the plan, its rows, and the scratch.
    repaired: HashMap<usize, (usize, u8, usize)>,
    seen: HashSet<State>,
    left: VecDeque<State>,
}

/// Goes through every state; gives the breach that the fewest landings and crashes lead to.
pub fn explore(planned: &PlannedRename, repair: Repair) -> Result<Explored, Breach> {
    let mut explorer = Explorer {
        planned,
        repair,
        images: Pool::default(),
        buffers: Pool::default(),
        landed: HashMap::new(),
        repaired: HashMap::new(),
        seen: HashSet::new(),
        left: VecDeque::new(),
    };
    explorer.start()?;
    while let Some(state) = explorer.left.pop_front() {
        explorer.holds_at_rest(state)?;
        explorer.crash(state)?;
        for row in explorer.next_rows(state) {
            explorer.land(state, row)?;
        }
    }
    Ok(Explored { images: explorer.images.all.len(), states: explorer.seen.len() })
}

impl Explorer<'_> {
    /// Rule 112.
    fn start(&mut self) -> Result<(), Breach> {
        let image = self.image(self.planned.before.clone())?;
        let plan = self.buffers.number(self.planned.plan.clone()).0;
        let waiting = all_of(self.planned.rows);
        let waited = Waited::Rename;
        self.enter(State { image, plan, waiting, waited, decided: false, done: false });
        Ok(())
    }

    fn enter(&mut self, mut state: State) {
        state.done |= state.waiting == 0 && state.waited == Waited::Repair;
        if self.seen.insert(state) {
            self.left.push_back(state);
        }
    }

    /// The number of an image; a new one is looked at first.
    fn image(&mut self, bytes: Vec<u8>) -> Result<usize, Breach> {
        let (number, new) = self.images.number(bytes);
        if new {
            let bytes = &self.images.all[number];
            self.planned.names_hold(bytes)?;
            short_buffers_are_refused(bytes, self.repair)?;
        }
        Ok(number)
    }

    /// The image before, or the finished one.
    fn outcome(&self, state: State) -> &[u8] {
        match state.decided {
            true => &self.planned.finished,
            false => &self.planned.before,
        }
    }

    /// Rules 116 and 117: once the call is whole, or some repair is, the image has to be the right one of two, and to stay so.
    fn holds_at_rest(&self, state: State) -> Result<(), Breach> {
        let breach = match state {
            State { done: true, decided: true, .. } => Breach::RepairUnfinished,
            State { done: true, decided: false, .. } => Breach::NotTakenBack,
            State { waiting: 0, waited: Waited::Rename, .. } => Breach::RenameUnfinished,
            _ => return Ok(()),
        };
        match self.images.all[state.image] == self.outcome(state) {
            true => Ok(()),
            false => Err(breach),
        }
    }

    /// Rule 115: all that waits is lost. Repair is called with buffers that are long enough, or with too short ones.
    fn crash(&mut self, state: State) -> Result<(), Breach> {
        self.enter(State { plan: 0, waiting: 0, waited: Waited::Nobody, ..state });
        let (plan, rows, scratch) = match self.repaired.get(&state.image) {
            Some(&known) => known,
            None => self.repair(state.image)?,
        };
        if self.buffers.all[scratch] != self.outcome(state) {
            return Err(Breach::Scratch);
        }
        self.enter(State { plan, waiting: all_of(rows), waited: Waited::Repair, ..state });
        Ok(())
    }

    fn repair(&mut self, image: usize) -> Result<(usize, u8, usize), Breach> {
        let bytes = &self.images.all[image];
        let (mut plan, mut scratch) = (vec![0xa5; PLAN_LEN], vec![0x5a; bytes.len()]);
        let Answer { number, rows } = (self.repair)(bytes, &mut plan, &mut scratch);
        if number != DONE {
            return Err(Breach::RepairRefused(number));
        }
        let known = (self.buffers.number(plan).0, rows, self.buffers.number(scratch).0);
        self.repaired.insert(image, known);
        Ok(known)
    }

    /// Rule 113: the rows that wait while none of a lower group does.
    fn next_rows(&self, state: State) -> Vec<usize> {
        let group = |row: usize| Row::read(&self.buffers.all[state.plan], row).group;
        let waiting = || (0..ROWS).filter(|row| state.waiting & 1 << row != 0);
        let lowest = waiting().map(group).min();
        waiting().filter(|&row| Some(group(row)) == lowest).collect()
    }

    fn land(&mut self, state: State, row: usize) -> Result<(), Breach> {
        let image = match self.landed.get(&(state.image, state.plan, row)) {
            Some(&known) => known,
            None => self.land_anew(state, row)?,
        };
        let decides = state.waited == Waited::Rename && row == self.planned.deciding;
        let decided = state.decided || decides;
        self.enter(State { image, waiting: state.waiting & !(1 << row), decided, ..state });
        Ok(())
    }

    fn land_anew(&mut self, state: State, row: usize) -> Result<usize, Breach> {
        let plan = &self.buffers.all[state.plan];
        let mut bytes = self.images.all[state.image].clone();
        refused_landings_change_nothing(&mut bytes, plan)?;
        match land(&mut bytes, plan, row as u64) {
            DONE => {
                let image = self.image(bytes)?;
                self.landed.insert((state.image, state.plan, row), image);
                Ok(image)
            }
            number => Err(Breach::RowRefused(number)),
        }
    }
}

fn all_of(rows: u8) -> u16 {
    (1 << rows) - 1
}

fn short_buffers_are_refused(image: &[u8], repair: Repair) -> Result<(), Breach> {
    let len = image.len();
    for (plan_len, scratch_len) in [(PLAN_LEN - 1, len), (PLAN_LEN, len - 1), (0, 0)] {
        let (mut plan, mut scratch) = (vec![1; plan_len], vec![2; scratch_len]);
        let answer = repair(image, &mut plan, &mut scratch);
        let right = answer == Answer { number: BUFFER_TOO_SHORT, rows: 0 };
        if !right || plan != vec![1; plan_len] || scratch != vec![2; scratch_len] {
            return Err(Breach::ShortBuffer);
        }
    }
    Ok(())
}

/// Rule 114. Numbers that no row has, some of them once multiplied or cut; rows of no plan; and a plan that is too short.
fn refused_landings_change_nothing(image: &mut [u8], plan: &[u8]) -> Result<(), Breach> {
    let before = image.to_vec();
    let numbers = [9, 10, 255, 256, 1 << 16, 1 << 32, 1 << 61, u64::MAX];
    let mut answers: Vec<u8> = numbers.iter().map(|&number| land(image, plan, number)).collect();
    answers.push(land(image, &[0; PLAN_LEN], 0));
    answers.push(land(image, &plan[..PLAN_LEN - 1], 0));
    match answers.contains(&DONE) || image != before {
        true => Err(Breach::RefusedLanding),
        false => Ok(()),
    }
}

#[cfg(test)]
mod tests;
