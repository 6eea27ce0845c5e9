//! The search: every state once, each image repaired once.

use super::names::{names, Names};
use super::{all_rows, breach, turns, Call, Exploration, Jobs, Key, Numbered, Outcome, Phase, Reached, State};
use crate::image::{Image, Journal};
use mirepillar::{Number, Plan};

/// What a repair of an image was answered.
struct Repair {
    plan: usize,
    answered: Number,
}

/// The search as it stands: what has been found, and what there is to do.
struct Search<'a> {
    jobs: Jobs,
    found: Exploration,
    images: Numbered<Vec<u8>>,
    plans: Numbered<Plan>,
    states: Numbered<Key>,
    /// One for each image.
    repairs: Vec<Repair>,
    tell: &'a mut dyn FnMut(usize),
}

/// Explores a call. `tell` is called now and then with the number of states so far.
pub fn explore(call: Call, jobs: Jobs, tell: &mut dyn FnMut(usize)) -> Exploration {
    let finished = landed_whole(&call.before, &call.plan, jobs);
    let found =
        Exploration { finished, images: Vec::new(), plans: Vec::new(), states: Vec::new(), breaches: Vec::new(), call };
    let (images, plans, states) = (Numbered::new(), Numbered::new(), Numbered::new());
    let mut search = Search { jobs, found, images, plans, states, repairs: Vec::new(), tell };
    search.run();
    search.found
}

/// An image with every row of a plan landed, in the order in which they stand.
pub fn landed_whole(image: &[u8], plan: &Plan, jobs: Jobs) -> Vec<u8> {
    let mut image = image.to_vec();
    for row in 0..plan.rows().count() {
        (jobs.land)(&mut image, &plan.0, row as u64);
    }
    image
}

impl Search<'_> {
    fn run(&mut self) {
        let plan = self.plan(self.found.call.plan.clone());
        let image = self.image(self.found.call.before.clone());
        let waiting = all_rows(&self.found.call.plan);
        self.state(Key { image, plan, waiting, phase: Phase::Call, decided: false }, None);
        if (self.jobs.check)(&self.found.finished) != Number::DONE {
            self.breach(0, "the plan landed whole leaves an image that is not sound".to_string());
        }
        if !matches!(names(&self.found.call, &self.found.finished), Names::New | Names::Exchanged) {
            self.breach(0, "the plan landed whole does not give the new name".to_string());
        }
        let mut next = 0;
        while next < self.found.states.len() {
            self.follow(next);
            next += 1;
            (self.tell)(self.found.states.len());
        }
    }

    fn breach(&mut self, state: usize, sentence: String) {
        self.found.breaches.push((state, sentence));
    }

    fn plan(&mut self, plan: Plan) -> usize {
        let (number, new) = self.plans.number(plan.clone());
        if new {
            self.found.plans.push(plan);
        }
        number
    }

    /// The number of an image. A new one is repaired, and the repair landed whole.
    fn image(&mut self, bytes: Vec<u8>) -> usize {
        let (number, new) = self.images.number(bytes.clone());
        if new {
            let (mut plan, mut scratch) = (Plan::EMPTY, vec![0; bytes.len()]);
            let answer = (self.jobs.repair)(&bytes, &mut plan.0, &mut scratch);
            let outcome = self.outcome(&landed_whole(&bytes, &plan, self.jobs), &scratch, answer.number);
            let plan = self.plan(plan);
            self.repairs.push(Repair { plan, answered: answer.number });
            let names = names(&self.found.call, &bytes);
            let clear = Image::read(&bytes).is_ok_and(|image| image.journal == Journal::default());
            self.found.images.push(Reached { bytes, outcome, names, clear });
        }
        number
    }

    /// What a repair's rows leave, if that is what the repair has shown.
    fn outcome(&self, bytes: &[u8], shown: &[u8], answered: Number) -> Outcome {
        match answered == Number::DONE && bytes == shown {
            true if bytes == self.found.call.before => Outcome::Before,
            true if bytes == self.found.finished => Outcome::Finished,
            _ => Outcome::Otherwise,
        }
    }

    /// The number of a state; a new one is held to what must be.
    fn state(&mut self, key: Key, from: Option<(usize, Option<usize>)>) -> usize {
        let (number, new) = self.states.number(key);
        if new {
            self.found.states.push(State { key, landings: Vec::new(), cut: None, from });
            for sentence in breach::seen(&self.found, key) {
                self.breach(number, sentence);
            }
        }
        number
    }

    /// Lands each row whose turn it is, and cuts the power.
    fn follow(&mut self, number: usize) {
        let key = self.found.states[number].key;
        for row in turns(&self.found.plans[key.plan], key.waiting) {
            if let Some(next) = self.landing(number, key, row) {
                self.found.states[number].landings.push((row, next));
            }
        }
        self.found.states[number].cut = self.cut(number, key);
    }

    fn landing(&mut self, number: usize, key: Key, row: usize) -> Option<usize> {
        let mut bytes = self.found.images[key.image].bytes.clone();
        let answered = (self.jobs.land)(&mut bytes, &self.found.plans[key.plan].0, row as u64);
        if answered != Number::DONE {
            self.breach(number, format!("row {row} is not landed in its turn: {answered}"));
            return None;
        }
        let group = self.found.plans[key.plan].row(row).map(|row| row.group);
        let decides = key.phase == Phase::Call && group == Some(self.found.call.deciding_group());
        let image = self.image(bytes);
        let next = Key { image, waiting: key.waiting & !(1 << row), decided: key.decided || decides, ..key };
        Some(self.state(next, Some((number, Some(row)))))
    }

    fn cut(&mut self, number: usize, key: Key) -> Option<usize> {
        let Repair { plan, answered } = self.repairs[key.image];
        if answered != Number::DONE {
            self.breach(number, format!("repair does not answer 0: {answered}"));
            return None;
        }
        let waiting = all_rows(&self.found.plans[plan]);
        let next = Key { plan, waiting, phase: Phase::Repair, ..key };
        Some(self.state(next, Some((number, None))))
    }
}
