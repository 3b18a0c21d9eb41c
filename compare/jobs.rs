//! Random lists of job calls, refused ones among them, with several tiles out at once and in any order, tiles
//! recalled, copies lost and copies brought late: at the opening and after each accepted close held to the plain
//! walk, at the end of a job to refine.

use std::collections::BTreeMap;
use std::time::Instant;

use crate::call::{first, Call, Refined};
use crate::job::*;
use crate::job_changes::{change, wild};
use crate::original::DbsParams;
use crate::plates::{plate, random_eye, reach, smallest};
use crate::random::Random;
use crate::tiles::{area, Tiling};
use crate::walk::Walk;
use crate::{expected, job_expected, library, Section};

/// A copy as a take gave it, with the number of the take and of the phase in the list.
#[derive(Clone)]
struct Taken {
    copy: TileCopy,
    take: usize,
    phase: usize,
}

/// A copy that a worker has, and what work last made of it. Its tile may have been recalled since.
struct Held {
    taken: Taken,
    made: Option<TileCopy>,
}

/// A job under way.
struct List<'a> {
    name: u64,
    r: Random,
    call: &'a Call,
    tiling: Tiling,
    job: Job,
    walk: Walk,
    held: Vec<Held>,
    /// What each tile's last take gave.
    last: BTreeMap<u64, Taken>,
    takes: usize,
    phases: usize,
    most_out: usize,
    /// Every record that open or a call returned.
    returned: Vec<Vec<u64>>,
    sections: &'a mut [Section; 3],
    seen: &'a mut Seen,
}

/// How often something came up.
#[derive(Default)]
struct Seen {
    /// By kind of call and number.
    answers: BTreeMap<(String, u64), usize>,
    finished: usize,
    several: usize,
    recalls: usize,
    /// Tiles taken that were taken before in their phase.
    again: usize,
    lost: usize,
    /// Phases closed after every copy was lost.
    over: usize,
    /// Copies refused between a recall and the next take.
    at_once: usize,
    /// Copies put back that are not the last take's own.
    late: usize,
    /// Those of them that were taken in an earlier phase.
    earlier: usize,
}

/// A difference was found, and the list is not carried on.
struct Differs;

const LISTS: usize = 0;
const STATES: usize = 1;
const CALLS: usize = 2;

pub fn compare(seed: u64, scale: f64) -> [Section; 3] {
    let start = Instant::now();
    let mut sections = ["job lists", "job states", "calls of job lists"].map(Section::new);
    let mut seen = Seen::default();
    let mut r = Random(seed);
    for name in 0..(10_000.0 * scale) as u64 {
        let mut call = image(&mut r);
        call.lend();
        let mut list = List::new(name, Random(r.next()), &call, &mut sections, &mut seen);
        let ended = list.run();
        list.seen.finished += usize::from(list.job.record[FINISHED] == 1);
        list.seen.several += usize::from(list.most_out > 1);
        let difference = ended.ok().and_then(|()| list.end());
        sections[LISTS].check(name, difference);
    }
    let Seen { answers, finished, several, recalls, again, lost, over, at_once, late, earlier } = seen;
    let answers: Vec<_> = answers.iter().map(|((kind, number), count)| format!("{kind} {number}: {count}")).collect();
    println!("answers of job calls by number: {}", answers.join(", "));
    println!("recalls of job lists: {recalls}, {again} second takes, {lost} copies lost, {over} times all of them");
    println!("copies brought after a recall: {at_once} before a take, {late} after one, {earlier} in a later phase");
    let seconds = start.elapsed().as_secs_f64();
    println!("job lists: {finished} to the end, {several} with several tiles out at once, {seconds:.1} s");
    sections
}

fn image(r: &mut Random) -> Call {
    let small = |r: &mut Random| DbsParams { max_passes: r.pick(&[1, 2]), ..reach(1, r.fraction()) };
    let (width, height, most_inks, params) = match r.below(120) {
        0 => (r.between(65, 140), r.between(65, 140), 4, small(r)),
        1..=17 => (r.between(65, 400), r.between(1, 3), 256, random_eye(r)),
        18..=25 => (r.between(1, 3), r.between(65, 300), 256, random_eye(r)),
        26..=28 => (r.between(68, 200), r.between(1, 2), 4, reach(16, r.pick(&[0.1, 1.0]))),
        29..=33 => (r.between(1, 8), r.between(0, 6), 4, smallest()),
        34..=40 => (r.between(1, 300), 0, 4, random_eye(r)),
        _ => (r.between(1, 10), r.between(0, 8), 256, random_eye(r)),
    };
    let inks = if r.below(8) == 0 { r.pick(&[1, 2, most_inks]) } else { r.between(1, 6).min(most_inks) };
    let max_passes = match params.max_passes {
        0 => r.pick(&[0, 1, 1, 2, 2, 3, 4, 1000]),
        few => few,
    };
    plate(r, width, height, inks, DbsParams { max_passes, ..params })
}

impl<'a> List<'a> {
    fn new(name: u64, r: Random, call: &'a Call, sections: &'a mut [Section; 3], seen: &'a mut Seen) -> Self {
        let tiling = Tiling::of(call);
        Self {
            name,
            r,
            call,
            tiling,
            job: Job::new(call, tiling.count()),
            walk: Walk::new(call),
            held: vec![],
            last: BTreeMap::new(),
            takes: 0,
            phases: 0,
            most_out: 0,
            returned: vec![],
            sections,
            seen,
        }
    }

    fn run(&mut self) -> Result<(), Differs> {
        let (_, difference) = open(self.call, &mut self.job);
        self.check(CALLS, difference)?;
        self.returned.push(self.job.record.clone());
        self.compare_state()?;
        // Some lists end with the job unfinished.
        let mut steps = if self.r.below(10) == 0 { self.r.below(30) } else { 5000 };
        while steps > 0 && !self.walk.ended {
            steps -= 1;
            self.step()?;
        }
        for _ in 0..self.r.below(4) {
            self.other_call()?;
        }
        Ok(())
    }

    fn step(&mut self) -> Result<(), Differs> {
        let [waiting, out] = [0, 1].map(|state| self.of_state(state));
        let held: Vec<usize> = (0..self.held.len()).collect();
        let made: Vec<usize> = held.iter().copied().filter(|&i| self.is_fair(&self.held[i])).collect();
        match self.r.below(15) {
            0..=3 if !waiting.is_empty() => self.take(&waiting),
            2..=6 if !held.is_empty() => self.work(&held),
            5..=8 if !made.is_empty() => self.put_back(&made),
            9 | 10 => self.other_call(),
            11 => self.close(),
            12 if !out.is_empty() => self.recall(&out),
            13 if !waiting.is_empty() => self.take_and_recall(&waiting),
            14 if !held.is_empty() => self.lose(&held),
            _ if waiting.is_empty() && out.is_empty() => self.close(),
            _ => Ok(()),
        }
    }

    /// The tiles of this phase in this state.
    fn of_state(&self, state: u8) -> Vec<u64> {
        let in_it = |&tile: &u64| self.job.tile_states[tile as usize] == state;
        self.tiling.of_phase(self.job.record[PHASE]).filter(in_it).collect()
    }

    /// Whether what was made may be put back: the tile is out, and its last take gave an equal copy.
    fn is_fair(&self, held: &Held) -> bool {
        let TileCopy { tile, cpe, indices, .. } = &held.taken.copy;
        let last = &self.last[tile].copy;
        held.made.is_some() && self.of_state(1).contains(tile) && (&last.cpe, &last.indices) == (cpe, indices)
    }

    /// At any moment of a phase the copy is that of its start.
    fn take(&mut self, waiting: &[u64]) -> Result<(), Differs> {
        let tile = self.r.pick(waiting);
        let mut copy = self.blank(tile);
        self.answered(Kind::Take, &mut copy, 0)?;
        let (walk, places) = (&self.walk.lent, self.tiling.places(tile));
        let cpe: Vec<u64> = places.iter().flat_map(|&at| &walk.cpe[3 * at..3 * at + 3]).copied().collect();
        let indices: Vec<u8> = places.iter().map(|&at| walk.indices[at]).collect();
        self.check_also(first("taken cpe", &copy.cpe, &cpe).or_else(|| first("taken", &copy.indices, &indices)))?;
        let taken = Taken { copy, take: self.takes, phase: self.phases };
        self.takes += 1;
        let before = self.last.insert(tile, taken.clone());
        self.seen.again += usize::from(before.is_some_and(|before| before.phase == self.phases));
        self.held.push(Held { taken, made: None });
        self.most_out = self.most_out.max(self.of_state(1).len());
        Ok(())
    }

    /// On a copy, with any record that was returned.
    fn work(&mut self, held: &[usize]) -> Result<(), Differs> {
        let i = self.r.pick(held);
        let mut copy = self.held[i].taken.copy.clone();
        let given = self.returned[self.r.below(self.returned.len() as u64) as usize].clone();
        let record = std::mem::replace(&mut self.job.record, given);
        let answer = self.answered(Kind::Work, &mut copy, 0);
        self.job.record = record;
        let Answer { accepted, delta, .. } = answer?;
        self.held[i].made = Some(TileCopy { accepted, delta, ..copy });
        Ok(())
    }

    fn put_back(&mut self, made: &[usize]) -> Result<(), Differs> {
        let Held { taken, made } = self.held.swap_remove(self.r.pick(made));
        let mut made = made.expect("made");
        self.answered(Kind::PutBack, &mut made, 0)?;
        self.seen.late += usize::from(taken.take != self.last[&made.tile].take);
        self.seen.earlier += usize::from(taken.phase != self.phases);
        if self.r.below(4) == 0 {
            self.answered(Kind::Recall, &mut made, 14)?;
        }
        Ok(())
    }

    /// Its worker has lost the copy, brings it before the tile is taken again, or works on.
    fn recall(&mut self, out: &[u64]) -> Result<(), Differs> {
        let tile = self.r.pick(out);
        let mut copy = self.blank(tile);
        self.answered(Kind::Recall, &mut copy, 0)?;
        self.seen.recalls += 1;
        let of_tile: Vec<usize> = (0..self.held.len()).filter(|&i| self.held[i].taken.copy.tile == tile).collect();
        match self.r.below(4) {
            0 => of_tile.iter().rev().for_each(|&i| self.forget(i)),
            1 => {
                for i in of_tile {
                    let mut copy = self.latest(i);
                    self.answered(Kind::PutBack, &mut copy, 14)?;
                    self.seen.at_once += 1;
                }
            }
            2 => _ = self.answered(Kind::Recall, &mut copy, 14)?,
            _ => (),
        }
        Ok(())
    }

    /// Leaves the job as it was.
    fn take_and_recall(&mut self, waiting: &[u64]) -> Result<(), Differs> {
        let (tile, job) = (self.r.pick(waiting), self.job.clone());
        self.take(&[tile])?;
        self.recall(&[tile])?;
        self.check_also(self.job.difference(&job))
    }

    /// A worker is gone, or every one: then the phase closes with copies taken from now on.
    fn lose(&mut self, held: &[usize]) -> Result<(), Differs> {
        if self.r.below(4) > 0 {
            let i = self.r.pick(held);
            self.forget(i);
            return Ok(());
        }
        held.iter().rev().for_each(|&i| self.forget(i));
        for tile in self.of_state(1) {
            self.recall(&[tile])?;
        }
        for tile in self.of_state(0) {
            self.take(&[tile])?;
            self.work(&[0])?;
            self.put_back(&[0])?;
        }
        self.seen.over += 1;
        self.close()
    }

    fn forget(&mut self, i: usize) {
        self.held.swap_remove(i);
        self.seen.lost += 1;
    }

    /// Refused while a tile is missing.
    fn close(&mut self) -> Result<(), Differs> {
        let all_back = [0, 1].iter().all(|&state| self.of_state(state).is_empty());
        let mut copy = self.blank(0);
        self.answered(Kind::Close, &mut copy, if all_back { 0 } else { 15 })?;
        if all_back {
            self.phases += 1;
            // Some copies are never brought.
            self.held.retain(|_| self.r.below(16) > 0);
            self.walk.run_phase();
            self.compare_state()?;
        }
        Ok(())
    }

    /// A call that is refused, or work whose outcome is dropped. Everything but the record may be any.
    fn other_call(&mut self) -> Result<(), Differs> {
        let kinds = [Kind::Take, Kind::Work, Kind::PutBack, Kind::PutBack, Kind::Recall, Kind::Recall, Kind::Close];
        let kind = self.r.pick(&kinds);
        let tile = self.r.below(self.tiling.count() + 1);
        let mut copy = match self.r.below(self.held.len() as u64 + 1) as usize {
            0 => self.blank(tile),
            i => self.latest(i - 1),
        };
        let job = self.job.clone();
        for _ in 0..self.r.below(3) {
            change(&mut self.r, &self.tiling, &mut self.job, &mut copy);
        }
        let made = if kind == Kind::Work || job_expected::refusal(kind, &self.job, &copy) != (0, 0) {
            self.make(kind, &mut copy).map(|_| ())
        } else {
            Ok(())
        };
        self.job = job;
        made
    }

    /// What was last made of a copy, or the copy.
    fn latest(&self, i: usize) -> TileCopy {
        let Held { taken, made } = &self.held[i];
        made.clone().unwrap_or(taken.copy.clone())
    }

    /// Room for a tile's copy, with any floats in it.
    fn blank(&mut self, tile: u64) -> TileCopy {
        let pixels = if tile < self.tiling.count() { area(self.tiling.region(tile)) } else { 3 };
        let (value, delta) = (wild(&mut self.r), wild(&mut self.r));
        TileCopy { tile, cpe: vec![value; 3 * pixels], indices: vec![0; pixels], accepted: 0, delta }
    }

    /// Makes a call that is to answer this number.
    fn answered(&mut self, kind: Kind, copy: &mut TileCopy, number: u64) -> Result<Answer, Differs> {
        let answer = self.make(kind, copy)?;
        let other = answer.number != number;
        self.check_also(other.then(|| format!("{kind:?} answers {}, not {number}", answer.number)))?;
        Ok(answer)
    }

    /// Makes a call and holds it to the documents.
    fn make(&mut self, kind: Kind, copy: &mut TileCopy) -> Result<Answer, Differs> {
        let (answer, difference) = call(kind, &mut self.job, copy);
        *self.seen.answers.entry((format!("{kind:?}"), answer.number)).or_insert(0) += 1;
        // Refused calls, and work, may be made beside other indices than the job's own.
        let own = answer.number == 0 && kind != Kind::Work;
        let difference = difference.or_else(|| if own { self.astray() } else { None });
        self.check(CALLS, difference)?;
        if kind != Kind::Work {
            self.returned.push(self.job.record.clone());
        }
        Ok(answer)
    }

    /// A pinned index that is not the starting one, or an index that names no ink.
    fn astray(&self) -> Option<String> {
        let Call { pinned, palette, lent, .. } = self.call;
        let moved = |i: usize, ink: u8| pinned.get(i).is_some_and(|&byte| byte != 0) && ink != lent.indices[i];
        let unnamed = |ink: u8| usize::from(ink) >= palette.len() / 3;
        let mut indices = self.job.lent.indices.iter().enumerate();
        let (i, ink) = indices.find(|&(i, &ink)| unnamed(ink) || moved(i, ink))?;
        Some(format!("index {i} is {ink}"))
    }

    fn compare_state(&mut self) -> Result<(), Differs> {
        let (job, walk) = (&self.job, &self.walk);
        let done = walk.lent.accepted_per_pass.len();
        let counts = [&walk.lent.accepted_per_pass, &self.call.lent.accepted_per_pass[done..]].concat();
        let ended = u64::from(walk.ended);
        let record = [done as u64, walk.phase, walk.accepted, walk.initial_error, walk.error.to_bits(), ended];
        let difference = first("record from passes done", &job.record[PASSES_DONE..], &record)
            .or_else(|| first("indices", &job.lent.indices, &walk.lent.indices))
            .or_else(|| first("cpe", &job.lent.cpe, &walk.lent.cpe))
            .or_else(|| first("accepted_per_pass", &job.lent.accepted_per_pass, &counts));
        self.check(STATES, difference)
    }

    /// How a finished job differs from refine, by the library and by the copy of the Rust.
    fn end(&self) -> Option<String> {
        let record = &self.job.record;
        if record[FINISHED] == 0 {
            return None;
        }
        let refined = Refined {
            number: 0,
            place: 0,
            passes: record[PASSES_DONE],
            initial_error: record[INITIAL_ERROR],
            final_error: record[FINAL_ERROR],
            lent: self.job.lent.clone(),
        };
        [library::refine, expected::refine].iter().find_map(|refine| refined.difference(&refine(self.call)))
    }

    /// Of a call that is counted already.
    fn check_also(&mut self, difference: Option<String>) -> Result<(), Differs> {
        difference.map_or(Ok(()), |difference| self.check(CALLS, Some(difference)))
    }

    fn check(&mut self, section: usize, difference: Option<String>) -> Result<(), Differs> {
        let ended = if difference.is_some() { Err(Differs) } else { Ok(()) };
        self.sections[section].check(format_args!("list {}", self.name), difference);
        ended
    }
}
