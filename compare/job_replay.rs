//! The job lists of replay.txt.

use crate::call::{Call, CPP_LEN};
use crate::job::*;
use crate::job_lines::*;
use crate::original::DbsParams;
use crate::plates::{black_pixels, program_plate, reach, smallest, BLACK_WHITE};
use crate::random::Random;
use crate::replay::{allowed, lively};
use crate::tiles::{area, radii, Tiling};

/// The lists with their answers.
pub fn text(side: &Side) -> String {
    let mut text = String::new();
    for (title, lines) in lists() {
        text += &format!("# {title}\n");
        let mut room = Room::new();
        for line in &lines {
            text += &format!("{line}\n");
            if let Some((_, answer)) = room.make(line, side) {
                text += &format!("{answer}\n");
            }
        }
    }
    text
}

fn lists() -> Vec<(&'static str, Vec<Line>)> {
    let mut r = Random(17);
    let mut plate = |width, height, inks, params| lively(&mut r, width, height, inks, params);
    let passes = |max_passes, eye| DbsParams { max_passes, ..eye };
    let four = plate(200, 1, 3, passes(2, reach(1, 0.5)));
    let column = plate(2, 130, 2, passes(2, reach(2, 0.5)));
    let wide = plate(140, 1, 4, passes(2, reach(16, 1.0)));
    let six = plate(330, 1, 2, passes(2, smallest()));
    let inks = plate(3, 2, 256, allowed(2));
    let mut two = plate(70, 1, 2, passes(1000, reach(1, 0.5)));
    two.pinned = (0..70).map(|i| u8::from(i % 9 == 0)).collect();
    let none = Call { max_passes: 0, ..program_plate() };
    let no_row = crate::plates::call(4096, 0, &[], &[0, 0, 0], &[], &[], allowed(2));
    vec![
        ("Job lists. The input of program plate.", Script::new(program_plate(), 1).random(6)),
        ("Four tiles side by side.", Script::new(four.clone(), 2).random(6)),
        ("Three tiles one below the other.", Script::new(column, 3).random(6)),
        ("Tiles of side 67.", Script::new(wide, 4).random(6)),
        ("Six tiles side by side.", Script::new(six, 5).random(6)),
        ("256 inks.", Script::new(inks, 6).random(6)),
        ("No pass allowed.", Script::new(none, 7).random(0)),
        ("No row.", Script::new(no_row.clone(), 8).random(6)),
        ("Each row of the table for calls on two tiles.", rows(two)),
        ("Records that no call returned.", records()),
        ("Refused opens.", opens()),
        ("Work with wrong mask bytes: behind the mask of an open, and in masks of refused opens.", wrong_masks()),
        ("The four tiles side by side with recalls: copies lost, and copies brought late.", recalled(four)),
        ("Each row of the table for recalls.", recalls(no_row)),
    ]
}

/// Recalls have lists of their own.
const KINDS: [Kind; 4] = [Kind::Take, Kind::Work, Kind::PutBack, Kind::Close];

/// A change of the tile or of the lengths of a work.
type WorkChange = fn(&mut u64, &mut Lengths);

/// No change; changes that count before the bytes of a mask; and changes that count after them.
const WORKS: [WorkChange; 9] = [
    |_, _| (),
    |_, lengths| lengths[RECORD] = 11,
    |tile, _| *tile = 3,
    |_, lengths| lengths[PINNED] -= 1,
    |_, lengths| lengths[PINNED] += 1,
    |_, lengths| lengths[CPP] -= 1,
    |_, lengths| lengths[INKS] -= 1,
    |_, lengths| lengths[COPY_CPE] -= 1,
    |_, lengths| lengths[COPY_INDICES] -= 1,
];

/// A list in the making.
struct Script {
    r: Random,
    call: Call,
    tiling: Tiling,
    room: Room,
    lines: Vec<Line>,
    out: Vec<Out>,
}

/// A tile that is out, where its copy begins, and the count and delta that work answered.
struct Out {
    tile: u64,
    from: usize,
    made: Option<(u64, u64)>,
}

impl Script {
    fn new(mut call: Call, seed: u64) -> Self {
        call.lend();
        let tiling = Tiling::of(&call);
        let mut script = Self { r: Random(seed), call, tiling, room: Room::new(), lines: vec![], out: vec![] };
        script.push(Line::Open { call: script.call.clone(), lengths: script.lengths(0) });
        script
    }

    fn push(&mut self, line: Line) -> Option<Answer> {
        let answer = self.room.make(&line, &EXPECTED);
        self.lines.push(line);
        answer.map(|(answer, _)| answer)
    }

    /// What is lent to a call on a tile, where the image has it.
    fn lengths(&self, tile: u64) -> Lengths {
        let (n, tiles) = (self.call.lent.indices.len(), self.tiling.count());
        let copied = if tile < tiles { area(self.tiling.region(tile)) } else { 1 };
        let mut lengths = [0; 11];
        lengths[PINNED] = self.call.pinned.len();
        lengths[INDICES] = n;
        lengths[CPE] = 3 * n;
        lengths[CPP] = CPP_LEN;
        lengths[COUNTS] = self.call.max_passes as usize;
        lengths[INKS] = self.call.palette.len();
        lengths[STATES] = tiles as usize;
        lengths[DELTAS] = tiles as usize;
        lengths[RECORD] = RECORD_LEN;
        lengths[COPY_CPE] = 3 * copied;
        lengths[COPY_INDICES] = copied;
        lengths
    }

    fn line(&self, kind: Kind, tile: u64, from: usize, (accepted, delta): (u64, u64)) -> Line {
        Line::Call { kind, tile, from, accepted, delta, lengths: self.lengths(tile) }
    }

    fn record(&self, place: usize) -> u64 {
        self.room.0[RECORD][place]
    }

    /// A job to its end, with several tiles out at once, as many refused calls on the way and three after it.
    fn random(mut self, refused: usize) -> Vec<Line> {
        let mut left = refused;
        while self.record(FINISHED) == 0 {
            let waiting = |&tile: &u64| self.room.0[STATES][tile as usize] == 0;
            let waiting: Vec<u64> = self.tiling.of_phase(self.record(PHASE)).filter(waiting).collect();
            let room = [0, 341, 682].into_iter().find(|&from| self.out.iter().all(|out| out.from != from));
            match (self.r.below(8), room) {
                (0..=3, Some(from)) if !waiting.is_empty() => self.take(&waiting, from),
                (2..=4, _) if !self.out.is_empty() => self.work(),
                (2..=6, _) if self.out.iter().any(|out| out.made.is_some()) => self.put_back(),
                (7, _) if left > 0 => {
                    left -= 1;
                    self.refused();
                }
                _ if waiting.is_empty() && self.out.is_empty() => {
                    self.push(self.line(Kind::Close, 0, 0, (0, 0)));
                }
                _ => (),
            }
        }
        (0..3).for_each(|_| self.refused());
        self.lines
    }

    fn take(&mut self, waiting: &[u64], from: usize) {
        let tile = self.r.pick(waiting);
        self.push(self.line(Kind::Take, tile, from, (0, 0)));
        self.out.push(Out { tile, from, made: None });
    }

    /// On a tile not yet worked, now and then with the record as the open left it.
    fn work(&mut self) {
        let Some(i) = self.out.iter().position(|out| out.made.is_none()) else {
            return;
        };
        let record: Vec<u64> = self.room.0[RECORD][..RECORD_LEN].to_vec();
        let mut opened = record.clone();
        opened[PASSES_DONE..=ACCEPTED].fill(0);
        opened[FINAL_ERROR] = opened[INITIAL_ERROR];
        let stale = self.r.below(3) == 0;
        if stale {
            self.write(&opened);
        }
        let Out { tile, from, .. } = self.out[i];
        let answer = self.push(self.line(Kind::Work, tile, from, (0, 0))).expect("an answer");
        self.out[i].made = Some((answer.accepted, answer.delta));
        self.write(&record);
    }

    /// Lines that make the record this one.
    fn write(&mut self, record: &[u64]) {
        for (place, &value) in record.iter().enumerate() {
            if self.record(place) != value {
                self.push(Line::Word { place, value });
            }
        }
    }

    fn put_back(&mut self) {
        let made: Vec<usize> = (0..self.out.len()).filter(|&i| self.out[i].made.is_some()).collect();
        let Out { tile, from, made } = self.out.swap_remove(self.r.pick(&made));
        self.push(self.line(Kind::PutBack, tile, from, made.expect("made")));
    }

    /// The count and delta of the answer.
    fn call(&mut self, kind: Kind, tile: u64, from: usize, made: (u64, u64)) -> (u64, u64) {
        let answer = self.push(self.line(kind, tile, from, made)).expect("an answer");
        (answer.accepted, answer.delta)
    }

    /// A recall with a change of its lengths and of words of the record.
    fn recall(&mut self, tile: u64, change: impl Fn(&mut Lengths), words: &[(usize, u64)]) {
        let (record, mut lengths) = (self.room.0[RECORD][..RECORD_LEN].to_vec(), self.lengths(tile));
        change(&mut lengths);
        words.iter().for_each(|&(place, value)| _ = self.push(Line::Word { place, value }));
        self.push(Line::Call { kind: Kind::Recall, tile, from: 0, accepted: 0, delta: 0, lengths });
        self.write(&record);
    }

    /// A line that makes the image of the record so wide, of one row; its mask is so long too.
    fn set_width(&mut self, width: u64) {
        self.push(Line::Word { place: 0, value: width });
        self.call.pinned.resize(width as usize, 255);
        self.tiling = Tiling::new(width, 1, radii(&self.call.params()));
    }

    /// Works on tile 0 with each of these changes.
    fn works(&mut self, changes: &[WorkChange]) {
        for change in changes {
            let (mut tile, mut lengths) = (0, self.lengths(0));
            change(&mut tile, &mut lengths);
            self.push(Line::Call { kind: Kind::Work, tile, from: 0, accepted: 0, delta: 0, lengths });
        }
    }

    /// Works with a mask that is refused, alone, with other changes and with a record that is refused.
    fn refused_works(&mut self) {
        self.works(&WORKS);
        let (place, value) = (PHASE, self.record(PHASE));
        self.push(Line::Word { place, value: 4 });
        self.works(&WORKS[..1]);
        self.push(Line::Word { place, value });
    }

    /// A call that document 01 refuses, of those on one tile with one change or none.
    fn refused(&mut self) {
        loop {
            let kind = self.r.pick(&[Kind::Take, Kind::Work, Kind::PutBack, Kind::PutBack, Kind::Close]);
            let tile = self.r.below(self.tiling.count() + 1);
            let from = self.out.iter().find(|out| out.tile == tile).map_or(682, |out| out.from);
            let mut line = self.line(kind, tile, from, (0, 0));
            let (place, old) = (from, self.room.0[COPY_INDICES][from] as u8);
            let mut byte = old;
            if let Line::Call { tile, accepted, lengths, .. } = &mut line {
                let slice = self.r.pick(lent(Some(kind)));
                match self.r.below(6) {
                    0 => lengths[slice] = lengths[slice].saturating_sub(1),
                    1 => lengths[slice] += 1,
                    2 => *accepted = self.r.pick(&[65, 4489, 1 << 32, u64::MAX]),
                    3 => *tile = self.r.pick(&[*tile + 1, *tile + (1 << 32), u64::MAX]),
                    4 => byte = 255,
                    _ => (),
                }
            }
            let mut tried = self.room.clone();
            tried.make(&Line::Index { place, byte }, &EXPECTED);
            let number = tried.make(&line, &EXPECTED).map_or(0, |(answer, _)| answer.number);
            if byte == old && number > 0 {
                self.push(line);
                return;
            } else if number == 6 {
                self.push(Line::Index { place, byte });
                self.push(line);
                self.push(Line::Index { place, byte: old });
                return;
            }
        }
    }
}

/// Each call on tile 0 of two with one change after another, then as it is accepted, and then once more.
fn rows(call: Call) -> Vec<Line> {
    let mut script = Script::new(call, 9);
    let mut made = (0, 0);
    for kind in KINDS {
        let line = |tile, made, change: &dyn Fn(&mut Lengths)| {
            let (mut lengths, (accepted, delta)) = (script.lengths(0), made);
            change(&mut lengths);
            Line::Call { kind, tile, from: 0, accepted, delta, lengths }
        };
        let mut changed = vec![];
        for &slice in lent(Some(kind)) {
            changed.extend([line(0, made, &|l| l[slice] -= 1), line(0, made, &|l| l[slice] += 1)]);
        }
        if kind != Kind::Close {
            changed.extend([1, 2, 1 << 32, u64::MAX].map(|tile| line(tile, made, &|_| ())));
        }
        if kind == Kind::PutBack {
            changed.extend([65, 71, u64::MAX].map(|accepted| line(0, (accepted, made.1), &|_| ())));
        }
        let accepted = line(0, made, &|_| ());
        changed.into_iter().for_each(|line| _ = script.push(line));
        if matches!(kind, Kind::Work | Kind::PutBack) {
            for (place, byte) in [(3, 2), (66, 255)] {
                let old = script.room.0[COPY_INDICES][place] as u8;
                script.push(Line::Index { place, byte });
                script.push(accepted.clone());
                script.push(Line::Index { place, byte: old });
            }
        }
        let answer = script.push(accepted.clone()).expect("an answer");
        if kind == Kind::Work {
            made = (answer.accepted, answer.delta);
        } else {
            script.push(accepted);
        }
        if kind == Kind::Take {
            script.push(script.line(Kind::Close, 0, 0, (0, 0)));
        }
    }
    script.lines
}

/// Each part of row 12; records of other lengths; a NaN that stays as it came, and one that is new.
fn records() -> Vec<Line> {
    const OUTSIDE: [(usize, u64); 18] = [
        (0, 0),
        (0, 4097),
        (1, 4097),
        (1, (1 << 63) + 1),
        (2, 0),
        (2, 257),
        (3, 3),
        (3, 34),
        (4, 0),
        (4, u64::MAX),
        (5, 1001),
        (PASSES_DONE, 11),
        (PASSES_DONE, 10),
        (PHASE, 4),
        (ACCEPTED, 3),
        (ACCEPTED, u64::MAX),
        (FINISHED, 2),
        (FINISHED, u64::MAX),
    ];
    let mut script = Script::new(program_plate(), 9);
    let opened = script.room.0[RECORD][..RECORD_LEN].to_vec();
    for (i, (place, value)) in OUTSIDE.into_iter().enumerate() {
        script.push(Line::Word { place, value });
        script.push(script.line(KINDS[i % 4], 0, 0, (0, 0)));
        script.write(&opened);
    }
    for (kind, len) in KINDS.into_iter().zip([0, 11, 13, 11]) {
        let mut line = script.line(kind, 0, 0, (0, 0));
        if let Line::Call { lengths, .. } = &mut line {
            lengths[RECORD] = len;
        }
        script.push(line);
    }
    let [infinity, minus_infinity] = [f64::INFINITY, f64::NEG_INFINITY].map(f64::to_bits);
    script.push(Line::Word { place: INITIAL_ERROR, value: 0xfff8_0000_dead_beef });
    script.push(Line::Word { place: FINAL_ERROR, value: 0x7ff0_0000_0000_0001 });
    script.push(script.line(Kind::Take, 0, 0, (0, 0)));
    script.push(script.line(Kind::PutBack, 0, 0, (1, infinity)));
    for _ in 0..4 {
        script.push(script.line(Kind::Close, 0, 0, (0, 0)));
    }
    script.push(Line::Word { place: FINAL_ERROR, value: minus_infinity });
    script.push(script.line(Kind::Take, 0, 0, (0, 0)));
    script.push(script.line(Kind::PutBack, 0, 0, (0, infinity)));
    script.push(script.line(Kind::Close, 0, 0, (0, 0)));
    script.write(&opened);
    script.push(script.line(Kind::Take, 0, 0, (0, 0)));
    OUTSIDE.into_iter().for_each(|word| script.recall(0, |_| (), &[word]));
    [0, 11, 13].into_iter().for_each(|len| script.recall(0, |lengths| lengths[RECORD] = len, &[]));
    script.recall(0, |_| (), &[]);
    script.lines
}

/// Numbers and places of opens, and several at once: the one tested first counts, and a run of another length comes
/// before all.
fn opens() -> Vec<Line> {
    let changes: [fn(&mut Call, &mut Lengths); 31] = [
        |_, l| l[RECORD] = 0,
        |_, l| l[RECORD] = 11,
        |c, l| (c.width, l[RECORD]) = (0, 13),
        |c, _| c.width = 0,
        |c, _| c.height = 4097,
        |c, _| c.pixels.push(0),
        |c, _| c.lent.indices.truncate(1),
        |c, _| c.pinned.push(0),
        |c, _| c.palette.truncate(5),
        |c, _| c.lent.indices[1] = 2,
        |c, _| c.ppi = f64::NAN,
        |c, _| c.viewing_distance_cm = 0.0,
        |c, _| c.viewing_distance_cm = 1.0,
        |c, _| c.viewing_distance_cm = 400.0,
        |c, _| c.max_passes = 1001,
        |_, l| l[CPE] = 5,
        |_, l| l[CPP] = 8449,
        |_, l| l[COUNTS] = 9,
        |_, l| (l[STATES], l[INKS]) = (0, 0),
        |_, l| (l[STATES], l[DELTAS]) = (2, 2),
        |_, l| (l[DELTAS], l[INKS]) = (2, 5),
        |_, l| l[INKS] = 9,
        |c, _| c.pinned = vec![0, 255],
        |c, l| (c.pinned, l[RECORD]) = (vec![2, 2], 11),
        |c, _| (c.pinned = vec![2, 2], c.pixels.push(0)).1,
        |c, _| (c.pinned = vec![2, 2], c.lent.indices.truncate(1)).1,
        |c, _| c.pinned = vec![2],
        |c, _| (c.pinned = vec![128, 2], c.palette.truncate(5)).1,
        |c, _| (c.pinned, c.lent.indices[0], c.ppi) = (vec![1, 2], 9, 0.0),
        |c, l| (c.pinned, c.max_passes, l[CPE]) = (vec![1, 2], 1001, 5),
        |c, l| (c.pinned, l[STATES], l[DELTAS]) = (vec![1, 2], 0, 0),
    ];
    let script = Script::new(program_plate(), 10);
    let line = |change: &fn(&mut Call, &mut Lengths)| {
        let (mut call, mut lengths) = (script.call.clone(), script.lengths(0));
        change(&mut call, &mut lengths);
        (lengths[PINNED], lengths[INDICES]) = (call.pinned.len(), call.lent.indices.len());
        Line::Open { call, lengths }
    };
    changes.iter().map(line).collect()
}

fn wrong_masks() -> Vec<Line> {
    let eye = DbsParams { max_passes: 2, ..reach(1, 0.5) };
    let mut first = left(&[255, 0, 1, 0, 1], eye);
    first.refused_works();
    let mut far = left(&[[0; 128].as_slice(), &[2]].concat(), eye);
    far.works(&WORKS[..1]);
    [behind(eye), narrower(eye), first.lines, far.lines].concat()
}

/// Behind the mask of an accepted open stand bytes 255. Where the record says that the image is wider by a pixel, the
/// mask has one of them, far from tile 0. With the record as it was, and with no mask, the same work is accepted.
fn behind(eye: DbsParams) -> Vec<Line> {
    let mut script = Script::new(black_pixels(128, 1, &[[3, 0], [70, 0]], eye), 11);
    script.push(script.line(Kind::Take, 0, 0, (0, 0)));
    script.set_width(129);
    script.refused_works();
    let (place, old) = (66, script.room.0[COPY_INDICES][66] as u8);
    script.push(Line::Index { place, byte: 255 });
    script.works(&WORKS[..1]);
    script.push(Line::Index { place, byte: old });
    script.set_width(128);
    script.works(&[|_, _| (), |_, lengths| lengths[PINNED] = 0]);
    script.lines
}

/// A byte in the middle with another behind it; in a narrower image the first of them is the last byte; in a still
/// narrower one there is none.
fn narrower(eye: DbsParams) -> Vec<Line> {
    let mut script = left(&[0, 1, 254, 1, 2], eye);
    (0..5).for_each(|place| _ = script.push(Line::Index { place, byte: 0 }));
    script.works(&WORKS[..1]);
    for width in [3, 2] {
        script.set_width(width);
        script.works(&WORKS[..1]);
    }
    script.lines
}

/// An open that is refused for its mask, which stays in the buffer, and lines that write a record.
fn left(pinned: &[u8], eye: DbsParams) -> Script {
    let n = pinned.len();
    let call = crate::plates::call(n as u64, 1, &vec![255; 3 * n], &BLACK_WHITE, &vec![0; n], pinned, eye);
    let mut script = Script::new(call, 12);
    let [luminance, chrominance] = radii(&eye);
    script.write(&[n as u64, 1, 2, luminance, chrominance, u64::from(eye.max_passes), 0, 0, 0, 0, 0, 0]);
    script
}

/// Every phase of the passes allowed. In turn a tile's copy is lost, is brought before and after the tile is taken
/// again, or the tile is recalled twice and the second of three copies brought.
fn recalled(call: Call) -> Vec<Line> {
    use Kind::{Close, PutBack, Recall, Take, Work};
    let mut script = Script::new(call, 13);
    let (none, mut turn) = ((0, 0), 0);
    for phase in (0..4).cycle().take(4 * script.call.max_passes as usize) {
        let tiles: Vec<(u64, usize)> = script.tiling.of_phase(phase).zip((0..).step_by(300)).collect();
        tiles.iter().for_each(|&(tile, from)| _ = script.call(Take, tile, from, none));
        for (tile, first) in tiles {
            let [second, third] = [first + 100, first + 200];
            if turn % 3 == 0 {
                script.call(Recall, tile, 0, none);
                script.call(Take, tile, second, none);
                let made = script.call(Work, tile, second, none);
                script.call(PutBack, tile, second, made);
                script.call(Recall, tile, 0, none);
            } else if turn % 3 == 1 {
                let made = script.call(Work, tile, first, none);
                script.call(Recall, tile, 0, none);
                script.call(PutBack, tile, first, made);
                script.call(Take, tile, second, none);
                script.call(PutBack, tile, first, made);
                let made = script.call(Work, tile, second, none);
                script.call(PutBack, tile, second, made);
            } else {
                script.call(Recall, tile, 0, none);
                script.call(Take, tile, second, none);
                script.call(Recall, tile, 0, none);
                script.call(Recall, tile, 0, none);
                script.call(Take, tile, third, none);
                let made = script.call(Work, tile, second, none);
                script.call(PutBack, tile, second, made);
            }
            turn += 1;
        }
        script.call(Close, 0, 0, none);
    }
    script.recall(0, |_| (), &[]);
    script.recall(4, |_| (), &[]);
    script.recall(0, |lengths| lengths[STATES] += 1, &[]);
    script.lines
}

/// Of four tiles, 0 and 2 in phase 0, and with no tile: one change after another, and several at once.
fn recalls(no_row: Call) -> Vec<Line> {
    use Kind::{PutBack, Take, Work};
    const ABSENT: [u64; 5] = [4, 5, (1 << 32) + 2, (1 << 63) + 2, u64::MAX];
    let eye = DbsParams { max_passes: 2, ..reach(1, 0.5) };
    let mut script = Script::new(black_pixels(200, 1, &[[3, 0], [70, 0]], eye), 14);
    let (none, same) = ((0, 0), |_: &mut Lengths| ());
    let shorter = |lengths: &mut Lengths| lengths[STATES] -= 1;
    let longer = |lengths: &mut Lengths| lengths[STATES] += 1;
    // Waiting.
    script.recall(2, same, &[]);
    script.recall(2, shorter, &[]);
    script.recall(2, longer, &[]);
    // Out.
    script.call(Take, 0, 0, none);
    script.call(Take, 2, 100, none);
    script.recall(2, shorter, &[]);
    script.recall(2, longer, &[]);
    script.recall(2, |lengths| lengths[STATES] = 0, &[]);
    script.recall(2, same, &[(FINISHED, 1)]);
    script.recall(2, longer, &[(FINISHED, 1)]);
    script.recall(4, same, &[(FINISHED, 1)]);
    script.recall(1, same, &[(FINISHED, 1)]);
    script.recall(2, same, &[(PHASE, 4), (FINISHED, 1)]);
    script.recall(4, longer, &[(PHASE, 4)]);
    script.recall(4, |lengths| lengths[RECORD] = 11, &[(FINISHED, 1)]);
    ABSENT.into_iter().for_each(|tile| script.recall(tile, same, &[]));
    script.recall(4, longer, &[]);
    script.recall(1, shorter, &[]);
    // Tile 1 waits, then is out, in a phase not its own, and is recalled in its own.
    script.recall(1, same, &[]);
    script.push(Line::Word { place: PHASE, value: 1 });
    script.call(Take, 1, 200, none);
    script.recall(2, same, &[]);
    script.push(Line::Word { place: PHASE, value: 0 });
    script.recall(1, same, &[]);
    script.recall(1, same, &[(PHASE, 1)]);
    // Out, and then waiting again.
    script.recall(2, same, &[]);
    script.recall(2, same, &[]);
    script.recall(2, longer, &[]);
    // Back, by a put back, and by a byte 255, which stands behind the states of the open.
    let made = script.call(Work, 0, 0, none);
    script.call(PutBack, 0, 0, made);
    script.recall(0, same, &[]);
    script.recall(0, longer, &[]);
    script.set_width(330);
    script.recall(4, same, &[]);
    script.recall(5, same, &[(PHASE, 1)]);
    let mut empty = Script::new(no_row, 15);
    empty.recall(0, same, &[]);
    empty.recall(0, longer, &[]);
    [script.lines, empty.lines].concat()
}
