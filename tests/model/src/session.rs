//! A session: the register, the slot book, the nine operations, step-back and the read-only questions.

use crate::answers::*;
use crate::sos::{self, Cell};
use crate::train::{Order, Position, Train, LAST_LOCATION};
use std::collections::VecDeque;

/// Stands for no authority and for no danger location, as FF FF FF FF does in a recording.
pub const NONE: u32 = u32::MAX;

pub const SLOTS: u32 = 44;
pub const ROWS: usize = 24;
pub const MOST_KEPT: usize = 128;
const LAST_LOCO: u32 = 131_070;
const LAST_TICKET: u32 = 65_535;
const SLOT_BYTES: u32 = 54;
const MOST_BYTES: u32 = 324;
const MARGIN: u32 = 300;

/// A train's name in every operation after its request.
#[derive(Clone, Copy, PartialEq, Eq, Debug)]
pub struct Pair {
    pub loco: u32,
    pub ticket: u32,
}

/// The answer number, 0 when accepted, and the three numbers of the listing.
#[derive(Clone, Copy, PartialEq, Eq, Debug)]
pub struct Answer {
    pub answer: u32,
    pub numbers: [u32; 3],
}

impl From<Result<[u32; 3], u32>> for Answer {
    fn from(outcome: Result<[u32; 3], u32>) -> Answer {
        match outcome {
            Ok(numbers) => Answer { answer: 0, numbers },
            Err(answer) => Answer { answer, numbers: [0; 3] },
        }
    }
}

/// What an operation may change and a step back restores.
#[derive(Clone, Copy, PartialEq, Eq, Debug)]
struct Register {
    /// Bit n is set while slot n is taken.
    book: u64,
    rows: [Option<Train>; ROWS],
}

#[derive(Clone, PartialEq, Eq, Debug)]
pub struct Session {
    counter: u32,
    now: Register,
    /// The whole register as it stood before each entry kept, the latest last.
    before: VecDeque<Register>,
}

impl Default for Session {
    fn default() -> Session {
        Session::new()
    }
}

impl Session {
    pub fn new() -> Session {
        Session {
            counter: 0,
            now: Register { book: 0, rows: [None; ROWS] },
            before: VecDeque::with_capacity(MOST_KEPT),
        }
    }

    // The nine operations.

    pub fn request(&mut self, loco: u32, bytes: u32) -> Answer {
        let room = self.room_for(loco, bytes);
        room.map(|(row, start, slots)| self.grant(row, loco, start, slots)).into()
    }

    pub fn release(&mut self, name: Pair) -> Answer {
        let row = self.live(name);
        row.map(|row| self.free(row)).into()
    }

    pub fn flags(&mut self, name: Pair, flags: &[u8]) -> Answer {
        self.change(name, |train| {
            let (changed, step) = train.step(flags)?;
            Ok((changed, [step.mode, step.priority, step.tie]))
        })
    }

    pub fn position(&mut self, name: Pair, front: u32, rear: u32) -> Answer {
        self.change(name, |train| {
            if location(front)? < location(rear)? {
                return Err(OUT_OF_RANGE);
            }
            Ok(with_end(Train { position: Some(Position { front, rear }), ..train }))
        })
    }

    pub fn authority(&mut self, name: Pair, end: u32) -> Answer {
        self.change(name, |train| Ok(with_end(Train { authority: location_or_none(end)?, ..train })))
    }

    pub fn danger(&mut self, name: Pair, metres: u32) -> Answer {
        self.change(name, |train| Ok(with_end(Train { danger: location_or_none(metres)?, ..train })))
    }

    pub fn sos(&mut self, l2: Pair, l1: Pair, grid: u32) -> Answer {
        let judged = self.judge_sos(l2, l1, grid);
        let stored = judged.map(|(changed, cell)| {
            self.settle(changed);
            [cell.m, cell.s, 0]
        });
        stored.into()
    }

    pub fn clear(&mut self, name: Pair, other: u32) -> Answer {
        self.change(name, |train| train.without_order(other).map(with_end).ok_or(NO_ORDER))
    }

    pub fn back(&mut self, k: u32) -> Answer {
        let Some(left) = self.before.len().checked_sub(k as usize) else {
            return Err(NOT_KEPT).into();
        };
        if let Some(&then) = self.before.get(left) {
            self.now = then;
        }
        self.before.truncate(left);
        Ok([self.entries_kept(), 0, 0]).into()
    }

    // Questions, which change nothing.

    /// The train in a row, numbered from 0; a row that is not there reads as blank.
    pub fn train(&self, row: u32) -> Option<Train> {
        self.now.rows.get(row as usize).copied().flatten()
    }

    /// The end of authority of a named train: 1 or 0 for present, and the end.
    pub fn end(&self, name: Pair) -> Answer {
        let row = self.live(name);
        row.map(|row| end_numbers(&self.held(row))).into()
    }

    pub fn counter(&self) -> u32 {
        self.counter
    }

    pub fn entries_kept(&self) -> u32 {
        self.before.len() as u32
    }

    /// Whether a slot is taken; one outside 1 to 44 is not.
    pub fn taken(&self, slot: u32) -> bool {
        (1..=SLOTS).contains(&slot) && self.now.book >> slot & 1 == 1
    }

    // The register.

    /// The row of a live train, found by loco and ticket together.
    fn live(&self, name: Pair) -> Result<usize, u32> {
        loco_in_range(name.loco)?;
        self.row_of(name)
    }

    fn row_of(&self, name: Pair) -> Result<usize, u32> {
        let holds = |row: &Option<Train>| row.is_some_and(|t| t.loco == name.loco && t.ticket == name.ticket);
        self.now.rows.iter().position(holds).ok_or(NO_SUCH_TRAIN)
    }

    fn held(&self, row: usize) -> Train {
        self.now.rows[row].expect("a row that was found holds a train")
    }

    /// Makes one entry: what stands now is what a step back restores.
    fn keep(&mut self) {
        if self.before.len() == MOST_KEPT {
            self.before.pop_front();
        }
        self.before.push_back(self.now);
    }

    /// Makes one entry and stores the changed trains in their rows.
    fn settle<const N: usize>(&mut self, changed: [(usize, Train); N]) {
        self.keep();
        for (row, train) in changed {
            self.now.rows[row] = Some(train);
        }
    }

    /// An operation on one train: `judge` gives the changed record and the numbers, or refuses.
    fn change(&mut self, name: Pair, judge: impl FnOnce(Train) -> Result<(Train, [u32; 3]), u32>) -> Answer {
        let row = self.live(name);
        let judged = row.and_then(|row| Ok((row, judge(self.held(row))?)));
        let stored = judged.map(|(row, (train, numbers))| {
            self.settle([(row, train)]);
            numbers
        });
        stored.into()
    }

    // Request and release.

    /// Row, first slot and number of slots for a request.
    fn room_for(&self, loco: u32, bytes: u32) -> Result<(usize, u32, u32), u32> {
        loco_in_range(loco)?;
        if !(1..=MOST_BYTES).contains(&bytes) {
            return Err(BAD_BYTES);
        }
        if self.now.rows.iter().flatten().any(|train| train.loco == loco) {
            return Err(ALREADY_REGISTERED);
        }
        let row = self.now.rows.iter().position(Option::is_none).ok_or(REGISTER_FULL)?;
        if self.counter == LAST_TICKET {
            return Err(NO_TICKET_LEFT);
        }
        let slots = bytes.div_ceil(SLOT_BYTES);
        let mut starts = 1..=SLOTS + 1 - slots;
        let start = starts.find(|&start| self.now.book & run(start, slots) == 0).ok_or(NO_FREE_RUN)?;
        Ok((row, start, slots))
    }

    fn grant(&mut self, row: usize, loco: u32, start: u32, slots: u32) -> [u32; 3] {
        self.keep();
        self.counter += 1;
        self.now.book |= run(start, slots);
        self.now.rows[row] = Some(Train::new(loco, self.counter, start, slots));
        [self.counter, start, slots]
    }

    fn free(&mut self, row: usize) -> [u32; 3] {
        let train = self.held(row);
        self.keep();
        self.now.book &= !run(train.start, train.slots);
        self.now.rows[row] = None;
        [0; 3]
    }

    // SOS.

    /// The changed trains with their rows, and the cell; all is judged before anything is stored.
    fn judge_sos(&self, l2: Pair, l1: Pair, grid: u32) -> Result<([(usize, Train); 2], Cell), u32> {
        loco_in_range(l2.loco)?;
        loco_in_range(l1.loco)?;
        let rows = (self.row_of(l2)?, self.row_of(l1)?);
        if rows.0 == rows.1 {
            return Err(SAME_TRAIN);
        }
        if !sos::is_grid(grid) {
            return Err(OUT_OF_RANGE);
        }
        let (two, one) = (self.held(rows.0), self.held(rows.1));
        let classes = two.class().zip(one.class());
        let (class, _) = classes.ok_or(NO_CELL)?;
        let cell = sos::cell(grid, class).ok_or(NO_CELL)?;
        let (for_two, for_one) = orders(cell.m, &two, &one)?;
        let two = for_two.map_or(Some(two), |order| two.with_order(order));
        let one = for_one.map_or(Some(one), |order| one.with_order(order));
        let (two, one) = two.zip(one).ok_or(NO_PLACE)?;
        Ok(([(rows.0, two), (rows.1, one)], cell))
    }
}

/// The orders that M2 to M6 give to L2 and to L1.
fn orders(m: u32, two: &Train, one: &Train) -> Result<(Option<Order>, Option<Order>), u32> {
    let front = |train: &Train| train.position.map(|at| at.front).ok_or(NO_POSITION);
    let rear = |train: &Train| train.position.map(|at| at.rear).ok_or(NO_POSITION);
    let for_two = |limit| Some(Order { other: one.ticket, limit });
    let for_one = |limit| Some(Order { other: two.ticket, limit });
    Ok(match m {
        2 => (for_two(Some(rear(one)?.saturating_sub(MARGIN))), None),
        3 => (for_two(Some(front(two)?)), None),
        4 => (for_two(Some(front(two)?)), for_one(Some(front(one)?))),
        5 => (for_two(None), None),
        6 => (for_two(None), for_one(None)),
        _ => unreachable!("the grids print M2 to M6"),
    })
}

/// The bits of `slots` slots side by side from `start`.
fn run(start: u32, slots: u32) -> u64 {
    ((1 << slots) - 1) << start
}

fn loco_in_range(loco: u32) -> Result<(), u32> {
    if (1..=LAST_LOCO).contains(&loco) {
        Ok(())
    } else {
        Err(BAD_LOCO)
    }
}

fn location(metres: u32) -> Result<u32, u32> {
    if metres <= LAST_LOCATION {
        Ok(metres)
    } else {
        Err(OUT_OF_RANGE)
    }
}

fn location_or_none(metres: u32) -> Result<Option<u32>, u32> {
    if metres == NONE {
        Ok(None)
    } else {
        location(metres).map(Some)
    }
}

fn with_end(train: Train) -> (Train, [u32; 3]) {
    (train, end_numbers(&train))
}

fn end_numbers(train: &Train) -> [u32; 3] {
    train.end().map_or([0; 3], |end| [1, end, 0])
}
