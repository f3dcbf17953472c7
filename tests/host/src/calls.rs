//! The calls of a run: a series of mode steps; then sessions of several plans, one after another, with calls that need no session in
//! between.

use crate::expected::{Bench, Expected};
use crate::mode_steps;
use crate::packets;
use crate::random::Random;
use crate::records;
use crate::wire::{Call, Kind, LONGER, SESSION};
use bench_model::session::{Pair, Session, NONE, ROWS, SLOTS};
use std::collections::VecDeque;
use std::iter::once;

const LAST_LOCATION: u32 = 524_287;
const LAST_TICKET: u32 = 65_535;

/// What a session is for.
#[derive(Clone, Copy, PartialEq, Eq, Debug)]
enum Plan {
    /// Trains come, move, get authorities and orders, and go.
    Day,
    /// Mostly numbers of any size.
    Hostile,
    /// Many small trains, so that the register is full, and many SOS between them.
    Full,
    /// Large requests, so that the slots run out.
    Crowded,
    /// Many entries and long steps back.
    Back,
    /// Bytes that no call made.
    Foreign,
    /// A session of our own with some bytes changed.
    Damaged,
    /// Every ticket is used up.
    Tickets,
}

const PLANS: [Plan; 10] = [
    Plan::Day,
    Plan::Day,
    Plan::Day,
    Plan::Hostile,
    Plan::Full,
    Plan::Full,
    Plan::Crowded,
    Plan::Back,
    Plan::Foreign,
    Plan::Damaged,
];

pub struct Calls {
    random: Random,
    bench: Bench,
    plan: Plan,
    /// Calls left of the session.
    left: u32,
    /// Calls that come before any other.
    next: VecDeque<Call>,
    /// Trains that were granted in this session, the latest last.
    granted: Vec<Pair>,
}

impl Calls {
    /// The first session uses up every ticket where the run is long enough for it.
    pub fn new(seed: u64, count: u64) -> Calls {
        let all_tickets = count >= 1_000_000;
        let mut calls = Calls {
            random: Random::new(seed),
            bench: Bench { session: Session::new(), foreign: false },
            plan: if all_tickets { Plan::Tickets } else { Plan::Day },
            left: if all_tickets { 2 * LAST_TICKET + 20 } else { 500 },
            next: VecDeque::new(),
            granted: Vec::new(),
        };
        calls.next.push_back(Call::new(Kind::SessionSize, &[]));
        calls.next.push_back(Call::new(Kind::LongestRecord, &[]));
        calls.next.extend(mode_steps::series());
        calls.next.push_back(Call::new(Kind::Start, &[]));
        calls
    }

    /// The next call, and what the model says of it. A mode step is two calls, one of each engine, and no run ends between them.
    pub fn next(&mut self) -> impl Iterator<Item = (Call, Expected)> + '_ {
        let call = match self.next.pop_front() {
            Some(call) => call,
            None => self.choose(),
        };
        let plain = mode_steps::by_the_plain_engine(&call);
        once(call).chain(plain).map(|call| {
            let expected = self.bench.expect(&call);
            self.remember(&call, &expected);
            (call, expected)
        })
    }

    fn remember(&mut self, call: &Call, expected: &Expected) {
        let Expected::Known { words: [0, ticket, ..], .. } = expected else {
            return;
        };
        match call.kind {
            Kind::Request => self.granted.push(Pair { loco: call.n[0], ticket: *ticket }),
            Kind::RunRecord if records::is_request(call) => {
                self.granted.push(Pair { loco: records::loco(call), ticket: *ticket })
            }
            _ => {}
        }
    }

    fn choose(&mut self) -> Call {
        if self.plan == Plan::Tickets {
            return self.use_up_tickets();
        }
        if self.left == 0 {
            return self.begin();
        }
        self.left -= 1;
        if self.random.chance(50) {
            return packets::call(&mut self.random);
        }
        if self.plan == Plan::Damaged && self.random.chance(3) {
            return Call::new(Kind::Poke, &[self.offset_to_poke(), self.random.below(256)]);
        }
        if self.random.below(400) == 0 {
            self.sweep();
        }
        let mut call = self.on_session();
        if self.random.chance(15) {
            call = records::call(&mut self.random, &call);
        }
        if self.random.chance(2) {
            call.lent = self.other_length();
        }
        call
    }

    /// Requests and releases of one loco, until the counter is at its last number.
    fn use_up_tickets(&mut self) -> Call {
        if self.left == 0 {
            return self.begin();
        }
        self.left -= 1;
        match self.bench.session.train(0) {
            Some(train) => Call::new(Kind::Release, &[train.loco, train.ticket]),
            None => Call::new(Kind::Request, &[1 + self.left % 131_070, 1 + self.left % 324]),
        }
    }

    /// Asks the session that ends every question, and begins another.
    fn begin(&mut self) -> Call {
        self.sweep();
        self.plan = self.random.pick(&PLANS);
        self.left = self.random.from(1, 2_000);
        self.granted.clear();
        let mut first = Call::new(Kind::Start, &[]);
        if self.random.chance(10) {
            first.lent = self.other_length();
            self.next.push_back(first.clone());
            first.lent = SESSION;
        }
        if self.plan == Plan::Foreign {
            first = Call::new(Kind::Fill, &[]).with(self.foreign_bytes());
        }
        self.next.push_back(first);
        self.next.pop_front().expect("the first question")
    }

    /// Random bytes, or bytes of which few are not zero.
    fn foreign_bytes(&mut self) -> Vec<u8> {
        let mut bytes = self.random.bytes(SESSION as usize);
        if self.random.chance(50) {
            bytes.iter_mut().filter(|byte| **byte > 20).for_each(|byte| *byte = 0);
        }
        bytes
    }

    /// The offset of a byte near the front, where what stands is kept, more often than of one of the log behind it.
    fn offset_to_poke(&mut self) -> u32 {
        if self.random.chance(70) {
            self.random.below(SESSION / 12)
        } else {
            self.random.below(SESSION)
        }
    }

    fn other_length(&mut self) -> u32 {
        match self.random.below(4) {
            0 => self.random.pick(&[0, 1, SESSION - 1, SESSION + 1]),
            1 => self.random.below(SESSION),
            _ => SESSION + self.random.from(1, LONGER),
        }
    }

    /// Every question, of every row and slot.
    fn sweep(&mut self) {
        self.next.push_back(Call::new(Kind::Counter, &[]));
        self.next.push_back(Call::new(Kind::Kept, &[]));
        self.next.extend((0..ROWS as u32 + 2).map(|row| Call::new(Kind::Train, &[row])));
        self.next.extend((0..SLOTS + 2).map(|slot| Call::new(Kind::IsTaken, &[slot])));
        let live: Vec<Pair> = self.live();
        self.next.extend(live.iter().map(|pair| Call::new(Kind::End, &[pair.loco, pair.ticket])));
    }

    fn live(&self) -> Vec<Pair> {
        let rows = (0..ROWS as u32).filter_map(|row| self.bench.session.train(row));
        rows.map(|train| Pair { loco: train.loco, ticket: train.ticket }).collect()
    }

    fn on_session(&mut self) -> Call {
        use Kind::*;
        let kind = match self.plan {
            Plan::Full if self.random.chance(4) => self.random.pick(&[Release, StepBack]),
            Plan::Full => self.random.pick(&[Request, Request, Flags, Flags, Position, Sos, Sos, Sos, Sos, Clear]),
            Plan::Crowded => self.random.pick(&[Request, Request, Request, Release, Flags, StepBack]),
            Plan::Back => self.random.pick(&[
                Request, Flags, Position, Position, Authority, Danger, Sos, Position, Position, Authority, Danger,
                Flags, Position, Authority, Danger, Release, StepBack,
            ]),
            _ => self.random.pick(&[
                Request, Request, Release, Flags, Flags, Flags, Position, Position, Authority, Authority, Danger, Sos,
                Sos, Sos, Clear, Clear, StepBack, Counter, Kept, IsTaken, End, End, Train,
            ]),
        };
        self.call_of(kind)
    }

    fn call_of(&mut self, kind: Kind) -> Call {
        let Pair { loco, ticket } = self.name();
        match kind {
            Kind::Request => Call::new(kind, &[self.new_loco(), self.bytes()]),
            Kind::Release | Kind::End => Call::new(kind, &[loco, ticket]),
            Kind::Flags => Call::new(kind, &[loco, ticket]).with(self.flags(Pair { loco, ticket })),
            Kind::Position => self.position(loco, ticket),
            Kind::Authority | Kind::Danger => Call::new(kind, &[loco, ticket, self.location_or_none()]),
            Kind::Sos => self.sos(),
            Kind::Clear => Call::new(kind, &[loco, ticket, self.other_ticket(Pair { loco, ticket })]),
            Kind::StepBack => Call::new(kind, &[self.steps()]),
            Kind::IsTaken => Call::new(kind, &[self.either(50, |random| random.below(50))]),
            Kind::Train => Call::new(kind, &[self.either(50, |random| random.below(30))]),
            _ => Call::new(kind, &[]),
        }
    }

    /// A number by a rule, or in the plan of hostile numbers, and else at times, any number.
    fn either(&mut self, hostile: u32, rule: impl FnOnce(&mut Random) -> u32) -> u32 {
        let any = if self.plan == Plan::Hostile { hostile } else { 4 };
        if self.random.chance(any) {
            self.random.number()
        } else {
            rule(&mut self.random)
        }
    }

    fn new_loco(&mut self) -> u32 {
        self.either(40, |random| if random.chance(90) { random.from(1, 40) } else { random.from(1, 131_070) })
    }

    fn bytes(&mut self) -> u32 {
        let most = match self.plan {
            Plan::Full | Plan::Back => 60,
            Plan::Crowded => 324,
            _ => 160,
        };
        self.either(40, |random| random.from(1, most))
    }

    /// A live train, a train that was granted once, parts of two, or any numbers.
    fn name(&mut self) -> Pair {
        let live = self.live();
        let any = if self.plan == Plan::Hostile { 50 } else { 5 };
        if self.random.chance(any) || self.granted.is_empty() {
            return Pair { loco: self.random.number(), ticket: self.random.number() };
        }
        if !live.is_empty() && self.random.chance(90) {
            return self.random.pick(&live);
        }
        let (one, other) = (self.random.pick(&self.granted), self.random.pick(&self.granted));
        match self.random.below(4) {
            0 => one,
            1 => Pair { loco: one.loco, ticket: other.ticket },
            // the same where a ticket or a loco were cut to 16 bits
            2 => Pair { loco: one.loco, ticket: one.ticket + 65_536 },
            _ => Pair { loco: one.loco.wrapping_add(65_536), ticket: one.ticket },
        }
    }

    fn location(&mut self) -> u32 {
        self.either(40, |random| if random.chance(50) { random.from(0, 2_000) } else { random.from(0, LAST_LOCATION) })
    }

    fn location_or_none(&mut self) -> u32 {
        if self.random.chance(12) {
            NONE
        } else {
            self.location()
        }
    }

    fn position(&mut self, loco: u32, ticket: u32) -> Call {
        let (one, other) = (self.location(), self.location());
        let (front, rear) = if self.random.chance(95) { (one.max(other), one.min(other)) } else { (one, other) };
        Call::new(Kind::Position, &[loco, ticket, front, rear])
    }

    /// In a full register mostly for one of few trains, so that its places for orders run out.
    fn sos(&mut self) -> Call {
        let (mut two, one) = (self.name(), self.name());
        if self.plan == Plan::Full && self.random.chance(60) {
            two = self.live().get(self.random.below(4) as usize).copied().unwrap_or(two);
        }
        let grid = self.either(30, |random| random.from(1, 4));
        Call::new(Kind::Sos, &[two.loco, two.ticket, one.loco, one.ticket, grid])
    }

    /// The ticket of an order that the train holds, if there is one.
    fn other_ticket(&mut self, name: Pair) -> u32 {
        let holder =
            (0..ROWS as u32).filter_map(|row| self.bench.session.train(row)).find(|train| train.ticket == name.ticket);
        let held: Vec<u32> =
            holder.iter().flat_map(|train| train.orders.iter().flatten().map(|order| order.other)).collect();
        if held.is_empty() || self.random.chance(20) {
            return self.either(50, |random| random.below(60));
        }
        self.random.pick(&held)
    }

    fn steps(&mut self) -> u32 {
        let kept = self.bench.session.entries_kept();
        let most = if self.plan == Plan::Back { kept } else { kept.min(3) };
        self.either(30, |random| if random.chance(90) { random.from(0, most) } else { kept + random.below(3) })
    }

    /// Flags that open a transition of the train's mode, or others; at times of another length, or with a flag that is none.
    fn flags(&mut self, name: Pair) -> Vec<u8> {
        let holder =
            (0..ROWS as u32).filter_map(|row| self.bench.session.train(row)).find(|train| train.ticket == name.ticket);
        let mode = holder.map_or(1, |train| train.mode);
        mode_steps::flags_for(&mut self.random, mode)
    }
}
