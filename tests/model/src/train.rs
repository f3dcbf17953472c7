//! A train's record: what it holds, its orders and its end of authority.

use crate::modes::{self, OV, SB};
use crate::sos;

pub const LAST_LOCATION: u32 = 524_287;

#[derive(Clone, Copy, PartialEq, Eq, Debug)]
pub struct Position {
    pub front: u32,
    pub rear: u32,
}

/// An order stands under the other train's ticket; without a limit it is bare.
#[derive(Clone, Copy, PartialEq, Eq, Debug)]
pub struct Order {
    pub other: u32,
    pub limit: Option<u32>,
}

#[derive(Clone, Copy, PartialEq, Eq, Debug)]
pub struct Train {
    pub loco: u32,
    pub ticket: u32,
    pub start: u32,
    pub slots: u32,
    pub mode: u32,
    /// The mode left for Override while the mode is OV, else 0.
    pub left: u32,
    pub position: Option<Position>,
    pub authority: Option<u32>,
    pub danger: Option<u32>,
    pub orders: [Option<Order>; 4],
}

impl Train {
    pub fn new(loco: u32, ticket: u32, start: u32, slots: u32) -> Train {
        Train {
            loco,
            ticket,
            start,
            slots,
            mode: SB,
            left: 0,
            position: None,
            authority: None,
            danger: None,
            orders: [None; 4],
        }
    }

    /// The effective end of authority.
    pub fn end(&self) -> Option<u32> {
        let granted = self.authority?;
        let danger = if self.mode == OV { None } else { self.danger };
        let limits = self.orders.iter().flatten().filter_map(|order| order.limit);
        Some(limits.chain(danger).fold(granted, u32::min))
    }

    /// The row class in the SOS grids.
    pub fn class(&self) -> Option<u32> {
        sos::class(self.mode, self.left)
    }

    pub fn with_mode(self, mode: u32) -> Train {
        let left = match (mode == OV, self.mode == OV) {
            (true, true) => self.left,
            (true, false) => self.mode,
            (false, _) => 0,
        };
        Train { mode, left, ..self }
    }

    /// The record with the order put where one under the same ticket stands, else at the first free place.
    pub fn with_order(self, order: Order) -> Option<Train> {
        let same = self.orders.iter().position(|held| held.is_some_and(|held| held.other == order.other));
        let place = same.or_else(|| self.orders.iter().position(Option::is_none))?;
        let mut changed = self;
        changed.orders[place] = Some(order);
        Some(changed)
    }

    /// The record without the order under that ticket.
    pub fn without_order(self, other: u32) -> Option<Train> {
        let place = self.orders.iter().position(|held| held.is_some_and(|held| held.other == other))?;
        let mut changed = self;
        changed.orders[place] = None;
        Some(changed)
    }

    pub fn step(self, flags: &[u8]) -> Result<(Train, modes::Step), u32> {
        let step = modes::step(self.mode, flags)?;
        Ok((self.with_mode(step.mode), step))
    }
}
