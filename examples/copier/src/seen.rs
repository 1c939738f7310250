//! What the light sees in one lock, and the two rules by which a light may go green: the old pool's and this one's.

use crate::station::Shared;
use saltbalance::{Keeper, Shape, State};

#[derive(Clone, Copy)]
pub struct Seen {
    /// Orders that no task has taken yet.
    orders: usize,
    /// Blocks marked held, as the old pool counted them.
    pub held: usize,
    /// Threads that have a call open.
    pub open_calls: usize,
    /// Who keeps the pool from being whole, if anybody does.
    pub keeper: Option<Keeper>,
    /// Whether the pool says that it is whole.
    whole: bool,
}

impl Seen {
    pub fn now(shared: &Shared) -> Seen {
        let tables = shared.pool.tables();
        Seen {
            orders: shared.orders(),
            held: tables.states.iter().filter(|&&state| state == State::Allocated.number()).count(),
            open_calls: tables.calls.chunks(Shape::CELLS).filter(|call| call[0] != 0).count(),
            keeper: shared.pool.keeper().unwrap_or_default(),
            whole: shared.pool.is_whole(),
        }
    }

    /// The old rule: no orders are left and no block is marked held.
    pub fn old_rule(&self) -> bool {
        self.orders == 0 && self.held == 0
    }

    /// This pool's rule: no orders are left and the pool is whole.
    pub fn green(&self) -> bool {
        self.orders == 0 && self.whole
    }
}
