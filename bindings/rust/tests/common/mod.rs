//! What several tests use: tables of any lengths, and a pool's call driven to its end.
#![allow(dead_code)]

#[cfg(feature = "alloc")]
use saltbalance::{Answer, Pool};
use saltbalance::{Device, Id, Lengths, Millis, Refusal, Shape, Tables};

/// Tables of any lengths and contents, and the record, to be lent.
#[derive(Clone, Debug, PartialEq, Eq)]
pub struct Lent {
    pub device: Device,
    pub states: Vec<u8>,
    pub owners: Vec<u8>,
    pub lists: Vec<u16>,
    pub calls: Vec<u64>,
    pub queue: Vec<u8>,
}

impl Lent {
    /// Tables of zeros with these lengths.
    pub fn zeros(lengths: Lengths) -> Lent {
        Lent {
            device: Device::default(),
            states: vec![0; lengths.states],
            owners: vec![0; lengths.owners],
            lists: vec![0; lengths.lists],
            calls: vec![0; lengths.calls],
            queue: vec![0; lengths.queue],
        }
    }

    /// The tables of a fresh pool in which thread 0 runs.
    pub fn fresh(shape: Shape) -> Lent {
        let mut lent = Lent::zeros(shape.lengths().unwrap());
        lent.tables(|device, mut tables| {
            tables.build(device, shape).unwrap();
            tables.switch(device, shape, 0).unwrap();
        });
        lent
    }

    /// Lends the tables to some calls.
    pub fn tables<T>(&mut self, calls: impl FnOnce(&mut Device, Tables<'_>) -> T) -> T {
        let tables = Tables {
            states: &mut self.states,
            owners: &mut self.owners,
            lists: &mut self.lists,
            calls: &mut self.calls,
            queue: &mut self.queue,
        };
        calls(&mut self.device, tables)
    }

    /// The refusals of all calls but build, in the order ask, go on, give back, switch, tick, whole, cover, map.
    pub fn refusals(&mut self, shape: Shape) -> [Option<Refusal>; 8] {
        let mut row = [Id(7); 1];
        let refusals = self.tables(|device, mut tables| {
            [
                tables.ask(*device, shape, 0, 0, Millis::NONE).err(),
                tables.go_on(device, shape, 0).err(),
                tables.give_back(*device, shape, 0, Id(1)).err(),
                tables.switch(device, shape, 0).err(),
                tables.tick(device, shape).err(),
                tables.whole(*device, shape).err(),
                tables.cover(*device, shape, 0).err(),
                tables.map(*device, shape, &mut row).err(),
            ]
        });
        assert_eq!(row, [Id(7)], "a refused map leaves its row");
        refusals
    }
}

/// Thread t runs, asks for a size without waiting, and goes on to the grant or to the refusal.
#[cfg(feature = "alloc")]
pub fn take(pool: &mut Pool, thread: usize, size: usize) -> Result<Id, Refusal> {
    pool.switch(thread)?;
    pool.ask(thread, size, Millis::NONE)?;
    loop {
        if let Answer::Granted { id } = pool.go_on(thread)? {
            return Ok(id);
        }
    }
}

/// Thread t runs, gives the block back, and goes on until it has settled.
#[cfg(feature = "alloc")]
pub fn bring_home(pool: &mut Pool, thread: usize, id: Id) -> Result<(), Refusal> {
    pool.switch(thread)?;
    pool.give_back(thread, id)?;
    while !matches!(pool.go_on(thread)?, Answer::Settled { .. }) {}
    Ok(())
}
