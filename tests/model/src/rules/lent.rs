//! What the caller lends to each call: a shape, a record and five flat tables.

use super::shape::Shape;

/// The six states of a block.
pub const ALLOCATED: u8 = 0;
pub const FREE: u8 = 1;
pub const DIVIDED: u8 = 2;
pub const NOEXIST: u8 = 3;
pub const FREEING: u8 = 4;
pub const ALLOCATING: u8 = 5;

/// The stages of a thread's call.
pub const CLOSED: u64 = 0;
pub const ASKED: u64 = 1;
pub const FOUND: u64 = 2;
pub const DIVIDING: u64 = 3;
pub const RELEASING: u64 = 4;
pub const WAITING: u64 = 5;

/// The kinds of wait.
pub const NEVER: u64 = 0;
pub const FOREVER: u64 = 1;
pub const TIMED: u64 = 2;

/// How many cells a thread has in the table of calls.
pub const CELLS: usize = 6;

/// The clock, and who runs: 0 for nobody, t + 1 for thread t.
#[derive(Clone, Copy, Debug, PartialEq, Eq)]
pub struct Record {
    pub clock: u32,
    pub running: u32,
}

/// The five tables, of any lengths and with any contents.
#[derive(Clone, Debug, PartialEq, Eq)]
pub struct Tables {
    /// A state for each block, level 0 first.
    pub states: Vec<u8>,
    /// An owner for each block: 0 for nobody, t + 1 for thread t.
    pub owners: Vec<u8>,
    /// The length of each level's free list, then a section for each level.
    pub lists: Vec<u16>,
    /// Six cells a thread.
    pub calls: Vec<u64>,
    /// The number of waiting threads, then those threads in order.
    pub queue: Vec<u8>,
}

/// All that is lent to one call.
#[derive(Clone, Debug, PartialEq, Eq)]
pub struct Lent {
    pub shape: Shape,
    pub record: Record,
    pub tables: Tables,
}

/// A thread's six cells in the table of calls.
#[derive(Clone, Copy, Debug, Default, PartialEq, Eq)]
pub struct Cells {
    pub stage: u64,
    pub size: u64,
    pub kind: u64,
    pub deadline: u64,
    /// The found level, or the level of the block in hand.
    pub level: u64,
    /// The block in hand.
    pub block: u64,
}

impl Tables {
    /// Tables of the right lengths for an allowed shape, filled with zeros.
    pub fn zeros(shape: &Shape) -> Tables {
        Tables {
            states: vec![0; shape.blocks()],
            owners: vec![0; shape.blocks()],
            lists: vec![0; shape.levels + shape.blocks()],
            calls: vec![0; CELLS * shape.threads],
            queue: vec![0; shape.threads + 1],
        }
    }
}

impl Lent {
    /// Does each table have the length that follows from the (allowed) shape?
    pub fn lengths_right(&self) -> bool {
        let (shape, tables) = (&self.shape, &self.tables);
        tables.states.len() == shape.blocks()
            && tables.owners.len() == shape.blocks()
            && tables.lists.len() == shape.levels + shape.blocks()
            && tables.calls.len() == CELLS * shape.threads
            && tables.queue.len() == shape.threads + 1
    }
}

/// Reading and writing by level, block and thread, once the shape is allowed and the lengths are right.
impl Lent {
    /// The states of a level's blocks, in the blocks' order.
    pub fn states_of(&self, level: usize) -> &[u8] {
        let start = self.shape.place(level, 0);
        &self.tables.states[start..start + self.shape.count(level)]
    }

    pub fn state(&self, level: usize, block: usize) -> u8 {
        self.states_of(level)[block]
    }

    pub fn set_state(&mut self, level: usize, block: usize, state: u8) {
        let place = self.shape.place(level, block);
        self.tables.states[place] = state;
    }

    pub fn owner(&self, level: usize, block: usize) -> u8 {
        self.tables.owners[self.shape.place(level, block)]
    }

    pub fn set_owner(&mut self, level: usize, block: usize, owner: u8) {
        let place = self.shape.place(level, block);
        self.tables.owners[place] = owner;
    }

    /// The length that a level's free list is said to have, whether its section has room for it or not.
    pub fn list_length(&self, level: usize) -> usize {
        self.tables.lists[level] as usize
    }

    /// A level's section of the lists: a place for each block of the level.
    pub fn list_section(&self, level: usize) -> &[u16] {
        let start = self.shape.levels + self.shape.place(level, 0);
        &self.tables.lists[start..start + self.shape.count(level)]
    }

    /// The members of a level's free list, in order.
    pub fn list(&self, level: usize) -> Vec<usize> {
        let section = self.list_section(level).iter();
        section.take(self.list_length(level)).map(|&member| member as usize).collect()
    }

    /// Writes a level's free list: its length, its members, and zeros behind them.
    pub fn set_list(&mut self, level: usize, members: &[usize]) {
        let start = self.shape.levels + self.shape.place(level, 0);
        self.tables.lists[level] = members.len() as u16;
        for position in 0..self.shape.count(level) {
            let member = members.get(position).copied().unwrap_or(0);
            self.tables.lists[start + position] = member as u16;
        }
    }

    /// The number of waiting threads that the queue is said to have.
    pub fn queue_length(&self) -> usize {
        self.tables.queue[0] as usize
    }

    /// The threads in the queue, in order.
    pub fn queue(&self) -> Vec<usize> {
        let places = self.tables.queue[1..].iter();
        places.take(self.queue_length()).map(|&thread| thread as usize).collect()
    }

    /// Writes the queue: its length, its threads, and zeros behind them.
    pub fn set_queue(&mut self, threads: &[usize]) {
        self.tables.queue[0] = threads.len() as u8;
        for position in 0..self.shape.threads {
            let thread = threads.get(position).copied().unwrap_or(0);
            self.tables.queue[1 + position] = thread as u8;
        }
    }

    /// A thread's six cells.
    pub fn cells(&self, thread: usize) -> Cells {
        let cells = &self.tables.calls[CELLS * thread..][..CELLS];
        Cells {
            stage: cells[0],
            size: cells[1],
            kind: cells[2],
            deadline: cells[3],
            level: cells[4],
            block: cells[5],
        }
    }

    pub fn set_cells(&mut self, thread: usize, cells: Cells) {
        let six = [cells.stage, cells.size, cells.kind, cells.deadline, cells.level, cells.block];
        self.tables.calls[CELLS * thread..][..CELLS].copy_from_slice(&six);
    }

    /// The cells of all threads, in the threads' order.
    pub fn all_cells(&self) -> Vec<Cells> {
        (0..self.shape.threads).map(|thread| self.cells(thread)).collect()
    }
}
