//! The numbers that the harness uses: those of the header, and those that stand in the tables and in scripts.

pub mod state {
    pub const ALLOCATED: u8 = 0;
    pub const FREE: u8 = 1;
    pub const DIVIDED: u8 = 2;
    pub const NOEXIST: u8 = 3;
    pub const FREEING: u8 = 4;
    pub const ALLOCATING: u8 = 5;
}

pub mod stage {
    pub const CLOSED: u64 = 0;
    pub const DIVIDING: u64 = 3;
    pub const RELEASING: u64 = 4;
    pub const WAITING: u64 = 5;
}

pub mod wait {
    pub const NEVER: u64 = 0;
}

pub mod refusal {
    pub const NOT_VALID: usize = 3;
}

pub mod answer {
    pub const OPENED: usize = 40;
    pub const FOUND: usize = 41;
    pub const TAKEN: usize = 43;
    pub const SPLIT: usize = 44;
    pub const GRANTED: usize = 45;
    pub const MERGED: usize = 47;
    pub const SETTLED: usize = 48;
    pub const SWITCHED: usize = 49;
    pub const TICKED: usize = 50;
    pub const WHOLE: usize = 51;
    pub const NOT_WHOLE: usize = 52;
    pub const BUILT: usize = 53;
}

pub mod tag {
    pub const SHAPE: u8 = 1;
    pub const ASK: u8 = 2;
    pub const GO_ON: u8 = 3;
    pub const GIVE: u8 = 4;
    pub const SWITCH: u8 = 5;
    pub const TICK: u8 = 6;
    pub const WHOLE: u8 = 7;
}
