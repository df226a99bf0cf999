//! A call of the throttle with its arguments, and what it answers.

/// Which of the four calls.
#[derive(Clone, Copy, Debug, PartialEq, Eq)]
pub enum Kind {
    Setup,
    Request,
    Done,
    Index,
}

impl Kind {
    pub const ALL: [Kind; 4] = [Kind::Setup, Kind::Request, Kind::Done, Kind::Index];

    /// What this call can return, in the order of the tests.
    pub fn numbers(self) -> &'static [usize] {
        let done = &[0, 1, 2, 3, 4, 5, 16, 6, 7, 8, 9, 10];
        match self {
            Kind::Setup => &done[..8],
            Kind::Request | Kind::Index => &done[..11],
            Kind::Done => done,
        }
    }
}

/// A call; set-up takes none of the arguments, only a request takes the row.
#[derive(Clone, Copy, Debug)]
pub struct Call {
    pub kind: Kind,
    pub tick: u64,
    pub bank: u64,
    pub thread: u64,
    pub row: u16,
}

impl Call {
    pub fn is_request(&self) -> bool {
        self.kind == Kind::Request
    }

    pub const SETUP: Call = Call {
        kind: Kind::Setup,
        tick: 0,
        bank: 0,
        thread: 0,
        row: 0,
    };
}

/// The number a call returns, and out after it: answer, wait tick and openings
/// left of a request, or c, D and quota of an index reading.
#[derive(Clone, Copy, Debug, PartialEq, Eq)]
pub struct Answer {
    pub number: u32,
    pub out: [u64; 3],
}
