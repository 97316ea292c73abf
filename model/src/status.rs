//! Status words and replies.

/// How a call ended; the numbers are the interface's.
#[derive(Clone, Copy, PartialEq, Eq, Debug, Hash)]
#[repr(u32)]
pub enum Status {
    Success = 0,
    /// The partner or the semaphore is not ready.
    ComTim = 1,
    /// The hypercall number is not built.
    BadHyp = 3,
    /// A capability is missing, or a new place is taken.
    BadCap = 4,
    /// A parameter is out of its bounds, or a REVOKE's mask has no permission of its space.
    BadPar = 5,
    /// A CPU does not exist, or is not the caller's.
    BadCpu = 7,
    /// No free object record, or no further domain.
    NoRoom = 16,
    /// The tables break one of the rules of soundness.
    Damaged = 17,
    /// The caller's number is not that of an execution context.
    BadCaller = 18,
    /// The lent list is too short; the answer is the count needed.
    Short = 19,
}

impl Status {
    /// The interface's number for this status.
    pub const fn number(self) -> u32 {
        self as u32
    }
}

/// What a call gives back beside the changed tables, blocks and lists.
#[derive(Clone, Copy, PartialEq, Eq, Debug)]
pub struct Reply {
    pub status: Status,
    pub answer: u32,
}

impl Reply {
    pub const fn success(answer: u32) -> Reply {
        Reply {
            status: Status::Success,
            answer,
        }
    }

    pub const fn refused(status: Status) -> Reply {
        Reply { status, answer: 0 }
    }
}

impl From<Result<u32, Status>> for Reply {
    fn from(result: Result<u32, Status>) -> Reply {
        match result {
            Ok(answer) => Reply::success(answer),
            Err(status) => Reply::refused(status),
        }
    }
}
