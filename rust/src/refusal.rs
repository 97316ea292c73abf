//! Statuses other than SUCCESS.

use core::error::Error;
use core::fmt;

/// Why a call was refused. It changed no word of tables, blocks and lists.
#[derive(Clone, Copy, PartialEq, Eq, Debug, Hash)]
pub enum Refusal {
    /// The callee is the caller, or a semaphore is at 0.
    ComTim,
    /// The hypercall number is not built.
    BadHyp,
    /// A capability is missing, or a new place is taken.
    BadCap,
    /// A parameter is out of its bounds, or a REVOKE's mask has no permission of its space.
    BadPar,
    /// A CPU does not exist, or is not the caller's.
    BadCpu,
    /// No object record is free, or no further domain is left.
    NoRoom,
    /// The tables break a rule of soundness; for a repair, they still would after it.
    Damaged,
    /// The caller's number is not that of an execution context.
    BadCaller,
    /// The lent list is too short.
    Short {
        /// The number of words that the list needs.
        needed: u32,
    },
    /// A status that the interface does not list, or one that has an answer beside
    /// it and should not; the proved functions never reply so.
    Unknown(u32),
}

impl Refusal {
    /// Reads a reply: the status in its high half, the answer in its low half.
    pub(crate) const fn read(reply: u64) -> Result<u32, Refusal> {
        Err(match ((reply >> 32) as u32, reply as u32) {
            (0, answer) => return Ok(answer),
            (1, 0) => Refusal::ComTim,
            (3, 0) => Refusal::BadHyp,
            (4, 0) => Refusal::BadCap,
            (5, 0) => Refusal::BadPar,
            (7, 0) => Refusal::BadCpu,
            (16, 0) => Refusal::NoRoom,
            (17, 0) => Refusal::Damaged,
            (18, 0) => Refusal::BadCaller,
            (19, needed) => Refusal::Short { needed },
            (number, _) => Refusal::Unknown(number),
        })
    }

    /// The interface's number for this status.
    pub const fn number(self) -> u32 {
        match self {
            Refusal::ComTim => 1,
            Refusal::BadHyp => 3,
            Refusal::BadCap => 4,
            Refusal::BadPar => 5,
            Refusal::BadCpu => 7,
            Refusal::NoRoom => 16,
            Refusal::Damaged => 17,
            Refusal::BadCaller => 18,
            Refusal::Short { .. } => 19,
            Refusal::Unknown(number) => number,
        }
    }
}

impl fmt::Display for Refusal {
    fn fmt(&self, out: &mut fmt::Formatter) -> fmt::Result {
        match self {
            Refusal::ComTim => out.write_str("COM_TIM: the callee or the semaphore is not ready"),
            Refusal::BadHyp => out.write_str("BAD_HYP: the hypercall is not built"),
            Refusal::BadCap => {
                out.write_str("BAD_CAP: a capability is missing, or a place is taken")
            }
            Refusal::BadPar => out.write_str(
                "BAD_PAR: a parameter is out of its bounds, or a mask takes no permission",
            ),
            Refusal::BadCpu => out.write_str("BAD_CPU: a CPU does not exist, or is another"),
            Refusal::NoRoom => out.write_str("NO_ROOM: no record or domain is left"),
            Refusal::Damaged => out.write_str("DAMAGED: the tables are not sound"),
            Refusal::BadCaller => out.write_str("BAD_CALLER: the caller is no execution context"),
            Refusal::Short { needed } => write!(out, "SHORT: the list needs {needed} words"),
            Refusal::Unknown(number) => write!(out, "status {number}"),
        }
    }
}

impl Error for Refusal {}

#[cfg(test)]
mod tests {
    use super::*;

    #[test]
    fn every_status_has_its_number() {
        let reply = |status: u32, answer: u32| u64::from(status) << 32 | u64::from(answer);
        assert_eq!(Refusal::read(reply(0, 7)), Ok(7));
        for number in 1..40 {
            let refusal = Refusal::read(reply(number, 0)).expect_err("a refusal");
            assert_eq!(refusal.number(), number);
            let listed = [1, 3, 4, 5, 7, 16, 17, 18, 19].contains(&number);
            assert_eq!(refusal == Refusal::Unknown(number), !listed);
        }
        assert_eq!(Refusal::read(reply(4, 5)), Err(Refusal::Unknown(4)));
        assert_eq!(Refusal::read(reply(19, 5)), Err(Refusal::Short { needed: 5 }));
    }
}
