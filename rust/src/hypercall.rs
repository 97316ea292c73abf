//! Hypercalls that have no answer.

use crate::descriptor::Descriptor;
use crate::numbers::ObjectSelector;
use crate::words::{CREATE_EC, CREATE_PD, CREATE_PT, CREATE_SC, CREATE_SM, REVOKE, SM_CTRL};

/// A hypercall that has no answer; [`crate::Tables::call`] and
/// [`crate::Tables::lookup`] are those that have one. Selectors are read in the
/// caller's domain. `new` names the place that the created object's capability
/// is put in, `pd` a PD capability that lets objects of this kind be created.
#[derive(Clone, Copy, PartialEq, Eq, Debug)]
pub enum Hypercall {
    /// Makes a protection domain.
    CreatePd {
        /// Selector of the new capability.
        new: ObjectSelector,
        /// Selector of a PD capability.
        pd: ObjectSelector,
        /// The caller's object range that is delegated to the new domain first.
        initial: Descriptor,
    },
    /// Makes an execution context in the domain of the named PD.
    CreateEc {
        /// Selector of the new capability.
        new: ObjectSelector,
        /// Selector of a PD capability.
        pd: ObjectSelector,
        /// The CPU, below 4.
        cpu: u32,
        /// Where the event portals begin.
        event_base: EventBase,
    },
    /// Makes a scheduling context.
    CreateSc {
        /// Selector of the new capability.
        new: ObjectSelector,
        /// Selector of a PD capability.
        pd: ObjectSelector,
        /// Selector of an EC capability to bind it to.
        ec: ObjectSelector,
        /// Priority and quantum.
        qpd: Qpd,
    },
    /// Makes a portal.
    CreatePt {
        /// Selector of the new capability.
        new: ObjectSelector,
        /// Selector of a PD capability.
        pd: ObjectSelector,
        /// Selector of an EC capability to bind it to.
        ec: ObjectSelector,
        /// The message transfer descriptor.
        mtd: u32,
        /// The entry instruction pointer.
        ip: u32,
        /// The identifier.
        identifier: u32,
    },
    /// Makes a semaphore.
    CreateSm {
        /// Selector of the new capability.
        new: ObjectSelector,
        /// Selector of a PD capability.
        pd: ObjectSelector,
        /// The first count.
        count: u32,
    },
    /// Removes the mask's permissions from all that was lent from a range.
    Revoke {
        /// The range, with the permissions to remove as its mask. A mask without a permission
        /// of the range's space gives BAD_PAR: in memory one without a bit of 7, in I/O one
        /// without bit 0, for objects mask 0.
        range: Descriptor,
        /// Whether the range loses them too.
        with_self: bool,
    },
    /// Counts a semaphore up or down.
    SmCtrl {
        /// Selector of an SM capability.
        semaphore: ObjectSelector,
        /// Which of the two.
        operation: Operation,
    },
}

/// What SM_CTRL does.
#[derive(Clone, Copy, PartialEq, Eq, Debug)]
pub enum Operation {
    /// Adds 1.
    Up = 0,
    /// Takes 1 away.
    Down = 1,
}

/// The object selector where the event portals of an execution context begin. It
/// is stored; no hypercall that is built uses it.
#[derive(Clone, Copy, PartialEq, Eq, Debug, Hash)]
pub struct EventBase(ObjectSelector);

impl EventBase {
    /// The event base at a selector.
    pub const fn at(selector: ObjectSelector) -> EventBase {
        EventBase(selector)
    }

    /// The selector that it is at.
    pub const fn selector(self) -> ObjectSelector {
        self.0
    }
}

/// Priority and quantum of a scheduling context.
#[derive(Clone, Copy, PartialEq, Eq, Debug)]
pub struct Qpd(u32);

impl Qpd {
    /// The word of a priority and a quantum of at most 20 bits.
    pub const fn new(priority: u8, quantum: u32) -> Option<Qpd> {
        if quantum < 1 << 20 {
            Some(Qpd(quantum << 12 | priority as u32))
        } else {
            None
        }
    }
}

impl Hypercall {
    /// The hypercall's number and its words after the caller, as
    /// [`crate::words::hypercall`] takes them.
    pub const fn words(self) -> (u32, [u32; 6]) {
        match self {
            Hypercall::CreatePd { new, pd, initial } => {
                (CREATE_PD, [new.number(), pd.number(), initial.word(), 0, 0, 0])
            }
            Hypercall::CreateEc { new, pd, cpu, event_base } => {
                (CREATE_EC, [new.number(), pd.number(), cpu, event_base.0.number(), 0, 0])
            }
            Hypercall::CreateSc { new, pd, ec, qpd } => {
                (CREATE_SC, [new.number(), pd.number(), ec.number(), qpd.0, 0, 0])
            }
            Hypercall::CreatePt { new, pd, ec, mtd, ip, identifier } => {
                (CREATE_PT, [new.number(), pd.number(), ec.number(), mtd, ip, identifier])
            }
            Hypercall::CreateSm { new, pd, count } => {
                (CREATE_SM, [new.number(), pd.number(), count, 0, 0, 0])
            }
            Hypercall::Revoke { range, with_self } => {
                (REVOKE, [range.word(), with_self as u32, 0, 0, 0, 0])
            }
            Hypercall::SmCtrl { semaphore, operation } => {
                (SM_CTRL, [semaphore.number(), operation as u32, 0, 0, 0, 0])
            }
        }
    }
}
