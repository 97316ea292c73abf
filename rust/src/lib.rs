//! A safe interface to Rudozhev, the proved capability side of a small
//! hypervisor: who holds which memory page, I/O port or kernel object, who lent
//! it to whom, and what happens when it is taken back.
//!
//! The proved functions lie in a static library, which the build script finds.
//! [`words`] has them over lent slices of any length and content. [`Tables`]
//! owns the words of both tables and takes typed calls. [`hip`] reads and writes
//! the information page. None allocates, and a refused call is a value, such as
//! [`Refusal`], that has changed nothing.
//!
//! ```
//! use rudozhev::{
//!     Block, Descriptor, EventBase, Hotspot, Hypercall, Item, ObjectNumber, ObjectSelector, Refusal,
//!     Space, Tables,
//! };
//!
//! # fn main() -> Result<(), Refusal> {
//! let [pd, new_ec, new_portal] = [32, 35, 36].map(|number| ObjectSelector::new(number).unwrap());
//! let mut tables = Tables::booted();
//! tables.hypercall(
//!     ObjectNumber::ROOT_EC,
//!     Hypercall::CreateEc { new: new_ec, pd, cpu: 0, event_base: EventBase::at(ObjectSelector::FIRST) },
//! )?;
//! tables.hypercall(
//!     ObjectNumber::ROOT_EC,
//!     Hypercall::CreatePt { new: new_portal, pd, ec: new_ec, mtd: 0, ip: 0, identifier: 0 },
//! )?;
//!
//! // The root takes ports 8 to 15 of the hypervisor.
//! let ports = Descriptor::new(Space::Io, 8, 3, Descriptor::FULL_MASK).unwrap();
//! let (mut sent, mut received) = (Block::new(), Block::new());
//! received.set_windows(Descriptor::NULL, ports);
//! let item = Item::Delegate { range: ports, hotspot: Hotspot::ZERO, from_hypervisor: true };
//! sent.set_message(&[], &[item]).unwrap();
//! assert_eq!(tables.call(ObjectNumber::ROOT_EC, new_portal, &sent, &mut received)?, 8);
//!
//! let found = tables.lookup(ObjectNumber::ROOT_EC, ports)?;
//! assert_eq!(found.map(|range| (range.base(), range.order())), Some((8, 3)));
//! # Ok(())
//! # }
//! ```

#![no_std]
#![deny(missing_docs)]

mod descriptor;
pub mod hip;
mod hypercall;
mod message;
mod numbers;
mod refusal;
mod tables;
pub mod words;

pub use descriptor::Descriptor;
pub use hypercall::{EventBase, Hypercall, Operation, Qpd};
pub use message::{Block, Hotspot, Item, Reason, Received, TooLong};
pub use numbers::{Domain, ObjectNumber, ObjectSelector, Place, Selector, Space};
pub use refusal::Refusal;
pub use tables::{Capability, Tables};
pub use words::{Damage, Location};
