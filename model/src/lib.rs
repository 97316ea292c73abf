//! An independent model of the hypervisor's capability interface: boot, the
//! hypercalls, the census, the replay of journals, the information page and the
//! repair of found tables, as the interface manual (docs/INTERFACE.md) states them.
//!
//! Tables, blocks and lists are lent as slices of words. Every function
//! accepts any length and any content, and a refused call changes no word.

pub mod boot;
pub mod calls;
pub mod census;
pub mod damage;
pub mod descent;
pub mod descriptor;
pub mod dump;
pub mod dump_generator;
pub mod generator;
pub mod hip;
pub mod journal;
pub mod layout;
pub mod message;
pub mod page_generator;
pub mod random;
pub mod repair;
pub mod status;
pub mod stored;
pub mod tables;

pub use boot::boot;
pub use calls::{hypercall, serve, Arguments, Hypercall};
pub use census::census;
pub use damage::{damage, is_sound, Damage, Location};
pub use message::{untyped, Reason};
pub use repair::repair;
pub use status::{Reply, Status};
