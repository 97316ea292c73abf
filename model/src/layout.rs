//! Sizes and limits of the interface, each named once.

/// Protection domains; domain 0 is the hypervisor, domain 1 the root.
pub const DOMAINS: u32 = 8;

/// Spaces of a domain: memory, I/O and object.
pub const SPACES: usize = 3;

/// Selectors of each space, a power of two. Object selectors and event bases
/// wrap at the object space's size; memory and I/O ranges must stay below theirs.
pub const SELECTORS: [u32; SPACES] = [64, 64, 256];

/// Where each space starts among its domain's places.
pub const SPACE_START: [u32; SPACES] = [0, SELECTORS[0], SELECTORS[0] + SELECTORS[1]];

/// Places of one domain.
pub const DOMAIN_PLACES: u32 = SELECTORS[0] + SELECTORS[1] + SELECTORS[2];

/// Places of all domains.
pub const PLACES: usize = (DOMAINS * DOMAIN_PLACES) as usize;

/// Words of a place: resource, permissions, parent place plus 1, depth.
pub const PLACE_WIDTH: usize = 4;

/// Words of the place table.
pub const PLACE_WORDS: usize = PLACES * PLACE_WIDTH;

/// Object records.
pub const OBJECTS: usize = 64;

/// Words of an object record: the kind and four more.
pub const OBJECT_WIDTH: usize = 5;

/// Words of the object table.
pub const OBJECT_WORDS: usize = OBJECTS * OBJECT_WIDTH;

/// Pages, and ports, that exist; their numbers lie below this.
pub const FRAMES: u32 = 64;

/// Deepest descent of a capability from one without a parent.
pub const DEPTH_LIMIT: u32 = 63;

/// CPUs, each with an idle scheduling context at boot.
pub const CPUS: u32 = 4;

/// Global system interrupts, each with a semaphore at boot.
pub const INTERRUPTS: u32 = 24;

/// Largest quantum of a scheduling context.
pub const QUANTUM_LIMIT: u32 = (1 << 20) - 1;

/// Largest priority of a scheduling context.
pub const PRIORITY_LIMIT: u32 = 255;

/// Words of a message block.
pub const BLOCK_WORDS: usize = 64;

/// Words of a message block before its data: counts, two windows, a spare.
pub const HEADER_WORDS: usize = 4;

/// Data words of a message block, shared by untyped words and typed items.
pub const DATA_WORDS: usize = BLOCK_WORDS - HEADER_WORDS;
