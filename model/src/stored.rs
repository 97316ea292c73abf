//! The journals that the gate runs the replay program on, in the order of its
//! arguments.

use crate::generator::{journal, Kind};

/// Where a journal comes from.
#[derive(Clone, Copy, Debug)]
pub enum Source {
    /// Standard input, with these bytes.
    Input(&'static [u8]),
    /// A file of these bytes.
    Bytes(&'static [u8]),
    /// A file of the bytes that this writes.
    Written(fn() -> Vec<u8>),
    /// A file that the generator makes from kind, seed and number of records.
    Generated(Kind, u64, usize),
    /// A file that is kept as it is; tests/vectors has its trace.
    Kept,
    /// A file that is not there.
    Absent,
}

impl Source {
    /// The bytes, where they do not come from a file alone.
    pub fn bytes(self) -> Option<Vec<u8>> {
        match self {
            Source::Input(bytes) | Source::Bytes(bytes) => Some(bytes.to_vec()),
            Source::Written(write) => Some(write()),
            Source::Generated(kind, seed, records) => Some(journal(kind, seed, records)),
            Source::Kept | Source::Absent => None,
        }
    }
}

/// The interface manual's whole example: CREATE_SM (29, 40, 32, 0), LOOKUP (29, 163843).
const EXAMPLE: &[u8] = &[
    6, 29, 0, 0, 0, 40, 0, 0, 0, 32, 0, 0, 0, 0, 0, 0, 0, 8, 29, 0, 0, 0, 3, 128, 2, 0,
];

/// The interface manual's example that is only run: the root takes pages 0 to 7 of
/// domain 0 as its pages 8 to 15, through a portal of its own, and looks up page 10.
fn pages_to_root() -> Vec<u8> {
    let root_ec = 29;
    let (root_pd, new_ec, new_pt) = (32, 35, 36);
    let mut bytes = Vec::new();
    let mut record = |kind: u8, words: &[u32]| {
        bytes.push(kind);
        for word in words {
            bytes.extend(word.to_le_bytes());
        }
    };
    record(3, &[root_ec, new_ec, root_pd, 0, 0]);
    record(5, &[root_ec, new_pt, root_pd, new_ec, 0, 0, 0]);
    let mut call = [0; 2 + 64 + 64];
    (call[0], call[1]) = (root_ec, new_pt);
    let (source, target) = call[2..].split_at_mut(64);
    source[0] = 1 << 16; // one typed item
    source[63] = 1 | 7 << 2 | 3 << 7; // memory, mask 7, order 3, base 0
    source[62] = 1 | 1 << 11; // delegate, H
    target[2] = 1 | 31 << 2 | 3 << 7 | 8 << 12; // memory, mask 31, order 3, base 8
    record(0, &call);
    record(8, &[root_ec, 1 | 10 << 12]);
    bytes
}

/// Each argument of the replay program with its journal.
pub const STORED: &[(&str, Source)] = &[
    ("-", Source::Input(EXAMPLE)),
    ("pages-to-root.journal", Source::Written(pages_to_root)),
    ("empty.journal", Source::Bytes(&[])),
    ("cut-after-kind.journal", Source::Bytes(&[6])),
    (
        "cut-one-byte-short.journal",
        Source::Bytes(&[8, 29, 0, 0, 0, 3, 128, 2]),
    ),
    ("cut-call-one-byte-short.journal", Source::Bytes(&[0; 520])),
    ("bad-alone.journal", Source::Bytes(&[1])),
    (
        "bad-last-byte.journal",
        Source::Bytes(&[8, 29, 0, 0, 0, 3, 128, 2, 0, 255]),
    ),
    (
        "bad-before-a-record.journal",
        Source::Bytes(&[12, 8, 29, 0, 0, 0, 3, 128, 2, 0]),
    ),
    (
        "caller-no-ec.journal",
        Source::Bytes(&[11, 0, 0, 0, 0, 0, 0, 0, 0, 0, 0, 0, 0]),
    ),
    ("absent.journal", Source::Absent),
    ("mixed-1.journal", Source::Kept),
    ("mixed-2.journal", Source::Kept),
    ("mixed-3.journal", Source::Kept),
    ("mixed-4.journal", Source::Kept),
    ("mixed-5.journal", Source::Kept),
    ("mixed-long.journal", Source::Kept),
    (
        "every-call-1.journal",
        Source::Generated(Kind::Mixed, 1, 200),
    ),
    (
        "every-call-2.journal",
        Source::Generated(Kind::Mixed, 2, 200),
    ),
    (
        "every-call-3.journal",
        Source::Generated(Kind::Mixed, 3, 200),
    ),
    (
        "every-call-long.journal",
        Source::Generated(Kind::Mixed, 4, 2_000),
    ),
    (
        "depth-limit-1.journal",
        Source::Generated(Kind::Deep, 3, 220),
    ),
    (
        "depth-limit-2.journal",
        Source::Generated(Kind::Deep, 5, 220),
    ),
    (
        "depth-limit-3.journal",
        Source::Generated(Kind::Deep, 50, 220),
    ),
    (
        "all-domains-1.journal",
        Source::Generated(Kind::Full, 1, 250),
    ),
    (
        "all-domains-2.journal",
        Source::Generated(Kind::Full, 2, 250),
    ),
    (
        "all-domains-long.journal",
        Source::Generated(Kind::Full, 4, 2_500),
    ),
    (
        "all-records-1.journal",
        Source::Generated(Kind::Spent, 1, 150),
    ),
    (
        "all-records-2.journal",
        Source::Generated(Kind::Spent, 2, 150),
    ),
    (
        "all-records-long.journal",
        Source::Generated(Kind::Spent, 3, 3_000),
    ),
    (
        "hypervisor-flag-1.journal",
        Source::Generated(Kind::Flagged, 16, 100),
    ),
    (
        "hypervisor-flag-2.journal",
        Source::Generated(Kind::Flagged, 2, 100),
    ),
    (
        "overlap-in-one-domain-1.journal",
        Source::Generated(Kind::Within, 34, 200),
    ),
    (
        "overlap-in-one-domain-2.journal",
        Source::Generated(Kind::Within, 4, 200),
    ),
    (
        "overlap-in-one-domain-3.journal",
        Source::Generated(Kind::Within, 3, 200),
    ),
    (
        "null-items-1.journal",
        Source::Generated(Kind::Null, 18, 200),
    ),
    (
        "null-items-2.journal",
        Source::Generated(Kind::Null, 26, 200),
    ),
    (
        "root-pages-1.journal",
        Source::Generated(Kind::Pages, 529, 250),
    ),
    (
        "root-pages-2.journal",
        Source::Generated(Kind::Pages, 20, 250),
    ),
    (
        "unrelated-words-1.journal",
        Source::Generated(Kind::Junk, 1, 150),
    ),
    (
        "unrelated-words-2.journal",
        Source::Generated(Kind::Junk, 2, 150),
    ),
    (
        "unrelated-words-long.journal",
        Source::Generated(Kind::Junk, 3, 2_000),
    ),
];
