//! What calls take and return.
use crate::{fault_text, Rule};
use std::error::Error;
use std::fmt;

/// A domain of a run to start: its number, the number of its type in the policy, its frames, and its table.
#[repr(C)]
#[derive(Clone, Copy, Debug, PartialEq, Eq)]
pub struct Settings {
    pub id: u32,
    pub label: u32,
    pub frames: u32,
    pub table_frames: u32,
    pub version: u32,
}

/// Why a run did not start, or no type was found: a kind of `enum gthost_fault_kind`, with the line of the policy or the
/// domain.
#[derive(Clone, Copy, Debug, PartialEq, Eq)]
pub enum Fault {
    Memory,
    Policy { kind: u32, line: u32 },
    Config { kind: u32, dom: u32 },
}

/// An entry to grant.
#[derive(Clone, Copy, Debug, PartialEq, Eq)]
pub enum Entry<'b> {
    Page { to: u32, frame: u64, read_only: bool },
    Sub { to: u32, frame: u64, off: u32, len: u32, read_only: bool },
    Via { to: u32, dom: u32, gref: u32, read_only: bool },
    /// The bytes of an entry, as a guest writes it: 8 in a table of version 1, 16 in version 2.
    Bytes(&'b [u8]),
}

/// What a mapping allows.
#[derive(Clone, Copy, Debug, PartialEq, Eq)]
pub enum Access {
    Read,
    /// Reading and writing.
    Write,
}

/// The facts of a refusal.
#[derive(Clone, Copy, Debug, PartialEq, Eq)]
pub enum Facts {
    None,
    /// The policy denies the type `source` the permission (a number of `enum gthost_permission`) on the type `target`.
    Policy { source: u32, target: u32, permission: u32 },
    /// A field of an entry's bytes: a number of `enum gthost_field`.
    Field(u32),
    Header { dom: u32, word: u64 },
    Entry { dom: u32, gref: u32, word: u64 },
}

/// A refusal: the rule, its status in Xen's `grant_table.h`, and the facts.
#[derive(Clone, Copy, Debug, PartialEq, Eq)]
pub struct Refusal {
    pub rule: Rule,
    pub status: i32,
    pub facts: Facts,
}

/// The name of a mapping. A call of another domain, or of a run with another number, refuses it by N6.
#[repr(C)]
#[derive(Clone, Copy, Debug, PartialEq, Eq, Hash)]
pub struct Handle {
    pub(crate) serial: u64,
    pub(crate) key: usize,
    pub(crate) run: u32,
    pub(crate) dom: u32,
}

/// What is mapped: a frame of its owner, by the owner's entry `gref`.
#[repr(C)]
#[derive(Clone, Copy, Debug, Default, PartialEq, Eq)]
pub struct Mapping {
    pub frame: u64,
    pub gref: u32,
    pub owner: u32,
    pub(crate) writes: u32,
}

/// An end of a copy to ask for: a reference of a domain, the number of one of the caller's own frames, or memory of the
/// caller outside its frames. Ignore the place that is returned for memory: it is that of the caller's frame 0, which the
/// record of the copy names too.
#[derive(Clone, Copy, Debug, PartialEq, Eq)]
pub enum Side {
    Reference { dom: u32, gref: u32, off: u32 },
    Frame { dom: u32, frame: u64, off: u32 },
    Memory,
}

/// An end of a copy in a record: `ptr` is a reference, or the number of a frame, by the copy's flags.
#[repr(C)]
#[derive(Clone, Copy, Debug, Default, PartialEq, Eq)]
pub struct End {
    pub ptr: u64,
    pub dom: u32,
    pub off: u32,
}

/// A place: the byte `off` of the frame `frame` of `owner`.
#[repr(C)]
#[derive(Clone, Copy, Debug, Default, PartialEq, Eq)]
pub struct Place {
    pub frame: u64,
    pub owner: u32,
    pub off: u32,
}

/// The places of a copy: `len` bytes may be read at `from` and written at `to`.
#[repr(C)]
#[derive(Clone, Copy, Debug, Default, PartialEq, Eq)]
pub struct Places {
    pub from: Place,
    pub to: Place,
    pub len: u32,
}

/// The size of a table, in frames, and the largest size.
#[derive(Clone, Copy, Debug, PartialEq, Eq)]
pub struct Size {
    pub frames: u64,
    pub most: u64,
}

/// The kind of an entry.
#[derive(Clone, Copy, Debug, PartialEq, Eq)]
pub enum Kind {
    Invalid,
    Page,
    Sub,
    Via,
}

/// What one look at an entry found. Its pins are those of mappings and of copies under way.
#[derive(Clone, Copy, Debug, PartialEq, Eq)]
pub struct Status {
    pub kind: Kind,
    pub generation: u32,
    pub reads: u32,
    pub writes: u32,
    /// The domain that it permits, if it is valid.
    pub to: u32,
    pub read_only: bool,
    /// The domain that it permits, or permitted last if it is invalid; `None` if it was never granted.
    pub granted_to: Option<u32>,
}

/// What was done to an entry that followed its guest's bytes.
#[derive(Clone, Copy, Debug, PartialEq, Eq)]
pub enum Followed {
    /// Nothing: it was already what the bytes mean.
    Same,
    Demoted,
    Promoted,
    Withdrawn,
    /// It is now the entry that the bytes encode. Another valid one was withdrawn before.
    Granted,
}

/// What an unmap left: the control word of the entry just after it.
#[derive(Clone, Copy, Debug, PartialEq, Eq)]
pub struct Released {
    pub dom: u32,
    pub gref: u32,
    pub word: u64,
}

/// The number of records that a domain lost, and the number of its entries that others still use.
#[derive(Clone, Copy, Debug, PartialEq, Eq)]
pub struct Remains {
    pub lost: u64,
    pub in_use: u64,
}

/// The number of records taken, and the number lost before.
#[derive(Clone, Copy, Debug, PartialEq, Eq)]
pub struct Taken {
    pub records: u64,
    pub lost: u64,
}

/// A call that is recorded. A domain is named as the caller named it.
#[derive(Clone, Copy, Debug, PartialEq, Eq)]
pub enum Call {
    Map { dom: u32, gref: u32, flags: u32 },
    Unmap { dom: u32, gref: u32 },
    /// An unmap of a name under which the caller has no mapping.
    UnmapNone,
    Copy { source: End, dest: End, len: u32, flags: u32 },
    QuerySize { dom: u32 },
    GetVersion { dom: u32 },
    SetVersion { version: u32 },
    SetupTable { frames: u32 },
}

/// The record of a call.
#[derive(Clone, Copy, Debug, PartialEq, Eq)]
pub struct Record {
    pub caller: u32,
    pub call: Call,
    pub reply: Result<(), Refusal>,
}

impl Mapping {
    /// Whether the frame may be written.
    pub fn writes(&self) -> bool {
        self.writes != 0
    }
}

impl Released {
    /// The pins that the entry still has.
    pub fn pins(&self) -> u64 {
        (self.word >> 4 & 0xfff) + (self.word >> 16 & 0xfff)
    }
}

impl fmt::Display for Refusal {
    fn fmt(&self, f: &mut fmt::Formatter<'_>) -> fmt::Result {
        match self.status {
            0 => write!(f, "{}", self.rule),
            status => write!(f, "{} {status}", self.rule),
        }
    }
}

impl Error for Refusal {}

impl fmt::Display for Fault {
    fn fmt(&self, f: &mut fmt::Formatter<'_>) -> fmt::Result {
        match *self {
            Fault::Memory => f.write_str("allocation failed"),
            Fault::Policy { kind, line } => write!(f, "line {line} of the policy: {}", fault_text(kind)),
            Fault::Config { kind, dom } => write!(f, "domain {dom}: {}", fault_text(kind)),
        }
    }
}

impl Error for Fault {}
