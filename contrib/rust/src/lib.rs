//! A safe wrapper of `libgthost.a`, the running monitor of grant tables.
//!
//! [`start`] returns a [`Domain`] for each domain of a run. A domain may move to another thread, and different threads
//! may use the domains of one run at the same time. No domain is shared, so each is in one call at a time. It leaves
//! its run when it is dropped. A copy is a guard that borrows its domain: until it is dropped the domain makes no other
//! call.
//!
//! The caller keeps the memory of the guests. Nothing here touches it, and nothing here stops the caller from touching
//! more than a [`Mapping`] or [`Places`] allows.
mod raw;
mod renewal;
mod rule;
mod types;

use std::fmt;

pub use renewal::renew;
pub use rule::{rule_text, Rule};
pub use types::{Access, Call, End, Entry, Facts, Fault, Followed, Handle, Kind, Mapping, Place, Places, Record, Refusal};
pub use types::{Released, Remains, Settings, Side, Size, Status, Taken};

/// A domain of a run. It leaves the run when it is dropped.
pub struct Domain {
    raw: raw::Domain, // its pointer makes it neither Send nor Sync by itself
}

// SAFETY: the library lets the handles of one run be used from different threads, each by one at a time. What safe code
// moves a `Domain` by orders the calls before the move and those after it (at least release and acquire), and that is
// what gthost.h asks.
unsafe impl Send for Domain {}

/// The mappings of a domain, each with its name, in the order of their keys.
#[derive(Debug)]
pub struct Mappings<'d> {
    domain: &'d mut Domain,
    from: usize,
}

/// A copy under way. When it is dropped, the copy ends and its pins are released.
#[derive(Debug)]
pub struct Copying<'d> {
    domain: &'d mut Domain,
    places: Places,
}

/// The number that names the caller.
const DOMID_SELF: u32 = 0x7FF0;

impl fmt::Debug for Domain {
    fn fmt(&self, f: &mut fmt::Formatter<'_>) -> fmt::Result {
        f.debug_struct("Domain").finish_non_exhaustive()
    }
}

// SAFETY of the next four: no pointer is passed but those of slices, with their lengths, so none is null.
fn fault_text(kind: u32) -> String {
    let text = unsafe { raw::gthost_fault_text(kind) };
    String::from_utf8_lossy(&text.bytes[..text.len]).into_owned()
}

/// Returns the version of the library: major, minor and patch.
pub fn version() -> (u32, u32, u32) {
    let number = unsafe { raw::gthost_version() };
    (number >> 16, number >> 8 & 0xff, number & 0xff)
}

fn fault(fault: raw::Fault) -> Result<(), Fault> {
    match fault.kind {
        0 => Ok(()),
        1 => Err(Fault::Memory),
        kind @ (3..=9 | 20) => Err(Fault::Policy { kind, line: fault.line }),
        kind => Err(Fault::Config { kind, dom: fault.dom }),
    }
}

/// Returns the label of the type of this name in a policy's text.
///
/// # Errors
/// The first fault of the policy, or that it declares no such type.
pub fn type_of(policy: &str, name: &str) -> Result<u32, Fault> {
    let report = unsafe { raw::gthost_type_of_at(policy.as_ptr(), policy.len(), name.as_ptr(), name.len()) };
    fault(report.fault).map(|()| report.label)
}

/// Returns the name of the type with this number in a policy's text: a label, or the `source` or `target` of a refusal by
/// N5.
///
/// # Errors
/// The first fault of the policy, or that it has no type of this number.
pub fn type_name(policy: &str, label: u32) -> Result<String, Fault> {
    let mut name = vec![0; policy.len()]; // a name is a part of its policy
    let report = unsafe {
        raw::gthost_type_name_at(policy.as_ptr(), policy.len(), label, name.as_mut_ptr(), name.len())
    };
    fault(report.fault)?;
    name.truncate(report.len);
    Ok(String::from_utf8_lossy(&name).into_owned())
}

/// Starts a run under a policy's text. All entries begin at the generation `first_gen`. The names of its mappings carry
/// the number `run`, so give each run of a process another one.
///
/// # Errors
/// The first fault of the policy, of the labels, or of the settings.
pub fn start(settings: &[Settings], first_gen: u32, run: u32, policy: &str) -> Result<Vec<Domain>, Fault> {
    let none = || raw::Domain { at: std::ptr::null_mut(), is_live: false };
    let mut out: Vec<raw::Domain> = settings.iter().map(|_| none()).collect();
    let started = unsafe {
        raw::gthost_start_at(
            settings.as_ptr(), settings.len(), first_gen, run, policy.as_ptr(), policy.len(), out.as_mut_ptr(), out.len(),
        )
    };
    fault(started).map(|()| out.into_iter().map(|raw| Domain { raw }).collect())
}

fn facts(answer: &raw::Answer) -> Facts {
    let raw::Answer { dom, gref, source, target, detail, word, .. } = *answer;
    match answer.kind {
        5 => Facts::Policy { source, target, permission: detail },
        6 => Facts::Field(detail),
        7 => Facts::Header { dom, word },
        8 => Facts::Entry { dom, gref, word },
        _ => Facts::None,
    }
}

fn judged(answer: raw::Answer) -> Result<raw::Answer, Refusal> {
    match answer.rule {
        0 => Ok(answer),
        rule => Err(Refusal { rule: Rule::of(rule), status: answer.status, facts: facts(&answer) }),
    }
}

// The name and the mapping in the answer to a map, or to a search for a mapping.
fn named(answer: raw::Answer) -> (Handle, Mapping) {
    let handle = Handle { serial: answer.value, key: answer.more as usize, run: answer.detail, dom: answer.dom };
    let mapping = Mapping { frame: answer.word, gref: answer.gref, owner: answer.source, writes: answer.target };
    (handle, mapping)
}

// An entry of any other length than 8 or 16 bytes is refused, so no more of it is passed on.
fn spelled(bytes: &[u8]) -> raw::EntryBytes {
    let mut entry = raw::EntryBytes { len: bytes.len() as u64, bytes: [0; 16] };
    for (to, from) in entry.bytes.iter_mut().zip(bytes) {
        *to = *from;
    }
    entry
}

fn called(record: &raw::Record) -> Call {
    let raw::Record { dom, gref, flags, len, source, dest, .. } = *record;
    match record.call {
        1 => Call::Map { dom, gref, flags },
        2 => Call::Unmap { dom, gref },
        4 => Call::Copy { source, dest, len, flags },
        5 => Call::QuerySize { dom },
        6 => Call::GetVersion { dom },
        7 => Call::SetVersion { version: flags },
        8 => Call::SetupTable { frames: flags },
        _ => Call::UnmapNone,
    }
}

// The domain of an entry that was never granted.
const NOBODY: u32 = 65_535;

fn status(entry: raw::EntryStatus) -> Status {
    let kind = match entry.kind {
        1 => Kind::Page,
        2 => Kind::Sub,
        3 => Kind::Via,
        _ => Kind::Invalid,
    };
    let raw::EntryStatus { generation, reads, writes, to, read_only, granted_to, .. } = entry;
    let granted_to = Some(granted_to).filter(|&dom| dom != NOBODY);
    Status { kind, generation, reads, writes, to, read_only: read_only != 0, granted_to }
}

/// `gthost.h` names beside each call the rules that may refuse it.
impl Domain {
    // SAFETY of each call below: `raw` is what the library wrote, and `&mut self` makes it the only call.
    fn call(&mut self, what: impl FnOnce(&mut raw::Domain) -> raw::Answer) -> Result<raw::Answer, Refusal> {
        judged(what(&mut self.raw))
    }

    /// Grants an entry: publishes it instead of an invalid one that has no pins left.
    pub fn grant(&mut self, gref: u32, entry: Entry<'_>) -> Result<(), Refusal> {
        self.call(|d| unsafe {
            match entry {
                Entry::Page { to, frame, read_only } => raw::gthost_grant_page_at(d, gref, to, frame, read_only.into()),
                Entry::Sub { to, frame, off, len, read_only } => {
                    raw::gthost_grant_sub_at(d, gref, to, frame, off, len, read_only.into())
                }
                Entry::Via { to, dom, gref: onward, read_only } => {
                    raw::gthost_grant_via_at(d, gref, to, dom, onward, read_only.into())
                }
                Entry::Bytes(bytes) => raw::gthost_grant_bytes_at(d, gref, spelled(bytes)),
            }
        })
        .map(drop)
    }

    /// Brings one of its entries to what its guest has written: the bytes are the guest's entry, as its memory has them.
    /// After a refusal the entry is as it was, or invalid.
    pub fn follow(&mut self, gref: u32, bytes: &[u8]) -> Result<Followed, Refusal> {
        self.call(|d| unsafe { raw::gthost_follow_at(d, gref, spelled(bytes)) }).map(|answer| match answer.value {
            0 => Followed::Same,
            1 => Followed::Demoted,
            2 => Followed::Promoted,
            3 => Followed::Withdrawn,
            _ => Followed::Granted,
        })
    }

    /// Makes one of its entries invalid if it has no pins.
    pub fn revoke(&mut self, gref: u32) -> Result<(), Refusal> {
        self.call(|d| unsafe { raw::gthost_revoke_at(d, gref) }).map(drop)
    }

    /// Makes one of its entries invalid, with or without pins. Its pins stay.
    pub fn withdraw(&mut self, gref: u32) -> Result<(), Refusal> {
        self.call(|d| unsafe { raw::gthost_withdraw_at(d, gref) }).map(drop)
    }

    /// Makes one of its entries read-only if it has no write pins.
    pub fn demote(&mut self, gref: u32) -> Result<(), Refusal> {
        self.call(|d| unsafe { raw::gthost_demote_at(d, gref) }).map(drop)
    }

    /// Makes one of its entries writable.
    pub fn promote(&mut self, gref: u32) -> Result<(), Refusal> {
        self.call(|d| unsafe { raw::gthost_promote_at(d, gref) }).map(drop)
    }

    /// Looks once at one of its entries. `ABSENT` if the reference is beyond the table.
    pub fn entry(&mut self, gref: u32) -> Result<Status, Refusal> {
        let found = unsafe { raw::gthost_entry_at(&mut self.raw, gref) };
        judged(found.answer).map(|_| status(found.entry))
    }

    /// Returns the least reference from this one on whose entry is invalid and still has pins. `ABSENT` if there is none.
    pub fn unused(&mut self, from: u32) -> Result<u32, Refusal> {
        self.call(|d| unsafe { raw::gthost_unused_at(d, from) }).map(|answer| answer.gref)
    }

    /// Grants each valid entry that a domain of another run has, under the same reference. After a refusal the entries
    /// before it are granted.
    pub fn grant_all_of(&mut self, other: &mut Domain) -> Result<(), Refusal> {
        self.call(|d| unsafe { raw::gthost_grant_all_of_at(d, &mut other.raw) }).map(drop)
    }

    /// Returns the least reference whose entry is not the same in both domains: as each last changed it, and with the
    /// same pins of each kind. Looks once at each entry of both.
    pub fn difference(&mut self, other: &mut Domain) -> Result<Option<u32>, Refusal> {
        match self.call(|d| unsafe { raw::gthost_difference_at(d, &mut other.raw) }) {
            Ok(answer) => Ok(Some(answer.gref)),
            Err(refusal) if refusal.rule == Rule::ABSENT => Ok(None),
            Err(refusal) => Err(refusal),
        }
    }

    /// Maps an entry of a domain.
    pub fn map(&mut self, dom: u32, gref: u32, access: Access) -> Result<Handle, Refusal> {
        self.map_page(dom, gref, access).map(|(handle, _)| handle)
    }

    /// Maps an entry of a domain, and returns what is mapped beside its name.
    pub fn map_page(&mut self, dom: u32, gref: u32, access: Access) -> Result<(Handle, Mapping), Refusal> {
        let flags = if access == Access::Write { 2 } else { 6 };
        let mut answer = raw::Answer::default();
        unsafe { raw::gthost_map_at(&mut self.raw, dom, gref, flags, &mut answer) };
        judged(answer).map(named)
    }

    /// Returns its mappings, each with its name, in the order of their keys. There is none if the handle has no domain or
    /// one in a copy.
    pub fn mappings(&mut self) -> Mappings<'_> {
        Mappings { domain: self, from: 0 }
    }

    /// Makes each of these maps, in order, or none: of an entry of a domain, with an access. Returns the names of the
    /// mappings.
    ///
    /// # Errors
    /// The first refusal, with the index of its map. The domain then has the mappings that it had.
    pub fn map_all(&mut self, maps: &[(u32, u32, Access)]) -> Result<Vec<Handle>, (usize, Refusal)> {
        let request = |&(dom, gref, access)| {
            let flags = if access == Access::Write { 2 } else { 6 };
            raw::MapRequest { dom, gref, flags, serial: 0, key: 0 }
        };
        let mut requests: Vec<raw::MapRequest> = maps.iter().map(request).collect();
        let mut names = vec![Handle { serial: 0, key: 0, run: 0, dom: 0 }; maps.len()];
        let answer = unsafe {
            raw::gthost_map_all_at(
                &mut self.raw, requests.as_mut_ptr(), requests.len(), names.as_mut_ptr(), names.len(),
            )
        };
        judged(answer).map(|_| names).map_err(|refusal| (answer.more as usize, refusal))
    }

    /// Unmaps a mapping. If the entry has no pins then, this was the last one: tell its owner.
    pub fn unmap(&mut self, handle: Handle) -> Result<Released, Refusal> {
        let mut answer = raw::Answer::default();
        unsafe { raw::gthost_unmap_at(&mut self.raw, &handle, &mut answer) };
        judged(answer).map(|answer| Released { dom: answer.dom, gref: answer.gref, word: answer.word })
    }

    /// Returns what is mapped under a name. `ABSENT` if this domain has no such mapping.
    pub fn mapping(&mut self, handle: Handle) -> Result<Mapping, Refusal> {
        let found = unsafe { raw::gthost_mapping_at(&mut self.raw, handle) };
        judged(found.answer).map(|_| found.mapping)
    }

    /// Begins a copy: takes its pins, and holds them until the guard is dropped.
    pub fn copy(&mut self, from: Side, to: Side, len: u32) -> Result<Copying<'_>, Refusal> {
        let end = |side| match side {
            Side::Reference { dom, gref, off } => (End { ptr: gref.into(), dom, off }, true),
            Side::Frame { dom, frame, off } => (End { ptr: frame, dom, off }, false),
            Side::Memory => (End { ptr: 0, dom: DOMID_SELF, off: 0 }, false),
        };
        let ((source, by_source), (dest, by_dest)) = (end(from), end(to));
        let asked = raw::Copying { source, dest, len, flags: u32::from(by_source) | u32::from(by_dest) << 1 };
        let mut begun = raw::BegunCopy::default();
        unsafe { raw::gthost_copy_begin_at(&mut self.raw, &asked, &mut begun) };
        judged(begun.answer)?;
        Ok(Copying { domain: self, places: begun.places })
    }

    /// Gives its table this version, 1 or 2, while all its entries are invalid.
    pub fn set_version(&mut self, version: u32) -> Result<(), Refusal> {
        self.call(|d| unsafe { raw::gthost_set_version_at(d, version) }).map(drop)
    }

    /// Grows its table to this many frames, if it has fewer. Returns the number that it then has.
    pub fn setup_table(&mut self, frames: u32) -> Result<u64, Refusal> {
        self.call(|d| unsafe { raw::gthost_setup_table_at(d, frames) }).map(|answer| answer.value)
    }

    /// Returns the size of a domain's table.
    pub fn query_size(&mut self, dom: u32) -> Result<Size, Refusal> {
        let answer = self.call(|d| unsafe { raw::gthost_query_size_at(d, dom) })?;
        Ok(Size { frames: answer.value, most: answer.more })
    }

    /// Returns the version of a domain's table.
    pub fn get_version(&mut self, dom: u32) -> Result<u64, Refusal> {
        self.call(|d| unsafe { raw::gthost_get_version_at(d, dom) }).map(|answer| answer.value)
    }

    /// Returns the record at an index, starting at 0. `ABSENT` beyond the last record.
    pub fn record(&mut self, index: usize) -> Result<Record, Refusal> {
        let raw::FoundRecord { answer, kept } = unsafe { raw::gthost_record_at(&mut self.raw, index) };
        judged(answer)?;
        Ok(Record { caller: kept.caller, call: called(&kept), reply: judged(kept.reply).map(drop) })
    }

    /// Drops all records, and keeps their room.
    pub fn take_records(&mut self) -> Result<Taken, Refusal> {
        let answer = self.call(|d| unsafe { raw::gthost_take_records_at(d) })?;
        Ok(Taken { records: answer.value, lost: answer.more })
    }

    /// Bounds the records: a call is recorded while there are fewer than `records`, otherwise its record is lost. At the
    /// start the bound is 0: none is kept.
    pub fn keep_at_most(&mut self, records: usize) -> Result<(), Refusal> {
        self.call(|d| unsafe { raw::gthost_keep_at_most_at(d, records) }).map(drop)
    }

    /// Makes room for this many more records, at most 2^24. `NO_MEMORY` for more, or if allocation fails.
    pub fn reserve_records(&mut self, records: usize) -> Result<(), Refusal> {
        self.call(|d| unsafe { raw::gthost_reserve_records_at(d, records) }).map(drop)
    }

    /// Releases its mappings and withdraws its entries, for the next guest in its place.
    pub fn reset(&mut self) -> Remains {
        let answer = unsafe { raw::gthost_reset_at(&mut self.raw) };
        Remains { lost: answer.value, in_use: answer.more }
    }

    /// Releases its mappings, withdraws its entries, and leaves the run.
    pub fn finish(mut self) -> Remains {
        let answer = unsafe { raw::gthost_finish_at(&mut self.raw) }; // and the drop that follows finds no domain
        Remains { lost: answer.value, in_use: answer.more }
    }
}

impl Drop for Domain {
    fn drop(&mut self) {
        unsafe { raw::gthost_finish_at(&mut self.raw) };
    }
}

impl Copying<'_> {
    /// Returns the bytes that may be touched while the copy is under way.
    pub fn places(&self) -> Places {
        self.places
    }
}

impl Iterator for Mappings<'_> {
    type Item = (Handle, Mapping);

    fn next(&mut self) -> Option<Self::Item> {
        let mut answer = raw::Answer::default();
        unsafe { raw::gthost_mappings_at(&mut self.domain.raw, self.from, &mut answer) };
        let found = judged(answer).ok().map(named)?;
        self.from = found.0.key + 1;
        Some(found)
    }
}

impl Drop for Copying<'_> {
    fn drop(&mut self) {
        let mut answer = raw::Answer::default();
        unsafe { raw::gthost_copy_end_at(&mut self.domain.raw, &mut answer) };
    }
}
