//! What `gthost.h` declares; `tools/header.py` compares the two. The pointer of a `&mut` is never null.
use std::os::raw::c_void;

#[repr(C)]
pub struct Domain {
    pub at: *mut c_void,
    pub is_live: bool,
}

#[repr(C)]
#[derive(Clone, Copy, Default)]
pub struct Fault {
    pub kind: u32,
    pub line: u32,
    pub dom: u32,
}

#[repr(C)]
#[derive(Clone, Copy, Debug, Default, PartialEq, Eq)]
pub struct Answer {
    pub rule: u32,
    pub status: i32,
    pub kind: u32,
    pub gref: u32,
    pub source: u32,
    pub target: u32,
    pub word: u64,
    pub value: u64,
    pub more: u64,
    pub detail: u32,
    pub dom: u32,
}

#[repr(C)]
#[derive(Clone, Copy, Default)]
pub struct Copying {
    pub source: super::End,
    pub dest: super::End,
    pub len: u32,
    pub flags: u32,
}

#[repr(C)]
#[derive(Clone, Copy, Debug, Default, PartialEq, Eq)]
pub struct Record {
    pub call: u32,
    pub caller: u32,
    pub dom: u32,
    pub gref: u32,
    pub flags: u32,
    pub len: u32,
    pub source: super::End,
    pub dest: super::End,
    pub reply: Answer,
}

#[repr(C)]
#[derive(Clone, Copy)]
pub struct FoundMapping {
    pub answer: Answer,
    pub mapping: super::Mapping,
}

#[repr(C)]
#[derive(Clone, Copy)]
pub struct FoundRecord {
    pub answer: Answer,
    pub kept: Record,
}

#[repr(C)]
#[derive(Clone, Copy, Default)]
pub struct BegunCopy {
    pub answer: Answer,
    pub places: super::Places,
}

#[repr(C)]
#[derive(Clone, Copy)]
pub struct EntryBytes {
    pub len: u64,
    pub bytes: [u8; 16],
}

#[repr(C)]
#[derive(Clone, Copy)]
pub struct FoundEntry {
    pub answer: Answer,
    pub entry: EntryStatus,
}

#[repr(C)]
#[derive(Clone, Copy)]
pub struct EntryStatus {
    pub kind: u32,
    pub generation: u32,
    pub reads: u32,
    pub writes: u32,
    pub to: u32,
    pub read_only: u32,
    pub granted_to: u32,
}

#[repr(C)]
#[derive(Clone, Copy)]
pub struct Text {
    pub len: usize,
    pub bytes: [u8; 80],
}

#[repr(C)]
#[derive(Clone, Copy)]
pub struct RuleLine {
    pub len: usize,
    pub bytes: [u8; 240],
}

#[repr(C)]
#[derive(Clone, Copy)]
pub struct Type {
    pub fault: Fault,
    pub label: u32,
}

#[repr(C)]
#[derive(Clone, Copy)]
pub struct Name {
    pub fault: Fault,
    pub len: usize,
}

#[repr(C)]
#[derive(Clone, Copy)]
pub struct MapRequest {
    pub dom: u32,
    pub gref: u32,
    pub flags: u32,
    pub serial: u64,
    pub key: usize,
}

#[link(name = "gthost", kind = "static")]
extern "C" {
    pub fn gthost_start_at(
        settings: *const super::Settings, count: usize, first_gen: u32, run: u32, policy: *const u8,
        policy_len: usize, out: *mut Domain, out_count: usize,
    ) -> Fault;
    pub fn gthost_type_of_at(policy: *const u8, policy_len: usize, name: *const u8, name_len: usize) -> Type;
    pub fn gthost_type_name_at(
        policy: *const u8, policy_len: usize, label: u32, name: *mut u8, name_size: usize,
    ) -> Name;
    pub fn gthost_fault_text(kind: u32) -> Text;
    pub fn gthost_rule_text(rule: u32) -> RuleLine;
    pub fn gthost_version() -> u32;
    pub fn gthost_reset_at(domain: &mut Domain) -> Answer;
    pub fn gthost_entry_at(domain: &mut Domain, gref: u32) -> FoundEntry;
    pub fn gthost_unused_at(domain: &mut Domain, from: u32) -> Answer;
    pub fn gthost_mappings_at(domain: &mut Domain, from: usize, answer: &mut Answer);
    pub fn gthost_grant_all_of_at(domain: &mut Domain, other: &mut Domain) -> Answer;
    pub fn gthost_difference_at(domain: &mut Domain, other: &mut Domain) -> Answer;
    pub fn gthost_take_records_at(domain: &mut Domain) -> Answer;
    pub fn gthost_finish_at(domain: &mut Domain) -> Answer;
    pub fn gthost_grant_page_at(domain: &mut Domain, gref: u32, to: u32, frame: u64, ro: u32) -> Answer;
    pub fn gthost_grant_sub_at(
        domain: &mut Domain, gref: u32, to: u32, frame: u64, off: u32, len: u32, ro: u32,
    ) -> Answer;
    pub fn gthost_grant_via_at(domain: &mut Domain, gref: u32, to: u32, dom2: u32, ref2: u32, ro: u32) -> Answer;
    pub fn gthost_grant_bytes_at(domain: &mut Domain, gref: u32, bytes: EntryBytes) -> Answer;
    pub fn gthost_follow_at(domain: &mut Domain, gref: u32, bytes: EntryBytes) -> Answer;
    pub fn gthost_revoke_at(domain: &mut Domain, gref: u32) -> Answer;
    pub fn gthost_withdraw_at(domain: &mut Domain, gref: u32) -> Answer;
    pub fn gthost_demote_at(domain: &mut Domain, gref: u32) -> Answer;
    pub fn gthost_promote_at(domain: &mut Domain, gref: u32) -> Answer;
    pub fn gthost_map_at(domain: &mut Domain, dom: u32, gref: u32, flags: u32, answer: &mut Answer);
    pub fn gthost_map_all_at(
        domain: &mut Domain, requests: *mut MapRequest, count: usize, names: *mut super::Handle, names_count: usize,
    ) -> Answer;
    pub fn gthost_unmap_at(domain: &mut Domain, name: &super::Handle, answer: &mut Answer);
    pub fn gthost_mapping_at(domain: &mut Domain, name: super::Handle) -> FoundMapping;
    pub fn gthost_copy_begin_at(domain: &mut Domain, copy: &Copying, begun: &mut BegunCopy);
    pub fn gthost_copy_end_at(domain: &mut Domain, answer: &mut Answer);
    pub fn gthost_set_version_at(domain: &mut Domain, version: u32) -> Answer;
    pub fn gthost_setup_table_at(domain: &mut Domain, frames: u32) -> Answer;
    pub fn gthost_query_size_at(domain: &mut Domain, dom: u32) -> Answer;
    pub fn gthost_get_version_at(domain: &mut Domain, dom: u32) -> Answer;
    pub fn gthost_record_at(domain: &mut Domain, index: usize) -> FoundRecord;
    pub fn gthost_keep_at_most_at(domain: &mut Domain, records: usize) -> Answer;
    pub fn gthost_reserve_records_at(domain: &mut Domain, records: usize) -> Answer;
}
