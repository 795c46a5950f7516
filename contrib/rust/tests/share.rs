use gthost::{renew, rule_text, start, type_name, type_of, version, Access, Call, Domain, Entry, Facts};
use gthost::{Fault, Followed, Kind, Rule, Settings, Side};

const POLICY: &str = "type a_t; allow a_t a_t:grant { map_read map_write unmap copy query };";

fn two() -> (Domain, Domain) {
    let domain = |id| Settings { id, label: 0, frames: 8, table_frames: 1, version: 1 };
    let mut all = start(&[domain(1), domain(2)], 0, 0, POLICY).expect("two domains");
    let second = all.pop().expect("the second");
    (all.pop().expect("the first"), second)
}

#[test]
fn a_fault_has_its_line() {
    let settings = [Settings { id: 1, label: 0, frames: 8, table_frames: 1, version: 1 }];
    let fault = start(&settings, 0, 0, "type a_t;\nallow a_t b_t:grant copy;").err();
    assert_eq!(fault, Some(Fault::Policy { kind: 4, line: 2 }));
    assert_eq!(fault.unwrap().to_string(), "line 2 of the policy: unknown name");
    assert_eq!(start(&[], 0, 0, POLICY).err(), Some(Fault::Config { kind: 10, dom: 0 }));
    let past = [Settings { id: 1, label: 1, frames: 8, table_frames: 1, version: 1 }];
    assert_eq!(start(&past, 0, 0, POLICY).unwrap_err(), Fault::Config { kind: 19, dom: 1 });
    assert_eq!((type_of(POLICY, "a_t"), type_of(POLICY, "b_t").is_err()), (Ok(0), true));
}

#[test]
fn a_page_in_use_is_not_revoked() {
    let (mut front, mut back) = two();
    back.keep_at_most(usize::MAX).unwrap();
    let page = Entry::Page { to: 2, frame: 5, read_only: true };
    front.grant(7, page).unwrap();
    assert_eq!(front.grant(7, page).unwrap_err().rule, Rule::N20);
    let refused = back.map(1, 7, Access::Write).unwrap_err();
    assert_eq!((refused.rule, refused.status), (Rule::N13, -1));
    assert!(matches!(refused.facts, Facts::Entry { dom: 1, gref: 7, .. }));
    let (handle, mapping) = back.map_page(1, 7, Access::Read).unwrap();
    assert_eq!(back.mapping(handle), Ok(mapping));
    assert_eq!((mapping.owner, mapping.frame, mapping.gref, mapping.writes()), (1, 5, 7, false));
    assert_eq!(front.revoke(7).unwrap_err().to_string(), "N19 -1");
    assert_eq!(back.unmap(handle).unwrap().pins(), 0);
    assert_eq!(back.unmap(handle).unwrap_err().rule, Rule::N6);
    assert_eq!(back.mapping(handle).unwrap_err().to_string(), "ABSENT");
    front.revoke(7).unwrap();
    assert_eq!(back.query_size(1).unwrap().frames, 1);
    let record = back.record(4).unwrap();
    assert_eq!((record.caller, record.call, record.reply), (2, Call::QuerySize { dom: 1 }, Ok(())));
    assert_eq!(back.record(5).unwrap_err().rule, Rule::ABSENT);
    let taken = back.take_records().unwrap();
    assert_eq!((taken.records, taken.lost), (5, 0));
    assert_eq!(back.reserve_records(usize::MAX).unwrap_err().rule, Rule::NO_MEMORY);
    assert_eq!((back.finish().lost, format!("{front:?}").as_str()), (0, "Domain { .. }"));
}

#[test]
fn several_maps_are_made_or_none_remains() {
    let (mut front, mut back) = two();
    front.grant(7, Entry::Page { to: 2, frame: 5, read_only: false }).unwrap();
    let (index, refusal) = back.map_all(&[(1, 7, Access::Write), (1, 7, Access::Read), (1, 8, Access::Read)]).unwrap_err();
    assert_eq!((index, refusal.rule), (2, Rule::N10));
    assert_eq!((front.entry(7).unwrap().reads, front.entry(7).unwrap().writes), (0, 0));
    let names = back.map_all(&[(1, 7, Access::Write), (1, 7, Access::Read)]).unwrap();
    let rights: Vec<bool> = names.iter().map(|&name| back.mapping(name).unwrap().writes()).collect();
    assert_eq!(rights, [true, false]);
    assert_eq!(back.unmap(names[0]).unwrap().pins(), 1);
    assert_eq!(back.unmap(names[1]).unwrap().pins(), 0);
    assert_eq!(back.map_all(&[]).unwrap(), []);
}

#[test]
fn a_refusal_by_the_policy_has_names() {
    let policy = "type front_t; type back_t; allow back_t front_t:grant map_read;";
    let domain = |id, label| Settings { id, label, frames: 8, table_frames: 1, version: 1 };
    let mut all = start(&[domain(1, 0), domain(2, 1)], 0, 0, policy).unwrap();
    let refusal = all[1].map(1, 7, Access::Write).unwrap_err();
    let Facts::Policy { source, target, .. } = refusal.facts else { panic!("{refusal}") };
    assert_eq!(type_name(policy, source).as_deref(), Ok("back_t"));
    assert_eq!(type_name(policy, target).as_deref(), Ok("front_t"));
    assert_eq!(type_name(policy, 2), Err(Fault::Policy { kind: 20, line: 0 }));
}

#[test]
fn a_copy_holds_its_pin_until_it_is_dropped() {
    let (mut front, mut back) = two();
    front.grant(3, Entry::Page { to: 2, frame: 4, read_only: false }).unwrap();
    let (own, theirs) = (Side::Frame { dom: 2, frame: 1, off: 0 }, Side::Reference { dom: 1, gref: 3, off: 100 });
    let copying = back.copy(own, theirs, 64).unwrap();
    let places = copying.places();
    assert_eq!((places.from.owner, places.from.frame, places.from.off), (2, 1, 0));
    assert_eq!((places.to.owner, places.to.frame, places.to.off, places.len), (1, 4, 100, 64));
    assert_eq!(front.revoke(3).unwrap_err().rule, Rule::N19);
    drop(copying);
    let places = back.copy(theirs, Side::Memory, 64).unwrap().places();
    assert_eq!((places.from.owner, places.from.frame, places.from.off, places.len), (1, 4, 100, 64));
    let places = back.copy(Side::Memory, theirs, 64).unwrap().places();
    assert_eq!((places.to.owner, places.to.frame, places.to.off, places.len), (1, 4, 100, 64));
    front.revoke(3).unwrap();
    assert_eq!(back.copy(own, theirs, 4000).err().unwrap().rule, Rule::N3);
}

#[test]
fn a_domain_that_is_dropped_gives_its_pins_back() {
    let (mut front, mut back) = two();
    front.grant(3, Entry::Page { to: 2, frame: 4, read_only: false }).unwrap();
    let other = std::thread::spawn(move || {
        back.map(1, 3, Access::Write).unwrap();
    });
    other.join().unwrap();
    front.revoke(3).unwrap();
}

#[test]
fn a_guest_that_leaves_is_mapped_no_more() {
    let (mut front, mut back) = two();
    front.grant(3, Entry::Page { to: 2, frame: 4, read_only: false }).unwrap();
    front.grant(4, Entry::Page { to: 2, frame: 5, read_only: false }).unwrap();
    let handle = back.map(1, 3, Access::Write).unwrap();
    let entry = front.entry(3).unwrap();
    assert_eq!((entry.kind, entry.reads, entry.writes, entry.to, entry.read_only), (Kind::Page, 0, 1, 2, false));
    assert_eq!(front.entry(512).unwrap_err().rule, Rule::ABSENT);
    assert_eq!((entry.granted_to, front.entry(9).unwrap().granted_to), (Some(2), None));
    assert_eq!(front.reset().in_use, 1);
    assert_eq!((front.entry(3).unwrap().to, front.entry(3).unwrap().granted_to), (0, Some(2)));
    assert_eq!(front.unused(0), Ok(3));
    assert_eq!(back.map(1, 4, Access::Read).unwrap_err().rule, Rule::N10);
    assert_eq!(front.unmap(handle).unwrap_err().rule, Rule::N6);
    let mapped: Vec<_> = back.mappings().map(|(name, mapping)| (name, mapping.owner, mapping.gref)).collect();
    assert_eq!(mapped, [(handle, 1, 3)]);
    assert_eq!(back.unmap(handle).unwrap().pins(), 0);
    assert_eq!(back.mappings().count(), 0);
    assert_eq!(front.entry(3).unwrap().writes, 0);
    assert_eq!(front.unused(0).unwrap_err().rule, Rule::ABSENT);
    assert_eq!(front.finish().in_use, 0);
}

#[test]
fn an_entry_follows_what_its_guest_has_written() {
    let (mut front, mut back) = two();
    let entry = |flags: u8, frame: u8| [flags, 0, 2, 0, frame, 0, 0, 0];
    assert_eq!(front.follow(3, &entry(1, 4)), Ok(Followed::Granted));
    let handle = back.map(1, 3, Access::Write).unwrap();
    assert_eq!(front.follow(3, &entry(1 + 8 + 16, 4)), Ok(Followed::Same));
    assert_eq!(front.follow(3, &entry(1, 5)).unwrap_err().rule, Rule::N19);
    assert_eq!(front.entry(3).unwrap().kind, Kind::Invalid);
    assert_eq!(back.unmap(handle).unwrap().pins(), 0);
    assert_eq!(front.follow(3, &entry(1, 5)), Ok(Followed::Granted));
    assert_eq!(front.follow(3, &entry(5, 5)), Ok(Followed::Demoted));
    assert_eq!(front.follow(3, &entry(1, 5)), Ok(Followed::Promoted));
    assert_eq!(front.follow(3, &entry(0, 5)), Ok(Followed::Withdrawn));
    assert_eq!(front.follow(3, &entry(2, 5)).unwrap_err().facts, Facts::Field(2));
}

#[test]
fn mappings_live_in_the_next_run() {
    let domain = |id| Settings { id, label: 0, frames: 8, table_frames: 1, version: 1 };
    let settings = [domain(1), domain(2)];
    let mut all = start(&settings, 1_048_573, 1, POLICY).unwrap();
    all[0].grant(3, Entry::Page { to: 2, frame: 4, read_only: false }).unwrap();
    all[0].grant(5, Entry::Page { to: 2, frame: 6, read_only: true }).unwrap();
    let mut names = [all[1].map(1, 3, Access::Write).unwrap(), all[1].map(1, 5, Access::Read).unwrap()];
    all[0].withdraw(5).unwrap();
    all[0].grant(0, Entry::Page { to: 2, frame: 1, read_only: false }).unwrap();
    all[0].revoke(0).unwrap();
    all[0].grant(0, Entry::Page { to: 2, frame: 1, read_only: false }).unwrap();
    all[0].revoke(0).unwrap();
    assert_eq!(all[0].grant(0, Entry::Page { to: 2, frame: 1, read_only: false }).unwrap_err().rule, Rule::N22);
    let fresh = || start(&settings, 0, 2, POLICY).unwrap();
    let left_out = renew(&settings, &mut all, fresh(), &mut names[..1]).unwrap_err();
    assert_eq!((left_out.rule, left_out.facts), (Rule::ABSENT, Facts::Entry { dom: 1, gref: 5, word: 0 }));
    let (written, read) = (all[1].mapping(names[0]).unwrap(), all[1].mapping(names[1]).unwrap());
    renew(&settings, &mut all, fresh(), &mut names).unwrap();
    assert_eq!((all[1].mapping(names[0]), all[1].mapping(names[1])), (Ok(written), Ok(read)));
    assert_eq!((written.frame, written.writes(), read.frame, read.writes()), (4, true, 6, false));
    assert_eq!((all[0].entry(5).unwrap().kind, all[0].unused(0)), (Kind::Invalid, Ok(5)));
    all[0].grant(0, Entry::Page { to: 2, frame: 1, read_only: false }).unwrap();
    assert_eq!(all[1].unmap(names[1]).unwrap().pins(), 0);
    assert_eq!(all.remove(0).finish().in_use, 1);
}

#[test]
fn rules_have_words() {
    assert!(rule_text(Rule::N19).starts_with("N19 -1 GNTST_general_error: "));
    assert_eq!((Rule::N7.to_string(), Rule::BUSY.number()), ("N7".to_string(), 257));
    assert_eq!(version().0, 2);
}
