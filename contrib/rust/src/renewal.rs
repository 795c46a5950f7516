//! The renewal of a run, before its references are worn.
use crate::{Access, Domain, Entry, Facts, Handle, Kind, Refusal, Rule, Settings};

// The domains of a run, and at the same indexes those of the new run and their settings.
struct Renewal<'r> {
    settings: &'r [Settings],
    old: &'r mut [Domain],
    renewed: &'r mut [Domain],
}

fn absent(facts: Facts) -> Refusal {
    Refusal { rule: Rule::ABSENT, status: 0, facts }
}

impl Renewal<'_> {
    // Returns the index of the domain with this number.
    fn index(&self, dom: u32) -> Result<usize, Refusal> {
        let found = self.settings.iter().take(self.old.len()).position(|one| one.id == dom);
        found.ok_or(absent(Facts::None))
    }

    // Makes a mapping again. If its entry was withdrawn under its pins, that is granted first, to be withdrawn later.
    fn map(&mut self, name: Handle) -> Result<Handle, Refusal> {
        let mapper = self.index(name.dom)?;
        let page = self.old[mapper].mapping(name)?;
        let owner = self.index(page.owner)?;
        if self.renewed[owner].entry(page.gref)?.kind == Kind::Invalid {
            let entry = Entry::Page { to: name.dom, frame: page.frame, read_only: false };
            self.renewed[owner].grant(page.gref, entry)?;
        }
        let access = if page.writes() { Access::Write } else { Access::Read };
        let (handle, mapped) = self.renewed[mapper].map_page(page.owner, page.gref, access)?;
        if mapped.frame != page.frame {
            return Err(absent(Facts::Entry { dom: page.owner, gref: page.gref, word: 0 }));
        }
        Ok(handle)
    }

    // Withdraws the entry of a mapping in the new run, if it is invalid in the old one.
    fn withdraw(&mut self, name: Handle) -> Result<(), Refusal> {
        let mapper = self.index(name.dom)?;
        let page = self.old[mapper].mapping(name)?;
        let owner = self.index(page.owner)?;
        let is_withdrawn = self.old[owner].entry(page.gref)?.kind == Kind::Invalid;
        if is_withdrawn && self.renewed[owner].entry(page.gref)?.kind != Kind::Invalid {
            self.renewed[owner].withdraw(page.gref)?;
        }
        Ok(())
    }

    // Makes in the new run what the old one has, and returns the new names.
    fn make(&mut self, names: &[Handle]) -> Result<Vec<Handle>, Refusal> {
        for (renewed, old) in self.renewed.iter_mut().zip(self.old.iter_mut()) {
            renewed.grant_all_of(old)?;
        }
        let moved = names.iter().map(|&name| self.map(name)).collect::<Result<Vec<_>, _>>()?;
        names.iter().try_for_each(|&name| self.withdraw(name))?;
        let pairs = self.renewed.iter_mut().zip(self.old.iter_mut());
        for ((renewed, old), settings) in pairs.zip(self.settings) {
            if let Some(gref) = renewed.difference(old)? {
                return Err(absent(Facts::Entry { dom: settings.id, gref, word: 0 }));
            }
        }
        Ok(moved)
    }
}

/// Renews a run: gives the domains of a new run what these domains have, each valid entry, each mapping, and each
/// withdrawn entry that still has pins. `renewed` is a run that has made no call, with another number and these settings:
/// the present versions and table frames. Generations begin again at its first one. It may have another policy, and more
/// domains after those that are renewed. `names` has the name of each mapping.
///
/// After Ok `domains` are those of the new run, and `names` are their names. The old domains have left.
///
/// # Errors
/// A refusal; `BUSY` if a domain is in a copy; `ABSENT` if a name is of no mapping, or, with the entry, if `names` has
/// not each mapping of that entry exactly once, or the new run had another entry there. The new domains have left, and
/// the old run is as it was.
pub fn renew(
    settings: &[Settings], domains: &mut Vec<Domain>, mut renewed: Vec<Domain>, names: &mut [Handle],
) -> Result<(), Refusal> {
    if settings.len() < domains.len() || renewed.len() < domains.len() {
        return Err(absent(Facts::None));
    }
    let moved = Renewal { settings, old: domains, renewed: &mut renewed }.make(names)?;
    names.copy_from_slice(&moved);
    *domains = renewed;
    Ok(())
}
