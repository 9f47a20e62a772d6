//! What a file that takes another's place keeps of it: owner, group, mode, ACL and extended attributes. Where
//! something can't be kept, nobody gets access by that.

use crate::failure::shown;
use std::ffi::{CStr, CString, OsStr};
use std::fs::{self, File, Metadata, Permissions};
use std::io;
use std::os::unix::ffi::OsStrExt;
use std::os::unix::fs::{MetadataExt, PermissionsExt, fchown};
use std::path::Path;
use system::attributes;

/// An ACL, as Linux keeps it.
const ACL: &CStr = c"system.posix_acl_access";

/// What Linux says of a file's content and of the program in it. It takes these away or makes them anew when a file is
/// written, so a changed file has none to keep.
const OF_CONTENT: [&CStr; 3] = [c"security.capability", c"security.ima", c"security.evm"];

/// A file whose place is taken.
pub struct Old {
    about: Metadata,
    /// None where it can't be read: its ACL and attributes aren't known.
    file: Option<File>,
}

impl Old {
    /// A file that is open.
    pub fn open(file: File) -> io::Result<Old> {
        Ok(Old { about: file.metadata()?, file: Some(file) })
    }

    /// The file at a path; it need not be one that may be read.
    pub fn at(path: &Path) -> io::Result<Old> {
        File::open(path).and_then(Old::open).or_else(|_| Ok(Old { about: fs::metadata(path)?, file: None }))
    }
}

/// What of a file can't be kept.
#[derive(Debug, Default)]
pub struct Lost {
    owner: bool,
    group: bool,
    /// An ACL, or whether there is one.
    acl: bool,
    attributes: Vec<CString>,
}

/// Gives a new file, which nobody else may open so far, what an old one has. What is lost is left out. The mode is the
/// new file's from then on.
pub fn take_over(new: &File, old: &Old) -> io::Result<(u32, Lost)> {
    let mut lost = owners(new, &old.about)?;
    match old.file.as_ref().and_then(|file| Some((file, attributes::names(file).ok()?))) {
        Some((file, names)) => copy_all(new, file, names, &mut lost)?,
        None => lost.acl = true,
    }
    let mode = cut(old.about.mode(), &lost);
    if new.metadata()?.mode() & 0o7777 != mode {
        new.set_permissions(Permissions::from_mode(mode))?;
    }
    Ok((mode, lost))
}

/// Copies ACL and attributes.
fn copy_all(new: &File, old: &File, names: Vec<CString>, lost: &mut Lost) -> io::Result<()> {
    let is_acl = |name: &CString| name.to_bytes().starts_with(b"system.");
    let (acls, others): (Vec<CString>, Vec<CString>) = names.into_iter().partition(is_acl);
    lost.attributes = others.into_iter().filter(|name| !copy(new, old, name)).collect();
    if !matches!(attributes::get(new, ACL), Ok(None)) {
        attributes::remove(new, ACL)?; // the folder's, which a mode for the group would bring into force
    }
    // An ACL tells the rights of the owning group too, and with another group they would be that one's.
    lost.acl = !acls.iter().all(|name| !lost.group && copy(new, old, name));
    Ok(())
}

/// Sets group and owner, each by itself: who may not give a file away may be in its group.
fn owners(new: &File, old: &Metadata) -> io::Result<Lost> {
    let before = new.metadata()?;
    if before.gid() != old.gid() {
        let _ = fchown(new, None, Some(old.gid())); // seen below
    }
    if before.uid() != old.uid() {
        let _ = fchown(new, Some(old.uid()), None); // seen below
    }
    let now = new.metadata()?;
    Ok(Lost { owner: now.uid() != old.uid(), group: now.gid() != old.gid(), ..Lost::default() })
}

/// Copies an attribute, unless the new file has the same already, as it may have from Linux where only that may set it.
/// One of `security.` that can't even be read is Linux's own, which gives the new file what it should have.
fn copy(new: &File, old: &File, name: &CStr) -> bool {
    if OF_CONTENT.contains(&name) {
        return true;
    }
    match attributes::get(old, name) {
        Ok(Some(value)) => {
            attributes::get(new, name).is_ok_and(|there| there.as_ref() == Some(&value))
                || attributes::set(new, name, &value).is_ok()
        }
        Ok(None) => true, // gone meanwhile
        Err(_) => decides_access(name),
    }
}

/// Labels decide who may have a file; the attributes of users and of programs don't.
fn decides_access(name: &CStr) -> bool {
    name.to_bytes().starts_with(b"security.")
}

/// The mode by which nobody has more rights than before. Who was the owner is now in the group or among the others, so
/// these may not do more than the owner could. Who was in the group is among the others, and some of the others are in
/// the new group, so both may only do what both could. What an ACL or a label forbade to some can't be told without it.
fn cut(mode: u32, lost: &Lost) -> u32 {
    let [owner, mut group, mut others] = [6, 3, 0].map(|bits| mode >> bits & 7);
    if lost.acl || lost.attributes.iter().any(|name| decides_access(name)) {
        return owner << 6;
    }
    if lost.owner {
        (group, others) = (group & owner, others & owner);
    }
    if lost.group {
        (group, others) = (group & others, group & others);
    }
    // A program must not run as somebody else than before.
    let special = if lost.owner || lost.group { 0 } else { mode & 0o7000 };
    special | owner << 6 | group << 3 | others
}

impl Lost {
    /// What is lost, in words; None if nothing is.
    pub fn words(&self) -> Option<String> {
        let known = [(self.owner, "owner"), (self.group, "group"), (self.acl, "ACL")];
        let mut words: Vec<String> =
            known.iter().filter(|(lost, _)| *lost).map(|(_, what)| format!("its {what}")).collect();
        let name = |name: &CString| shown(Path::new(OsStr::from_bytes(name.to_bytes())));
        words.extend(self.attributes.iter().map(|lost| format!("its attribute {}", name(lost))));
        let last = words.pop()?;
        Some(if words.is_empty() { last } else { format!("{} and {last}", words.join(", ")) })
    }
}

#[cfg(test)]
mod tests {
    use super::*;

    fn lost(owner: bool, group: bool, acl: bool, attribute: Option<&CStr>) -> Lost {
        Lost { owner, group, acl, attributes: attribute.map(CStr::to_owned).into_iter().collect() }
    }

    #[test]
    fn nobody_gains_by_what_is_lost() {
        let all = [0o6644, 0o660, 0o664, 0o604, 0o4755, 0o047];
        let cuts = |lost: Lost| all.map(|mode| cut(mode, &lost));
        assert_eq!(cuts(lost(false, false, false, None)), all);
        assert_eq!(cuts(lost(false, false, false, Some(c"user.a"))), all);
        assert_eq!(cuts(lost(true, false, false, None)), [0o644, 0o660, 0o664, 0o604, 0o755, 0]);
        assert_eq!(cuts(lost(false, true, false, None)), [0o644, 0o600, 0o644, 0o600, 0o755, 0o044]);
        assert_eq!(cuts(lost(true, true, false, None)), [0o644, 0o600, 0o644, 0o600, 0o755, 0]);
        for secret in [lost(false, false, true, None), lost(false, false, false, Some(c"security.selinux"))] {
            assert_eq!(cuts(secret), [0o600, 0o600, 0o600, 0o600, 0o700, 0]);
        }
    }

    #[test]
    fn what_is_lost_is_told() {
        let words = |lost: Lost| lost.words().unwrap_or_default();
        assert_eq!(words(Lost::default()), "");
        assert_eq!(words(lost(false, true, false, None)), "its group");
        assert_eq!(words(lost(true, true, false, None)), "its owner and its group");
        let all = lost(true, false, true, Some(c"user.a\n"));
        assert_eq!(words(all), "its owner, its ACL and its attribute \"user.a\\n\"");
    }
}
