//! Files that are there whole and durable, or not at all, and that never take another's place.

use std::fs::{self, File, OpenOptions};
use std::io::{self, Write};
use std::os::unix::fs::OpenOptionsExt;
use std::path::Path;

/// Who may read a file.
#[derive(Clone, Copy, Debug, PartialEq, Eq)]
pub enum Readers {
    /// Its owner alone.
    Owner,
    /// Everyone.
    All,
}

/// Writes a new file. It is written aside and synced, and gets its name only then; the name is
/// durable once this returns. Fails with `AlreadyExists` where the name is taken.
pub fn write_new(path: &Path, data: impl AsRef<[u8]>, readers: Readers) -> io::Result<()> {
    let mut aside = path.as_os_str().to_owned();
    aside.push(".new");
    let aside = Path::new(&aside);
    let mode = if readers == Readers::Owner { 0o600 } else { 0o644 };
    // What an interrupted call left is of no use to anyone.
    match fs::remove_file(aside) {
        Err(fault) if fault.kind() != io::ErrorKind::NotFound => return Err(fault),
        _ => {}
    }
    let mut file = OpenOptions::new().write(true).create_new(true).mode(mode).open(aside)?;
    let done = file
        .write_all(data.as_ref())
        .and_then(|()| file.sync_all())
        // A link fails where the name is taken; a rename would replace what is there.
        .and_then(|()| fs::hard_link(aside, path));
    fs::remove_file(aside)?;
    done?;
    sync_folder(path.parent().unwrap_or(Path::new(".")))
}

/// Makes the names in a folder durable.
pub fn sync_folder(folder: &Path) -> io::Result<()> {
    let folder = if folder.as_os_str().is_empty() { Path::new(".") } else { folder };
    File::open(folder)?.sync_all()
}

#[cfg(test)]
mod tests {
    use super::*;
    use std::os::unix::fs::PermissionsExt;

    #[test]
    fn a_file_is_whole_and_replaces_none() {
        let folder = std::env::temp_dir().join(format!("themisd-{}-files", std::process::id()));
        fs::create_dir(&folder).unwrap();
        let (secret, public) = (folder.join("a.secret"), folder.join("b.crt"));
        write_new(&secret, "first", Readers::Owner).unwrap();
        write_new(&public, "all", Readers::All).unwrap();
        let again = write_new(&secret, "second", Readers::Owner).unwrap_err();
        assert_eq!(again.kind(), io::ErrorKind::AlreadyExists);
        assert_eq!(fs::read_to_string(&secret).unwrap(), "first");
        assert_eq!(fs::metadata(&secret).unwrap().permissions().mode() & 0o777, 0o600);
        // What was written aside is gone, also after a refusal.
        assert_eq!(fs::read_dir(&folder).unwrap().count(), 2);
        assert!(write_new(&folder.join("no/c"), "any", Readers::All).is_err());
        fs::remove_dir_all(folder).unwrap();
    }
}
