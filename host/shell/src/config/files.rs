//! What files of a replica hold: values in TOML, and secrets.

use std::os::unix::fs::PermissionsExt;
use std::path::Path;

use serde::Deserialize;

use super::hex::unhex;
use crate::exit::{Exit, Failure};

/// The folder of a file; of a bare name, the one that the process is in.
pub fn folder_of(path: &Path) -> &Path {
    path.parent().filter(|it| !it.as_os_str().is_empty()).unwrap_or(Path::new("."))
}

/// The value of a file.
pub fn read_toml<T: for<'de> Deserialize<'de>>(path: &Path) -> Result<T, Failure> {
    let text = std::fs::read_to_string(path).map_err(|it| bad(path, it))?;
    toml::from_str(&text).map_err(|it| bad(path, it))
}

/// The bytes of a secret file, which others must not be able to read.
pub fn secret_of<const N: usize>(path: &Path) -> Result<[u8; N], Failure> {
    let meta = std::fs::metadata(path).map_err(|it| bad(path, it))?;
    if meta.permissions().mode() & 0o077 != 0 {
        return Err(bad(path, "others can read this secret: chmod 600"));
    }
    let text = std::fs::read_to_string(path).map_err(|it| bad(path, it))?;
    unhex(text.trim())
        .and_then(|it| it.try_into().ok())
        .ok_or_else(|| bad(path, format!("this secret has {N} bytes, in hex")))
}

/// A file that can't be used, with the cause.
pub(super) fn bad(path: &Path, text: impl std::fmt::Display) -> Failure {
    Failure::new(Exit::Config, format!("{}: {text}", path.display()))
}

#[cfg(test)]
mod tests {
    use super::*;

    /// `cd DIR && themisd run 0.toml`: the folder is opened, listed and made durable by its name.
    #[test]
    fn a_bare_name_is_in_the_folder_of_the_process() {
        for (path, folder) in [("0.toml", "."), ("./0.toml", "."), ("a/0.toml", "a"), ("/0", "/")] {
            assert_eq!(folder_of(Path::new(path)), Path::new(folder));
        }
        assert!(std::fs::read_dir(folder_of(Path::new("0.toml"))).is_ok());
    }
}
