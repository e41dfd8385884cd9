//! The version of what stands in a folder: of its journal, its saves, and all files beside them.

use crate::disk;
use std::fs;
use std::io::{self, ErrorKind};
use std::path::Path;

/// What this program reads and writes.
const VERSION: &str = "1";

/// The file that says it.
const FILE: &str = "version";

/// Whether this program reads what stands in the folder. A folder that does not say its version gets one. An error of
/// the kind `Unsupported` says that it is another's.
pub fn check(folder: &Path) -> io::Result<()> {
    let path = folder.join(FILE);
    match fs::read(&path) {
        Ok(bytes) => {
            let other = String::from_utf8_lossy(&bytes).trim().chars().take(40).collect::<String>();
            if other == VERSION {
                return Ok(());
            }
            let what = "this program reads version";
            let why = format!("{}: the folder has version {other:?}, and {what} {VERSION:?}", folder.display());
            Err(io::Error::new(ErrorKind::Unsupported, why))
        }
        Err(error) if error.kind() == ErrorKind::NotFound => {
            disk::write_whole(&path, format!("{VERSION}\n").as_bytes())
        }
        Err(error) => Err(error),
    }
}

#[cfg(test)]
mod tests {
    use super::*;

    #[test]
    fn a_folder_of_another_version_is_refused() -> io::Result<()> {
        let folder = std::env::temp_dir().join(format!("sevunthi-version-{}", std::process::id()));
        disk::make_folder(&folder)?;
        check(&folder)?;
        check(&folder)?;
        for other in [&b"2\n"[..], b"", b"1.0", &[0xff; 100]] {
            fs::write(folder.join(FILE), other)?;
            let refused = check(&folder).err().ok_or(ErrorKind::Other)?;
            assert!(refused.kind() == ErrorKind::Unsupported && refused.to_string().contains("reads version \"1\""));
        }
        fs::remove_dir_all(&folder)
    }
}
