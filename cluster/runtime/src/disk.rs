//! Files that are written whole, and only for who runs the node.

use std::fs::{self, DirBuilder, File, OpenOptions, Permissions};
use std::io::{self, Write};
use std::os::unix::fs::{DirBuilderExt, OpenOptionsExt, PermissionsExt};
use std::path::Path;

/// Only who runs the node reads and writes a file.
pub const OWN_FILE: u32 = 0o600;

/// And a folder.
const OWN_FOLDER: u32 = 0o700;

/// Options for a file that nobody else reads, where it is made.
pub fn own_file() -> OpenOptions {
    let mut options = OpenOptions::new();
    options.mode(OWN_FILE);
    options
}

/// Makes a folder, and those above it, where they are not there; nobody else reads a new one.
pub fn make_folder(folder: &Path) -> io::Result<()> {
    DirBuilder::new().recursive(true).mode(OWN_FOLDER).create(folder)
}

/// Whatever a folder was before, nobody else reads what is in it from now on.
pub fn close_folder(folder: &Path) -> io::Result<()> {
    fs::set_permissions(folder, Permissions::from_mode(OWN_FOLDER))
}

/// What is in a folder is safe: names that were given, and taken away.
pub fn sync_folder(folder: &Path) -> io::Result<()> {
    File::open(folder)?.sync_all()
}

/// Writes a file that stands there whole and safe, or as it was before: a second file, sync, rename, sync of the
/// folder.
pub fn write_whole(path: &Path, bytes: &[u8]) -> io::Result<()> {
    let next = path.with_extension("next");
    let mut file = own_file().create(true).truncate(true).write(true).open(&next)?;
    file.write_all(bytes)?;
    file.sync_all()?;
    fs::rename(&next, path)?;
    path.parent().map_or(Ok(()), sync_folder)
}
