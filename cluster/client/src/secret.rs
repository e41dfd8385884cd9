//! What both sides of a connection have. It stands in files that nobody else reads, and in no log.

use std::fmt;
use std::fs;
use std::path::{Path, PathBuf};

/// How many bytes a secret has at least.
pub const LEAST: usize = 32;

/// What is behind the name of a secret's file in that of the one beside it.
const ALSO: &str = ".also";

/// Bytes that nobody else knows. They are not shown.
#[derive(Clone, Default)]
pub struct Secret(Vec<u8>);

impl fmt::Debug for Secret {
    fn fmt(&self, f: &mut fmt::Formatter<'_>) -> fmt::Result {
        f.write_str("Secret")
    }
}

impl Secret {
    /// Its bytes.
    pub fn bytes(&self) -> &[u8] {
        &self.0
    }

    /// The secret of these bytes, if they are so many that nobody guesses them.
    pub fn of(bytes: Vec<u8>) -> Option<Secret> {
        (LEAST <= bytes.len()).then_some(Secret(bytes))
    }

    /// The secret of a file.
    ///
    /// # Errors
    ///
    /// Why there is none, in words.
    pub fn read(file: &Path) -> Result<Secret, String> {
        let bytes = fs::read(file).map_err(|error| format!("{}: {error}", file.display()))?;
        Secret::of(bytes).ok_or_else(|| format!("{}: a secret has at least {LEAST} bytes", file.display()))
    }
}

/// The file of a secret. While the secret is replaced by another there are two: that of this file is shown, and that of
/// the file beside it, whose name ends in `.also`, is taken too. Both are read as often as somebody connects.
#[derive(Clone, Debug, PartialEq, Eq)]
pub struct SecretFile(PathBuf);

impl SecretFile {
    /// The file of this name, and the one beside it.
    pub fn new(file: impl Into<PathBuf>) -> SecretFile {
        SecretFile(file.into())
    }

    /// Its name.
    pub fn path(&self) -> &Path {
        &self.0
    }

    /// The file beside it.
    pub fn also(&self) -> PathBuf {
        let mut name = self.0.clone().into_os_string();
        name.push(ALSO);
        name.into()
    }

    /// What is shown.
    ///
    /// # Errors
    ///
    /// Why there is none, in words.
    pub fn shown(&self) -> Result<Secret, String> {
        Secret::read(&self.0)
    }

    /// What is taken: one or two, and none where neither file has any.
    pub fn taken(&self) -> impl Iterator<Item = Secret> {
        [self.0.clone(), self.also()].into_iter().filter_map(|file| Secret::read(&file).ok())
    }
}

#[cfg(test)]
mod tests {
    use super::*;

    #[test]
    fn a_secret_is_long_and_shown_nowhere() {
        assert!(Secret::of(vec![7; LEAST - 1]).is_none());
        let secret = Secret::of(vec![7; LEAST]).expect("it is long enough");
        assert_eq!(format!("{secret:?}"), "Secret");
        let missing = Secret::read(Path::new("/nobody/made/this"));
        assert!(missing.is_err_and(|why| why.starts_with("/nobody/made/this: ")));
    }

    #[test]
    fn two_files_may_have_one() -> std::io::Result<()> {
        let file = std::env::temp_dir().join(format!("sevunthi-two-secrets-{}", std::process::id()));
        let files = SecretFile::new(&file);
        let count = |files: &SecretFile| files.taken().count();
        assert_eq!(count(&files), 0);
        fs::write(&file, [1; LEAST])?;
        fs::write(files.also(), [2; LEAST - 1])?;
        assert_eq!(count(&files), 1);
        fs::write(files.also(), [2; LEAST])?;
        assert_eq!(files.taken().map(|secret| secret.bytes()[0]).collect::<Vec<_>>(), [1, 2]);
        assert_eq!(files.shown().map(|secret| secret.bytes()[0]), Ok(1));
        fs::remove_file(files.also())?;
        fs::remove_file(file)
    }
}
