//! What the keys of a cluster begin with in etcd. The secret says it at first; the coordinator's folder keeps it, since
//! secrets are replaced.

use crate::disk;
use crate::secret::SecretFile;
use std::fs;
use std::io::ErrorKind;
use std::path::Path;

/// The file of a coordinator's folder that keeps it.
const KEPT: &str = "store-name";

/// What a secret says.
fn of_secret(file: &SecretFile) -> Result<String, String> {
    let sum = sevunthi::mac(file.shown()?.bytes(), b"etcd");
    Ok(sum[..8].iter().map(|byte| format!("{byte:02x}")).collect())
}

/// The name of the cluster of this coordinator's folder, which keeps it from now on.
pub fn name(folder: &Path, given: Option<&str>, secret: Option<&SecretFile>) -> Result<String, String> {
    let file = folder.join(KEPT);
    let told = |error: std::io::Error| format!("{}: {error}", file.display());
    let kept = match fs::read_to_string(&file) {
        Ok(text) => Some(text.trim().to_string()),
        Err(error) if error.kind() == ErrorKind::NotFound => None,
        Err(error) => return Err(told(error)),
    };
    let name = match (&kept, given, secret) {
        (Some(kept), Some(given), _) if kept != given => {
            return Err(format!("--store-name is {kept} in this folder, and stays so: {given} is another cluster's"));
        }
        (Some(kept), ..) => return Ok(kept.clone()),
        (None, Some(given), _) => given.to_string(),
        (None, None, Some(secret)) => of_secret(secret)?,
        (None, None, None) => return Err("--store-name is missing: without --secret nothing else says it".to_string()),
    };
    if name.is_empty() || !name.bytes().all(|byte| byte.is_ascii_alphanumeric() || b"-._".contains(&byte)) {
        return Err(format!("--store-name is made of letters, digits, points and lines, and not {name}"));
    }
    disk::make_folder(folder).map_err(told)?;
    disk::write_whole(&file, format!("{name}\n").as_bytes()).map_err(told)?;
    Ok(name)
}

#[cfg(test)]
mod tests {
    use super::*;

    #[test]
    fn a_name_stays_when_the_secret_is_replaced() -> Result<(), String> {
        let told = |error: std::io::Error| error.to_string();
        let folder = std::env::temp_dir().join(format!("sevunthi-store-name-{}", std::process::id()));
        let _ = fs::remove_dir_all(&folder);
        fs::create_dir_all(&folder).map_err(told)?;
        let secret = SecretFile::new(folder.join("secret"));
        fs::write(secret.path(), [1; 32]).map_err(told)?;
        let first = name(&folder, None, Some(&secret))?;
        assert_eq!(first.len(), 16);
        fs::write(secret.path(), [2; 32]).map_err(told)?;
        assert_eq!(name(&folder, None, Some(&secret))?, first);
        assert_eq!(name(&folder, Some(&first), None)?, first);
        assert!(name(&folder, Some("another"), Some(&secret)).is_err_and(|why| why.contains("stays so")));
        let other = folder.join("other");
        assert!(name(&other, None, None).is_err());
        assert!(name(&other, Some("a/b"), None).is_err());
        assert_eq!(name(&other, Some("mine"), Some(&secret))?, "mine");
        assert_ne!(name(&folder.join("third"), None, Some(&secret))?, first);
        fs::remove_dir_all(folder).map_err(told)
    }
}
