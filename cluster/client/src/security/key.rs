//! The key of TLS that is made of a secret: for one role, and one place.

use crate::hello::Role;
use crate::secret::Secret;
use openssl::error::ErrorStack;
use openssl::hash::MessageDigest;
use openssl::pkey::PKey;
use openssl::sign::Signer;

/// How many bytes a key has.
pub(super) const LENGTH: usize = 32;

/// So many bytes of a sum stand in a name, in hexadecimal.
const NAMED: usize = 8;

/// A key, and the name by which it is asked for: the role's letter, and digits. It is not shown.
pub(super) struct Key {
    pub(super) name: String,
    pub(super) bytes: [u8; LENGTH],
}

impl Key {
    /// The key of who connects in this role to whoever has this place. What is for one place is of no use at another.
    pub(super) fn of(role: Role, place: u8, secret: &Secret) -> Result<Key, ErrorStack> {
        let by = PKey::hmac(secret.bytes())?;
        let sum = |what: &str| -> Result<[u8; LENGTH], ErrorStack> {
            let said = format!("sevunthi 1 {what} {} {place}", char::from(role.code()));
            let mut sum = [0; LENGTH];
            let mut signer = Signer::new(MessageDigest::sha256(), &by)?;
            signer.sign_oneshot(&mut sum, said.as_bytes())?;
            Ok(sum)
        };
        let begins = char::from(role.code());
        let name = sum("name")?[..NAMED].iter().fold(begins.to_string(), |name, byte| format!("{name}{byte:02x}"));
        Ok(Key { name, bytes: sum("key")? })
    }
}

/// The role of the key of this name.
pub(super) fn role_of(name: &[u8]) -> Option<Role> {
    Role::ALL.into_iter().find(|role| name.first() == Some(&role.code()))
}

/// What who connects says of the place that it wants to reach, as the name of a server.
pub(super) fn name_of(place: u8) -> String {
    format!("{place}.sevunthi")
}

#[cfg(test)]
mod tests {
    use super::*;
    use std::collections::BTreeSet;

    #[test]
    fn each_role_place_and_secret_has_a_key_of_its_own() {
        let (mut names, mut keys) = (BTreeSet::new(), BTreeSet::new());
        for byte in [1, 2] {
            let secret = Secret::of(vec![byte; 32]).expect("it is long enough");
            for role in Role::ALL {
                for place in 0..70 {
                    let key = Key::of(role, place, &secret).expect("there is one");
                    assert_eq!(role_of(key.name.as_bytes()), Some(role));
                    assert!(names.insert(key.name) && keys.insert(key.bytes));
                }
            }
        }
        assert_eq!((names.len(), keys.len()), (420, 420));
    }

    /// HMAC with SHA-256 of the texts, as any program makes it.
    #[test]
    fn a_key_is_as_the_document_says() {
        let secret = Secret::of(b"0123456789abcdefghijklmnopqrstuv".to_vec()).expect("it is long enough");
        let key = Key::of(Role::Client, 4, &secret).expect("there is one");
        let hexadecimal: String = key.bytes.iter().map(|byte| format!("{byte:02x}")).collect();
        assert_eq!(key.name, "C29ff59c33f9c2ffd");
        assert_eq!(hexadecimal, "b705e33f77a97d93c5562033d561f1120499b2fc3bc4ac7f25f59937d334dbd8");
    }
}
