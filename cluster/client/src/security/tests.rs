//! Sessions over their queues, without a socket between them.

use super::greeting::{Greeted, Greeting};
use super::{Acceptor, Secret, SecretFile, Session, Unproved, begin};
use crate::hello::Role;
use std::collections::VecDeque;
use std::fs;
use std::io::{self, ErrorKind};
use std::path::PathBuf;

/// The place of who listens.
const HERE: u8 = 3;

/// A folder of this test alone, with the file of a secret for each role.
struct Files(PathBuf);

impl Files {
    fn of(test: &str) -> io::Result<Files> {
        let folder = std::env::temp_dir().join(format!("sevunthi-security-{test}-{}", std::process::id()));
        fs::create_dir_all(&folder)?;
        let files = Files(folder);
        Role::ALL.iter().zip(1..).try_for_each(|(role, byte)| fs::write(files.file(*role).path(), [byte; 32]))?;
        Ok(files)
    }

    fn file(&self, role: Role) -> SecretFile {
        SecretFile::new(self.0.join(char::from(role.code()).to_string()))
    }

    fn acceptor(&self) -> io::Result<Acceptor> {
        Acceptor::new(HERE, Role::ALL.iter().map(|role| (*role, self.file(*role))).collect())
    }

    fn secret(&self, role: Role) -> Secret {
        self.file(role).shown().expect("it is there")
    }
}

impl Drop for Files {
    fn drop(&mut self) {
        let _ = fs::remove_dir_all(&self.0);
    }
}

/// One side of a handshake.
enum End {
    Waits(Greeting),
    Done(Session),
    Failed(Unproved),
}

impl End {
    fn go_on(self, came: &[u8], out: &mut Vec<u8>) -> End {
        match self {
            End::Waits(greeting) => match greeting.go_on(came, out) {
                Ok(Greeted::Waits(greeting)) => End::Waits(greeting),
                Ok(Greeted::Done(session)) => End::Done(session),
                Err(unproved) => End::Failed(unproved),
            },
            End::Done(mut session) => {
                session.add(came);
                End::Done(session)
            }
            End::Failed(unproved) => End::Failed(unproved),
        }
    }

    fn session(self) -> Option<Session> {
        match self {
            End::Done(session) => Some(session),
            End::Waits(_) | End::Failed(_) => None,
        }
    }

    /// What became of it, in a word.
    fn told(&self) -> String {
        match self {
            End::Waits(_) => "waits".to_string(),
            End::Done(session) => format!("{:?}", session.role()),
            End::Failed(unproved) => unproved.to_string(),
        }
    }
}

/// A handshake of who connects with who listens, where the bytes of each flight go through `pass`.
fn meet(dialer: Greeting, listener: Greeting, mut pass: impl FnMut(usize, &mut Vec<u8>)) -> (End, End) {
    let (mut one, mut other) = (End::Waits(dialer), End::Waits(listener));
    let mut came = Vec::new();
    for flight in 0..6 {
        let mut out = Vec::new();
        one = one.go_on(&came, &mut out);
        pass(flight, &mut out);
        came = out;
        std::mem::swap(&mut one, &mut other);
    }
    (one, other)
}

/// What who connects and who listens say of one another.
fn said(acceptor: &Acceptor, role: Role, place: u8, secret: &Secret) -> io::Result<[String; 2]> {
    let (one, other) = meet(begin(role, place, secret)?, acceptor.begin()?, |_, _| {});
    Ok([one.told(), other.told()])
}

/// Two ends of a connection.
fn both(files: &Files) -> io::Result<[Session; 2]> {
    let secret = files.secret(Role::Client);
    let (one, other) = meet(begin(Role::Client, HERE, &secret)?, files.acceptor()?.begin()?, |_, _| {});
    Ok([one, other].map(|end| end.session().expect("both have the secret")))
}

#[test]
fn a_secret_is_good_for_its_role_and_place_alone() -> io::Result<()> {
    let files = Files::of("roles")?;
    let acceptor = files.acceptor()?;
    for role in Role::ALL {
        for of in Role::ALL {
            let known = said(&acceptor, role, HERE, &files.secret(of))?;
            let expected = if role == of { format!("{role:?}") } else { "it has another secret".to_string() };
            assert_eq!(known, [expected.clone(), expected], "{role:?} with the secret of {of:?}");
        }
        let elsewhere = "another place was asked for than the one that listens there";
        assert_eq!(said(&acceptor, role, HERE + 1, &files.secret(role))?, [elsewhere; 2]);
    }
    Ok(())
}

/// Who listens has no secret of clients: they need none there, or have no business there.
#[test]
fn a_role_that_has_no_file_is_told() -> io::Result<()> {
    let files = Files::of("closed")?;
    let acceptor = Acceptor::new(HERE, vec![(Role::Peer, files.file(Role::Peer))])?;
    for role in [Role::Client, Role::Operator] {
        let told = said(&acceptor, role, HERE, &files.secret(role))?;
        assert_eq!(told, ["a proof was given, and who listens has no secret of that kind"; 2]);
    }
    assert_eq!(said(&acceptor, Role::Peer, HERE, &files.secret(Role::Peer))?, ["Peer"; 2]);
    Ok(())
}

#[test]
fn two_secrets_are_taken_while_one_is_replaced() -> io::Result<()> {
    let files = Files::of("replaced")?;
    let (acceptor, file) = (files.acceptor()?, files.file(Role::Peer));
    let (old, new) = (files.secret(Role::Peer), Secret::of(vec![9; 32]).expect("it is long enough"));
    let takes = |secret: &Secret| said(&acceptor, Role::Peer, HERE, secret).map(|said| said == ["Peer", "Peer"]);
    assert_eq!((takes(&old)?, takes(&new)?), (true, false));
    fs::write(file.also(), new.bytes())?;
    assert_eq!((takes(&old)?, takes(&new)?), (true, true));
    fs::rename(file.also(), file.path())?;
    assert_eq!((takes(&old)?, takes(&new)?), (false, true));
    // who has no secret at all takes nobody, and goes on
    fs::remove_file(file.path())?;
    assert_eq!(
        (takes(&new)?, said(&acceptor, Role::Client, HERE, &files.secret(Role::Client))?[0].as_str()),
        (false, "Client")
    );
    Ok(())
}

#[test]
fn what_is_said_comes_both_ways_in_pieces_of_any_length_and_is_hidden() -> io::Result<()> {
    let files = Files::of("both")?;
    for step in [1, 7, 4096, 1 << 20] {
        let text: Vec<u8> = (0..100_000_u32).map(|number| (number % 251) as u8).collect();
        let [mut one, mut other] = both(&files)?;
        for _ in 0..2 {
            let (mut sealed, mut heard, mut room) = (Vec::new(), Vec::new(), vec![0; 1000]);
            assert_eq!(other.open(&mut room)?, None);
            text.chunks(30_000).try_for_each(|piece| one.seal(piece, &mut sealed))?;
            assert!(!sealed.windows(8).any(|piece| piece == &text[..8]));
            for piece in sealed.chunks(step) {
                other.add(piece);
                while let Some(count) = other.open(&mut room)? {
                    heard.extend_from_slice(&room[..count]);
                }
            }
            assert!(heard == text, "by {step}");
            std::mem::swap(&mut one, &mut other);
        }
    }
    Ok(())
}

#[test]
fn what_was_changed_left_out_or_said_again_ends_it() -> io::Result<()> {
    let files = Files::of("changed")?;
    let mut room = [0; 100];
    let ended = |session: &mut Session, room: &mut [u8]| session.open(room).map_err(|error| error.kind());
    let record = |session: &mut Session, text: &[u8]| -> io::Result<Vec<u8>> {
        let mut out = Vec::new();
        session.seal(text, &mut out)?;
        Ok(out)
    };
    let length = record(&mut both(&files)?[0], b"some text")?.len();
    for at in 0..length {
        let [mut one, mut other] = both(&files)?;
        let mut changed = record(&mut one, b"some text")?;
        changed[at] ^= 1;
        other.add(&changed);
        // (with a longer length the rest is waited for)
        assert!(matches!(ended(&mut other, &mut room), Ok(None) | Err(ErrorKind::InvalidData)), "at {at}");
        other.add(&record(&mut one, &[7; 1000])?);
        assert_eq!(ended(&mut other, &mut room), Err(ErrorKind::InvalidData), "at {at}");
    }
    let [mut one, mut other] = both(&files)?;
    let first = record(&mut one, b"first")?;
    other.add(&first);
    assert_eq!(ended(&mut other, &mut room), Ok(Some(5)));
    other.add(&first);
    assert_eq!(ended(&mut other, &mut room), Err(ErrorKind::InvalidData));
    let [mut one, mut other] = both(&files)?;
    record(&mut one, b"first")?;
    other.add(&record(&mut one, b"second")?);
    assert_eq!(ended(&mut other, &mut room), Err(ErrorKind::InvalidData));
    // what was said on one connection is nothing on another
    let [mut one, _] = both(&files)?;
    let [_, mut other] = both(&files)?;
    other.add(&record(&mut one, b"first")?);
    assert_eq!(ended(&mut other, &mut room), Err(ErrorKind::InvalidData));
    Ok(())
}

/// Each byte of the first two flights is changed, but those that TLS does not look at: versions of records.
#[test]
fn who_is_told_what_was_changed_in_a_handshake_is_not_let_in() -> io::Result<()> {
    let files = Files::of("handshake")?;
    let (acceptor, secret) = (files.acceptor()?, files.secret(Role::Client));
    let mut lengths = [0; 2];
    let _ = meet(begin(Role::Client, HERE, &secret)?, acceptor.begin()?, |flight, bytes| {
        lengths.get_mut(flight).into_iter().for_each(|length| *length = bytes.len());
    });
    for (changed, length) in lengths.into_iter().enumerate() {
        // a dummy record stands behind the ServerHello, whose body nobody needs
        let end = if changed == 0 { length } else { 100 };
        for at in 5..end.min(length) {
            let (one, other) = meet(begin(Role::Client, HERE, &secret)?, acceptor.begin()?, |flight, bytes| {
                if flight == changed {
                    bytes[at] ^= 1;
                }
            });
            let told = [other.told(), one.told()];
            assert_ne!(told[changed], "Client", "flight {changed}, at {at}");
        }
    }
    Ok(())
}

#[test]
fn who_speaks_no_tls_is_told_apart() -> io::Result<()> {
    let files = Files::of("strangers")?;
    let (acceptor, secret) = (files.acceptor()?, files.secret(Role::Peer));
    let answered = |answer: &[u8]| -> io::Result<String> {
        let end = End::Waits(begin(Role::Peer, HERE, &secret)?);
        let mut out = Vec::new();
        Ok(end.go_on(b"", &mut out).go_on(answer, &mut out).told())
    };
    assert_eq!(answered(&Acceptor::refusal())?, "a proof was given, and who listens has no secret of that kind");
    assert!(answered(b"HTTP/1.1 400 Bad Request\r\n")?.starts_with("it does not speak TLS 1.3 under a secret: "));
    assert_eq!(answered(b"")?, "waits");
    for said in [&b"P\x01\x00\x03more"[..], b"GET / HTTP/1.1\r\n", &[22, 3, 3, 255, 255, 1]] {
        let mut out = Vec::new();
        let told = End::Waits(acceptor.begin()?).go_on(said, &mut out).told();
        assert!(told.starts_with("it does not speak TLS 1.3 under a secret: "), "{told}");
    }
    Ok(())
}

/// A listener that has not the secret, but that of others.
#[test]
fn a_listener_without_the_secret_is_not_believed() -> io::Result<()> {
    let [files, others] = [Files::of("mine")?, Files::of("theirs")?];
    fs::write(others.file(Role::Peer).path(), [77; 32])?;
    let told = said(&others.acceptor()?, Role::Peer, HERE, &files.secret(Role::Peer))?;
    assert_eq!(told, ["it has another secret"; 2]);
    Ok(())
}

/// Bytes that are drawn, in place of a flight or within it, do no harm, and let nobody in.
#[test]
fn drawn_bytes_let_nobody_in() -> io::Result<()> {
    let files = Files::of("drawn")?;
    let (acceptor, secret) = (files.acceptor()?, files.secret(Role::Peer));
    let mut state = 0x9e37_79b9_7f4a_7c15_u64;
    let mut drawn = move || {
        state = state.wrapping_mul(6_364_136_223_846_793_005).wrapping_add(1_442_695_040_888_963_407);
        (state >> 33) as usize
    };
    let mut told = VecDeque::new();
    for round in 0..300 {
        let (one, other) = meet(begin(Role::Peer, HERE, &secret)?, acceptor.begin()?, |flight, bytes| {
            if flight == round % 2 && !bytes.is_empty() {
                for _ in 0..=drawn() % 20 {
                    let at = 5 + drawn() % (bytes.len() - 5).clamp(1, 100);
                    if let Some(byte) = bytes.get_mut(at) {
                        *byte = byte.wrapping_add(1 + (drawn() % 255) as u8);
                    }
                }
            }
        });
        told.push_back([other.told(), one.told()][round % 2].clone());
    }
    // (the same byte may be changed back)
    let let_in = told.iter().filter(|told| *told == "Peer").count();
    assert!(let_in <= 3, "{let_in}");
    Ok(())
}
