//! Connections on which comes what is no batch, no request and no question.

use crate::client::Target;
use crate::dice::Dice;
use crate::hello::VERSION;
use std::io::{Read, Write};
use std::net::TcpStream;
use std::time::Duration;

/// No request begins with this byte, or a greater one.
const NO_REQUEST: u64 = 100;

/// Talks nonsense to whoever has this place, on some connections.
pub fn make(target: &Target, place: usize, dice: &mut Dice) {
    for _ in 0..8 {
        let Some(mut stream) = connect(target, place) else { continue };
        let kind = b"PACGX\x16"[dice.below(6) as usize];
        let _ = stream.write_all(&[kind]);
        if matches!(kind, b'P' | b'A') {
            // who has proved nothing is answered then
            let _ = stream.write_all(&[VERSION, dice.below(4) as u8, place as u8]);
            let _ = stream.read_exact(&mut [0; 3]);
        }
        for _ in 0..dice.between(1, 8) {
            if stream.write_all(&piece(dice)).is_err() {
                break;
            }
        }
        if dice.below(2) == 0 {
            let _ = stream.read(&mut [0; 64]);
        }
    }
}

fn connect(target: &Target, place: usize) -> Option<TcpStream> {
    let address = format!("{}:{}", target.address, usize::from(target.port) + place).parse().ok()?;
    let stream = TcpStream::connect_timeout(&address, Duration::from_millis(100)).ok()?;
    stream.set_read_timeout(Some(Duration::from_millis(50))).ok()?;
    stream.set_write_timeout(Some(Duration::from_millis(50))).ok()?;
    Some(stream)
}

/// Bytes behind a length, which may be that of others.
fn piece(dice: &mut Dice) -> Vec<u8> {
    let count = dice.below(200);
    let length = match dice.below(4) {
        0 => dice.below(1 << 32) as u32,
        1 => u32::MAX,
        _ => count as u32,
    };
    let mut bytes = length.to_le_bytes().to_vec();
    bytes.extend(dice.bytes(count));
    if let Some(first) = bytes.get_mut(4) {
        *first = dice.between(NO_REQUEST, 255) as u8;
    }
    bytes
}
