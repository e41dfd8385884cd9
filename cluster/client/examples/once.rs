//! Each request is done exactly once, though answers are lost and are asked for again: by conditional writes, over owners
//! that end.
//!
//! `once PORT HOSTS SECONDS CLIENTS`: so many clients, 60 at most, add drawn amounts to one sum, at a key of table 1 of a
//! cluster on this machine. At the end the sum has to be that of all that was added: nothing is unknown in the end.
//!
//! 1. A client numbers its requests, has one at a time, and never uses a number again. (One that ends in the middle goes on
//!    with the number that stands there for it.)
//! 2. The value has, beside what it is about, the number of each client's last request that was done. A request and its
//!    number are written by the same conditional write, so they are there together or not at all.
//! 3. Before it writes, a client looks for its number in what is there: if it stands there the request was done.
//! 4. Where the answer is lost, it begins again with 3. If the lost write is done later, its version is the one that the
//!    next try was compared with: of both one is done, and the other one sees a mismatch, and looks again.
//!
//! Where clients come and go the numbers of those that are gone have to be taken out some time after.

use sevunthi_client::{Client, Error, Found, Target};
use std::collections::BTreeMap;
use std::process::ExitCode;
use std::thread;
use std::time::{Duration, Instant};

const TABLE: u32 = 1;
const KEY: u64 = 1 << 40;

/// What stands at the key: a sum, and of each client the number of its last request that is in it.
#[derive(Clone, Debug, Default, PartialEq, Eq)]
struct Sum {
    sum: u64,
    done: BTreeMap<u8, u64>,
}

impl Sum {
    fn code(&self) -> Vec<u8> {
        let mut code = self.sum.to_le_bytes().to_vec();
        for (client, number) in &self.done {
            code.push(*client);
            code.extend_from_slice(&number.to_le_bytes());
        }
        code
    }

    fn read(found: &Found) -> Sum {
        let number = |bytes: &[u8]| bytes.try_into().map_or(0, u64::from_le_bytes);
        let value = found.value.as_deref().unwrap_or_default();
        let (sum, rest) = value.split_at_checked(8).unwrap_or_default();
        Sum { sum: number(sum), done: rest.chunks_exact(9).map(|row| (row[0], number(&row[1..]))).collect() }
    }
}

/// How often something was asked again, and for what.
#[derive(Clone, Copy, Debug, Default)]
struct Again {
    unknown: u64,
    /// Of those, requests that had been done.
    were_done: u64,
    mismatches: u64,
}

/// Adds an amount, by the client's request of this number: it returns when that is done.
fn add(client: &mut Client, of: u8, number: u64, amount: u64, again: &mut Again) {
    let (mut there, mut is_unknown) = (None, false);
    loop {
        let Some(found) = there.take().or_else(|| client.get(TABLE, KEY).ok()) else { continue };
        let mut sum = Sum::read(&found);
        if sum.done.get(&of).is_some_and(|last| number <= *last) {
            again.were_done += u64::from(is_unknown);
            return;
        }
        sum.sum += amount;
        sum.done.insert(of, number);
        match client.put_if(TABLE, KEY, found.version, &sum.code()) {
            Ok(_) => return,
            Err(Error::Mismatch(found)) => {
                again.mismatches += 1;
                there = Some(found);
            }
            Err(Error::Unknown) => {
                again.unknown += 1;
                is_unknown = true;
            }
            // it was not done
            Err(Error::Refused(_) | Error::Unasked(_) | Error::NotLetIn(_)) => {}
        }
    }
}

/// Adds amounts until the end. Gives how many, their sum, and what was asked again.
fn live(target: Target, of: u8, end: Instant) -> (u64, u64, Again) {
    let (mut client, mut sum, mut again) = (Client::new(target), 0, Again::default());
    let mut number = 0;
    while Instant::now() < end {
        number += 1;
        let amount = (number * 7919 + u64::from(of)) % 1000;
        add(&mut client, of, number, amount, &mut again);
        sum += amount;
    }
    (number, sum, again)
}

fn main() -> ExitCode {
    let words: Vec<u64> = std::env::args().skip(1).filter_map(|word| word.parse().ok()).collect();
    let &[port, hosts, seconds, clients @ 1..=60] = &words[..] else {
        eprintln!("usage: once PORT HOSTS SECONDS CLIENTS");
        return ExitCode::from(2);
    };
    let target = Target::on("127.0.0.1", port as u16, hosts as u8);
    let end = Instant::now() + Duration::from_secs(seconds);
    let clients: Vec<_> = (0..clients as u8)
        .map(|of| {
            let target = target.clone();
            thread::spawn(move || live(target, of, end))
        })
        .collect();
    let (mut count, mut added, mut all) = (0, 0, Again::default());
    for (done, sum, again) in clients.into_iter().filter_map(|client| client.join().ok()) {
        count += done;
        added += sum;
        all.unknown += again.unknown;
        all.were_done += again.were_done;
        all.mismatches += again.mismatches;
    }
    let mut client = Client::new(target);
    let is = loop {
        if let Ok(found) = client.get(TABLE, KEY) {
            break Sum::read(&found).sum;
        }
    };
    let Again { unknown, were_done, mismatches } = all;
    println!(
        "{count} amounts were added, {added} in all, and the sum is {is}; {mismatches} mismatches; {unknown} were unknown, \
         of which {were_done} had been done"
    );
    if is == added && 0 < count { ExitCode::SUCCESS } else { ExitCode::FAILURE }
}
