//! Messages, journals and saves with some bytes changed: each is taken or refused, and what is refused changes nothing.
//! `MUTATIONS` says how many are tried.

use sevunthi::{Fault, Info, Node, Ready, Shape, Work, message};

struct Dice(u64);

impl Dice {
    fn below(&mut self, most: usize) -> usize {
        self.0 = self.0.wrapping_mul(6_364_136_223_846_793_005).wrapping_add(1_442_695_040_888_963_407);
        (self.0 >> 33) as usize % most.max(1)
    }

    /// Some bytes changed, taken away, or put there again.
    fn mutate(&mut self, bytes: &[u8]) -> Vec<u8> {
        let mut bytes = bytes.to_vec();
        for _ in 0..=self.below(3) {
            let at = self.below(bytes.len());
            match self.below(4) {
                0 if !bytes.is_empty() => bytes[at] ^= 1 << self.below(8),
                1 if !bytes.is_empty() => bytes[at] = [0, 1, 255, 2][self.below(4)],
                2 => bytes.truncate(at),
                _ => bytes.extend_from_within(at..),
            }
        }
        bytes
    }
}

type Bytes = Vec<Vec<u8>>;

/// What a cluster in one process has sent, and the journals that it has written.
fn seen() -> Result<(Bytes, Bytes), Fault> {
    let host = |index| Node::host(Shape { index, factor: 2, segment: 4, free: true });
    let mut nodes = [host(0)?, host(1)?, host(2)?, Node::coordinator()?];
    let (mut sent, mut journals, mut next) = (Vec::new(), vec![Vec::new(); 4], 0);
    for round in 0..40 {
        match round {
            1 => nodes[..3].iter_mut().try_for_each(Node::start)?,
            5 => {
                let owner = nodes[0].info().server;
                nodes[3].step(Work::Create { table: 7, owner })?;
            }
            20 => {
                let owner = nodes[0].info().server;
                nodes[3].step(Work::Suspect(owner))?;
            }
            10..20 => {
                let mut write = Vec::new();
                message::write(nodes[0].info().server, 7, round, Some(b"value"), &mut write);
                sent.push(write);
            }
            25..35 => nodes.iter_mut().try_for_each(|node| node.step(Work::Tick))?,
            _ => {}
        }
        for (node, journal) in nodes.iter_mut().zip(&mut journals) {
            let mut ready = Ready::default();
            node.ready(&mut ready)?;
            let written = node.good();
            node.synced(written)?;
            node.ready(&mut ready)?;
            journal.extend_from_slice(&ready.journal);
            sent.extend(ready.messages().map(<[u8]>::to_vec));
        }
        while let Some(message) = sent.get(next) {
            next += 1;
            let to = &message[if message[1] == 1 { 7 } else { 2 }..];
            match to[0] {
                0 => nodes[3].deliver(message)?,
                1 => nodes[usize::from(to[1])].deliver(message)?,
                _ => {}
            }
        }
    }
    Ok((sent, journals))
}

/// A save of the node that comes back from this journal.
fn save_of(journal: &[u8]) -> Result<Vec<u8>, Fault> {
    let mut node = Node::come_back(journal, 0)?;
    node.ready(&mut Ready::default())?;
    let written = node.good();
    node.synced(written)?;
    node.save()
}

/// All but what a look itself may change.
fn state(info: Info) -> (usize, usize, u16, u64) {
    (info.written, info.untaken, info.head, info.entries)
}

#[test]
fn mutations_are_taken_or_refused() -> Result<(), Fault> {
    let count = std::env::var("MUTATIONS").ok().and_then(|word| word.parse().ok()).unwrap_or(20_000);
    let (sent, journals) = seen()?;
    let mut dice = Dice(7);
    let mut nodes: Vec<Node> = journals.iter().map(|journal| Node::come_back(journal, 0)).collect::<Result<_, _>>()?;
    // each node's journal, which begins with the save of a new node, and a save of what has become of it
    let saves: Bytes = journals.iter().map(|journal| save_of(journal)).collect::<Result<_, _>>()?;
    let (mut taken, mut refused) = (0, 0);
    for number in 0..count {
        let place = dice.below(4);
        if number % 16 == 0 {
            let files = if dice.below(2) == 0 { &journals } else { &saves };
            let file = dice.mutate(&files[place]);
            match Node::come_back(&file, 0) {
                Ok(node) => (nodes[place], taken) = (node, taken + 1),
                Err(_) => refused += 1,
            }
            continue;
        }
        let one = dice.below(sent.len());
        let bytes = dice.mutate(&sent[one]);
        let before = state(nodes[place].info());
        match nodes[place].deliver(&bytes) {
            Ok(()) => taken += 1,
            Err(_) => {
                refused += 1;
                assert_eq!(before, state(nodes[place].info()));
            }
        }
    }
    println!("{taken} taken, {refused} refused");
    assert!(0 < taken && 0 < refused);
    Ok(())
}
