//! An owner over nodes in one process: four hosts and a coordinator, whose messages are brought when a test says so.

use sevunthi::message;
use sevunthi::{Address, Answer, Envelope, Fault, Id, Node, Ready, Shape, Work};
use sevunthi_runtime::owner::{Condition, Entry, Ground, KEYS, Outcome, Owner, Page, What};
use std::borrow::Cow;
use std::collections::VecDeque;

const HOSTS: u8 = 4;
const TABLE: u32 = 7;

/// All nodes, of which the host of index 0 is the owner's; and what has become of requests.
struct World {
    nodes: Vec<Node>,
    mail: VecDeque<Vec<u8>>,
    done: Vec<(u32, Outcome)>,
}

impl World {
    fn new() -> Result<World, Fault> {
        let shape = |index| Shape { index, factor: 2, segment: 4, free: true };
        let mut nodes = (0..HOSTS).map(|index| Node::host(shape(index))).collect::<Result<Vec<_>, _>>()?;
        nodes.push(Node::coordinator()?);
        let mut world = World { nodes, mail: VecDeque::new(), done: Vec::new() };
        for index in 0..usize::from(HOSTS) {
            world.collect(index, &mut |_| {});
            world.nodes[index].start()?;
        }
        Ok(world)
    }

    /// Takes what a node has to say, all of which is safe at once.
    fn collect(&mut self, index: usize, answer: &mut dyn FnMut(Answer)) {
        for _ in 0..2 {
            let (node, mut ready) = (&mut self.nodes[index], Ready::default());
            node.ready(&mut ready).expect("there is memory");
            let safe = node.good();
            node.synced(safe).expect("it was taken");
            for message in ready.messages() {
                let envelope = Envelope::read(message).expect("it is one");
                match envelope.to {
                    Address::Outside => envelope.answer().into_iter().for_each(&mut *answer),
                    Address::Coordinator | Address::Server(_) => self.mail.push_back(message.to_vec()),
                }
            }
        }
    }

    /// Brings all messages, until none is left.
    fn settle(&mut self, owner: &mut Owner<u32>) {
        for index in 1..=usize::from(HOSTS) {
            self.collect(index, &mut |_| {});
        }
        owner.route(self);
        while let Some(message) = self.mail.pop_front() {
            let envelope = Envelope::read(&message).expect("it is one");
            let to = match envelope.to {
                Address::Server(id) => usize::from(id.index),
                Address::Coordinator | Address::Outside => usize::from(HOSTS),
            };
            self.nodes[to].deliver(&message).expect("it is taken");
            if to == 0 {
                owner.take(&envelope);
                owner.route(self);
            } else {
                self.collect(to, &mut |_| {});
            }
        }
    }

    /// Brings all, asks again what waits, and has reads confirmed, until nothing is left.
    fn rest(&mut self, owner: &mut Owner<u32>) -> Vec<(u32, Outcome)> {
        for _ in 0..10 {
            self.settle(owner);
            while owner.retry(self) == Some(false) {}
            owner.confirm(self);
        }
        std::mem::take(&mut self.done)
    }
}

impl Ground for World {
    type Ticket = u32;

    fn node(&mut self) -> &mut Node {
        &mut self.nodes[0]
    }

    fn give(&mut self, message: &[u8]) -> Result<(), Fault> {
        self.nodes[0].deliver(message)
    }

    fn route(&mut self, answer: &mut dyn FnMut(Answer)) {
        self.collect(0, answer);
    }

    fn done(&mut self, ticket: u32, outcome: Outcome) {
        self.done.push((ticket, outcome));
    }
}

/// Host 0 owns a table of all keys.
fn owning() -> Result<(World, Owner<u32>), Fault> {
    let (mut world, mut owner) = (World::new()?, Owner::default());
    owner.begin(&mut world, Id { index: 0, generation: 1 });
    world.settle(&mut owner);
    world.nodes[usize::from(HOSTS)].step(Work::Create { table: TABLE, owner: owner.server() })?;
    world.settle(&mut owner);
    assert_eq!(owner.ranges().map(|range| (range.first, range.last)).collect::<Vec<_>>(), [(0, KEYS - 1)]);
    Ok((world, owner))
}

fn put(value: &[u8]) -> What<'_> {
    What::Write(Some(Cow::Borrowed(value)))
}

#[test]
fn each_answer_is_that_of_its_request() -> Result<(), Fault> {
    let (mut world, mut owner) = owning()?;
    // more than two segments take: rolls are waited for
    for number in 0..10 {
        owner.ask(&mut world, number, TABLE, u64::from(number % 3), put(b"x"));
    }
    assert!(world.done.is_empty() && owner.waiting_count() != 0);
    let mut done = world.rest(&mut owner);
    done.sort_unstable_by_key(|(number, _)| *number);
    let written = (0..10).map(|number: u32| (number, Outcome::Written(u64::from(number / 3 + 1))));
    assert_eq!(done, written.collect::<Vec<_>>());
    Ok(())
}

#[test]
fn a_read_waits_for_a_write_that_confirms_it() -> Result<(), Fault> {
    let (mut world, mut owner) = owning()?;
    owner.ask(&mut world, 0, TABLE, 5, put(b"a"));
    world.rest(&mut owner);
    owner.ask(&mut world, 1, TABLE, 5, What::Read);
    owner.ask(&mut world, 2, TABLE, 5, What::ReadFast);
    let found = Outcome::Found(1, Some(b"a".to_vec()));
    assert_eq!(std::mem::take(&mut world.done), [(2, found.clone())]);
    world.settle(&mut owner);
    assert!(world.done.is_empty() && owner.reads_count() == 1, "no write has come since");
    assert_eq!(world.rest(&mut owner), [(1, found)]);
    Ok(())
}

#[test]
fn conditions_are_held_against_what_is_durable() -> Result<(), Fault> {
    let (mut world, mut owner) = owning()?;
    let value = || Some(Cow::Borrowed(&b"b"[..]));
    owner.ask(&mut world, 0, TABLE, 5, put(b"a"));
    owner.ask(&mut world, 1, TABLE, 5, What::WriteIf(Condition::Version(1), value()));
    owner.ask(&mut world, 2, TABLE, 5, What::WriteIf(Condition::Version(1), value()));
    assert_eq!(owner.in_turn_count(), 2);
    owner.ask(&mut world, 3, TABLE, 6, What::WriteIf(Condition::Absent, None));
    let mut done = world.rest(&mut owner);
    done.sort_unstable_by_key(|(number, _)| *number);
    let mismatch = Outcome::Mismatch(2, Some(b"b".to_vec()));
    assert_eq!(done, [(0, Outcome::Written(1)), (1, Outcome::Written(2)), (2, mismatch), (3, Outcome::Written(1))]);
    Ok(())
}

#[test]
fn a_range_is_read_in_order_page_by_page() -> Result<(), Fault> {
    let (mut world, mut owner) = owning()?;
    for (number, key) in [40, 10, 30, 20, 50].into_iter().enumerate() {
        owner.ask(&mut world, number as u32, TABLE, key, put(&[key as u8]));
        world.rest(&mut owner);
    }
    owner.ask(&mut world, 5, TABLE, 30, What::Write(None));
    world.rest(&mut owner);
    let page = |keys: &[u64], next| {
        let entry = |key: &u64| Entry { key: *key, version: 1, value: vec![*key as u8] };
        Outcome::Page(Page { entries: keys.iter().map(entry).collect(), next })
    };
    let scan = |last, most| What::Scan { last, most };
    for (first, what, outcome) in [
        (0, scan(KEYS - 1, 9), page(&[10, 20, 40, 50], None)),
        (10, scan(u64::MAX, 2), page(&[10, 20], Some(40))),
        (11, scan(40, 9), page(&[20, 40], None)),
        (41, scan(49, 9), page(&[], None)),
    ] {
        owner.ask(&mut world, 9, TABLE, first, what);
        assert!(world.done.is_empty(), "it waits to be confirmed");
        assert_eq!(world.rest(&mut owner), [(9, outcome)]);
    }
    owner.ask(&mut world, 9, TABLE + 1, 0, scan(9, 9));
    assert_eq!(world.done, [(9, Outcome::Refused(2))]);
    // what was deleted is no key any more
    assert_eq!(owner.keys_count(), 4);
    Ok(())
}

#[test]
fn what_a_recovery_brings_is_in_its_range() -> Result<(), Fault> {
    let (mut world, mut owner) = (World::new()?, Owner::default());
    owner.begin(&mut world, Id { index: 0, generation: 1 });
    world.settle(&mut owner);
    let (other, coordinator) = (Id { index: 1, generation: 1 }, usize::from(HOSTS));
    world.nodes[coordinator].step(Work::Create { table: TABLE, owner: other })?;
    world.settle(&mut owner);
    // (as many as a segment takes)
    for (key, value) in [(30, Some(&b"x"[..])), (20, Some(b"x")), (20, None), (10, Some(b"x"))] {
        let mut code = Vec::new();
        message::write(other, TABLE, 2 * key, value, &mut code);
        world.nodes[1].deliver(&code)?;
        world.settle(&mut owner);
    }
    assert_eq!((owner.ranges().count(), owner.keys_count()), (0, 0));
    for work in [Work::Suspect(other), Work::Decide(other)] {
        world.nodes[coordinator].step(work)?;
        world.settle(&mut owner);
    }
    assert_eq!((owner.ranges().count(), owner.keys_count()), (1, 3));
    let page = owner.entries(&mut world, TABLE, 0..=KEYS - 1, 9).map_err(|_| Fault::Refused)?;
    assert_eq!(page.entries.iter().map(|entry| entry.key).collect::<Vec<_>>(), [10, 30]);
    assert_eq!(page.next, None);
    Ok(())
}

#[test]
fn what_was_asked_of_a_server_that_is_replaced_is_unknown() -> Result<(), Fault> {
    let (mut world, mut owner) = owning()?;
    owner.ask(&mut world, 0, TABLE, 5, put(b"a"));
    owner.ask(&mut world, 1, TABLE, 5, What::WriteIf(Condition::Absent, None));
    owner.ask(&mut world, 2, TABLE, 6, What::Read);
    world.nodes[0].start()?;
    owner.begin(&mut world, Id { index: 0, generation: 2 });
    let deposed = Outcome::Refused(5);
    assert_eq!(world.done, [(1, deposed.clone()), (0, Outcome::Unknown), (2, deposed)]);
    assert!(owner.ranges().next().is_none() && owner.keys_count() == 0);
    Ok(())
}
