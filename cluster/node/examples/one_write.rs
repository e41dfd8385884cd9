//! A coordinator and three hosts in one process, without a disk: a table is made, and one write is acknowledged.

use sevunthi::{Address, Answer, Envelope, Fault, Node, Ready, Shape, Work, message};

/// Takes what a node wants, brings its messages to the others, and theirs on, until nothing is left.
fn settle(nodes: &mut [Node]) -> Result<Vec<Answer>, Fault> {
    let mut answers = Vec::new();
    loop {
        let mut messages = Vec::new();
        for node in nodes.iter_mut() {
            let mut ready = Ready::default();
            node.ready(&mut ready)?;
            let written = node.good();
            node.synced(written)?; // a server writes `ready.journal`, and syncs, before it says so
            node.ready(&mut ready)?;
            messages.extend(ready.messages().map(<[u8]>::to_vec));
        }
        if messages.is_empty() {
            return Ok(answers);
        }
        for message in messages {
            let envelope = Envelope::read(&message).ok_or(Fault::Malformed)?;
            match envelope.to {
                Address::Coordinator => nodes[3].deliver(&message)?,
                Address::Server(id) => nodes[usize::from(id.index)].deliver(&message)?,
                Address::Outside => answers.extend(envelope.answer()),
            }
        }
    }
}

fn main() -> Result<(), Fault> {
    let host = |index| Node::host(Shape { index, factor: 2, segment: 1024, free: true });
    let mut nodes = [host(0)?, host(1)?, host(2)?, Node::coordinator()?];
    settle(&mut nodes)?;
    nodes[..3].iter_mut().try_for_each(Node::start)?;
    settle(&mut nodes)?;
    let owner = nodes[0].info().server;
    nodes[3].step(Work::Create { table: 7, owner })?;
    settle(&mut nodes)?;
    let mut write = Vec::new();
    message::write(owner, 7, 5, Some(b"hello"), &mut write);
    nodes[0].deliver(&write)?;
    println!("{:?}", settle(&mut nodes)?);
    Ok(())
}
