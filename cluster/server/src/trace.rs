//! Records as one trace: in the order of the clock, in which each message is sent before it is delivered.

use crate::options::Options;
use crate::record::messages;
use sevunthi::{Envelope, trace};
use std::fs;

/// Prints the trace of these records, as `ramseg audit` reads it.
pub fn run(options: &Options) -> Result<bool, String> {
    let mut all = Vec::new();
    for (place, name) in options.words().iter().enumerate() {
        let bytes = fs::read(name).map_err(|error| format!("{name}: {error}"))?;
        if !is_record(&bytes) {
            return Err(format!("{name}: it is no record of messages, such as `up --record` leaves"));
        }
        let messages = messages(&bytes).enumerate();
        all.extend(messages.map(|(number, (clock, message))| (clock, place, number, message.to_vec())));
    }
    if all.is_empty() {
        return Err("there is no message in these records".to_string());
    }
    all.sort_by_key(|&(clock, place, number, _)| (clock, place, number));
    let rows: Vec<String> = all.iter().filter_map(|(.., message)| trace::row(message)).collect();
    say!("{{\"format\":1,\"messages\":[\n{}\n]}}", rows.join(",\n"));
    eprintln!("{} messages, {} in the trace", all.len(), rows.len());
    Ok(true)
}

/// Whether each message is one, and what was cut behind them is but the last.
fn is_record(bytes: &[u8]) -> bool {
    let mut whole = messages(bytes).peekable();
    (bytes.is_empty() || whole.peek().is_some()) && whole.all(|(_, message)| Envelope::read(message).is_some())
}

#[cfg(test)]
mod tests {
    use super::*;
    use sevunthi::Id;

    #[test]
    fn only_records_are_taken() {
        let mut message = Vec::new();
        sevunthi::message::read(Id { index: 1, generation: 1 }, 1, 2, &mut message);
        let record = |message: &[u8]| {
            let length = (message.len() as u32).to_le_bytes();
            [&7u64.to_le_bytes()[..], &length, message].concat()
        };
        let good = record(&message);
        assert!(is_record(&[]) && is_record(&good) && is_record(&[&good[..], &good[..20]].concat()));
        assert!(!is_record(b"# A text is no record") && !is_record(&good[..20]));
        assert!(!is_record(&[good, record(b"x")].concat()));
    }
}
