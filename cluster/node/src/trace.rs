//! Coded messages as a trace has them, which `ramseg audit` reads.

use crate::message::{kind, u16_at, u32_at, u64_at};
use crate::{Address, Envelope, Id};
use std::fmt::Write as _;

fn id(id: Id) -> String {
    format!("[{},{}]", id.index, id.generation)
}

/// A coded message as a trace has it, if it has messages of this kind: `{"format":1,"messages":[ROW,ROW..]}`.
pub fn row(message: &[u8]) -> Option<String> {
    let envelope = Envelope::read(message)?;
    let body = envelope.body;
    let server = |address| if let Address::Server(server) = address { Some(id(server)) } else { None };
    Some(match envelope.kind {
        kind::WRITE_OK => format!(
            r#"{{"m":"ok","from":{},"seg":{},"offset":{},"term":{},"table":{},"key":{},"version":{}}}"#,
            server(envelope.from)?,
            u16_at(body, 0)?,
            u64_at(body, 2)?,
            u32_at(body, 10)?,
            u32_at(body, 14)?,
            u64_at(body, 18)?,
            u64_at(body, 26)?
        ),
        kind::PLACE => {
            let digest = u64_at(body, 4)? as usize;
            let entries = entries(body.get(12 + 2 * digest..)?)?;
            format!(
                r#"{{"m":"place","from":{},"seg":{},"entries":{entries}}}"#,
                server(envelope.from)?,
                u16_at(body, 0)?
            )
        }
        kind::APPEND => format!(
            r#"{{"m":"append","from":{},"seg":{},"offset":{},"entries":{}}}"#,
            server(envelope.from)?,
            u16_at(body, 0)?,
            u64_at(body, 2)?,
            entries(body.get(10..)?)?
        ),
        kind::PLAN => format!(
            r#"{{"m":"plan","attempt":{},"of":{},"rows":{}}}"#,
            u32_at(body, 0)?,
            id(Id::read(body.get(4..)?)?),
            plan_rows(body.get(11..)?)?
        ),
        kind::OWN => format!(
            r#"{{"m":"own","to":{},"table":{},"lo":{},"hi":{},"term":{},"previous":{},"attempt":{}}}"#,
            server(envelope.to)?,
            u32_at(body, 0)?,
            u64_at(body, 4)?,
            u64_at(body, 12)?,
            u32_at(body, 20)?,
            u32_at(body, 24)?,
            u32_at(body, 28)?
        ),
        _ => return None,
    })
}

fn plan_rows(bytes: &[u8]) -> Option<String> {
    let count = u64_at(bytes, 0)? as usize;
    let mut rows = Vec::new();
    for row in bytes.get(8..8 + 15 * count)?.chunks_exact(15) {
        rows.push(format!("[{},{},{}]", u16_at(row, 0)?, id(Id::read(&row[2..])?), u64_at(row, 7)?));
    }
    Some(format!("[{}]", rows.join(",")))
}

fn entries(bytes: &[u8]) -> Option<String> {
    let count = u64_at(bytes, 0)?;
    let mut rest = bytes.get(8..)?;
    let mut rows = Vec::new();
    for _ in 0..count {
        let front = (u32_at(rest, 0)?, u32_at(rest, 4)?, u64_at(rest, 8)?, u64_at(rest, 16)?);
        let (value, length) = match *rest.get(24)? {
            0 => ("null".to_string(), 25),
            _ => {
                let length = u64_at(rest, 25)? as usize;
                (format!("\"{}\"", hexadecimal(rest.get(33..33 + length)?)), 33 + length)
            }
        };
        rest = &rest[length..];
        rows.push(format!("[{},{},{},{},{value}]", front.0, front.1, front.2, front.3));
    }
    Some(format!("[{}]", rows.join(",")))
}

fn hexadecimal(bytes: &[u8]) -> String {
    bytes.iter().fold(String::new(), |mut text, byte| {
        let _ = write!(text, "{byte:02x}");
        text
    })
}
