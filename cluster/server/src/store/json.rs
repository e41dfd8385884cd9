//! JSON and base64, as much as etcd's gateway says.

/// A value. Numbers are texts: the gateway has most of them in quotes.
#[derive(Clone, Debug, PartialEq, Eq)]
pub enum Json {
    /// `null`.
    Nothing,
    /// `true` or `false`.
    Truth(bool),
    /// A text, or a number.
    Text(String),
    /// Values in order.
    List(Vec<Json>),
    /// Values by their names.
    Fields(Vec<(String, Json)>),
}

/// Values that stand deeper than this are not read.
const DEEPEST: usize = 32;

impl Json {
    /// The value of these bytes; none where they are none.
    pub fn read(bytes: &[u8]) -> Option<Json> {
        let mut rest = bytes;
        let value = value(&mut rest, 0)?;
        skip(&mut rest);
        rest.is_empty().then_some(value)
    }

    /// The field of this name.
    pub fn get(&self, name: &str) -> Option<&Json> {
        let Json::Fields(fields) = self else { return None };
        fields.iter().find(|(other, _)| other == name).map(|(_, value)| value)
    }

    /// The list of this name; none is an empty one, which the gateway leaves out.
    pub fn list(&self, name: &str) -> &[Json] {
        if let Some(Json::List(list)) = self.get(name) { list } else { &[] }
    }

    /// The text or the number of this name.
    pub fn word(&self, name: &str) -> &str {
        if let Some(Json::Text(text)) = self.get(name) { text } else { "" }
    }

    /// The bytes of this name, which stand in base64; what is left out is empty.
    pub fn bytes(&self, name: &str) -> Option<Vec<u8>> {
        from_base64(self.word(name))
    }
}

fn value(rest: &mut &[u8], depth: usize) -> Option<Json> {
    skip(rest);
    if DEEPEST < depth {
        return None;
    }
    match rest.first()? {
        b'"' => text(rest).map(Json::Text),
        b'[' => list(rest, depth),
        b'{' => fields(rest, depth),
        _ => word(rest),
    }
}

fn list(rest: &mut &[u8], depth: usize) -> Option<Json> {
    let mut list = Vec::new();
    let mut is_first = take(rest, b'[');
    while !take(rest, b']') {
        if !is_first && !take(rest, b',') {
            return None;
        }
        is_first = false;
        list.push(value(rest, depth + 1)?);
    }
    Some(Json::List(list))
}

fn fields(rest: &mut &[u8], depth: usize) -> Option<Json> {
    let mut fields = Vec::new();
    let mut is_first = take(rest, b'{');
    while !take(rest, b'}') {
        if !is_first && !take(rest, b',') {
            return None;
        }
        is_first = false;
        skip(rest);
        let name = text(rest)?;
        if !take(rest, b':') {
            return None;
        }
        fields.push((name, value(rest, depth + 1)?));
    }
    Some(Json::Fields(fields))
}

/// A word without quotes.
fn word(rest: &mut &[u8]) -> Option<Json> {
    let length = rest.iter().take_while(|byte| byte.is_ascii_alphanumeric() || b"+-.".contains(byte)).count();
    let (word, others) = rest.split_at(length);
    *rest = others;
    match word {
        b"" => None,
        b"true" => Some(Json::Truth(true)),
        b"false" => Some(Json::Truth(false)),
        b"null" => Some(Json::Nothing),
        number => Some(Json::Text(String::from_utf8_lossy(number).into_owned())),
    }
}

fn text(rest: &mut &[u8]) -> Option<String> {
    let mut text = Vec::new();
    *rest = rest.strip_prefix(b"\"")?;
    loop {
        // base64 has no backslash: whole stretches are taken
        let plain = rest.iter().position(|byte| matches!(byte, b'"' | b'\\'))?;
        text.extend_from_slice(&rest[..plain]);
        let end = rest[plain];
        *rest = &rest[plain + 1..];
        if end == b'"' {
            return String::from_utf8(text).ok();
        }
        let mut coded = [0; 4];
        text.extend_from_slice(escaped(rest)?.encode_utf8(&mut coded).as_bytes());
    }
}

/// What stands behind a backslash.
fn escaped(rest: &mut &[u8]) -> Option<char> {
    let (&escaped, others) = rest.split_first()?;
    *rest = others;
    Some(match escaped {
        b'u' => {
            let code = std::str::from_utf8(rest.get(..4)?).ok()?;
            *rest = &rest[4..];
            char::from_u32(u32::from_str_radix(code, 16).ok()?).unwrap_or('?')
        }
        b'n' => '\n',
        b't' => '\t',
        b'r' => '\r',
        other => char::from(other),
    })
}

fn skip(rest: &mut &[u8]) {
    while let Some((b' ' | b'\n' | b'\r' | b'\t', others)) = rest.split_first() {
        *rest = others;
    }
}

/// Takes this byte, if it comes next.
fn take(rest: &mut &[u8], byte: u8) -> bool {
    skip(rest);
    let others = rest.strip_prefix(&[byte]);
    *rest = others.unwrap_or(rest);
    others.is_some()
}

const DIGITS: &[u8; 64] = b"ABCDEFGHIJKLMNOPQRSTUVWXYZabcdefghijklmnopqrstuvwxyz0123456789+/";

/// Bytes in base64.
pub fn to_base64(bytes: &[u8]) -> String {
    let mut text = String::with_capacity(bytes.len().div_ceil(3) * 4);
    for piece in bytes.chunks(3) {
        let number = (0..3).fold(0u32, |number, at| number << 8 | u32::from(piece.get(at).copied().unwrap_or(0)));
        for at in 0..4 {
            let digit = DIGITS[(number >> (18 - 6 * at) & 63) as usize];
            text.push(if at <= piece.len() { char::from(digit) } else { '=' });
        }
    }
    text
}

fn digit(byte: u8) -> Option<u32> {
    Some(u32::from(match byte {
        b'A'..=b'Z' => byte - b'A',
        b'a'..=b'z' => byte - b'a' + 26,
        b'0'..=b'9' => byte - b'0' + 52,
        b'+' => 62,
        b'/' => 63,
        _ => return None,
    }))
}

/// The bytes of a text in base64.
pub fn from_base64(text: &str) -> Option<Vec<u8>> {
    let mut bytes = Vec::with_capacity(text.len() / 4 * 3);
    let (mut number, mut bits) = (0u32, 0);
    for byte in text.bytes().take_while(|byte| *byte != b'=') {
        number = number << 6 | digit(byte)?;
        bits += 6;
        if 8 <= bits {
            bits -= 8;
            bytes.push((number >> bits) as u8);
        }
    }
    Some(bytes)
}

#[cfg(test)]
mod tests {
    use super::*;

    #[test]
    fn base64_goes_both_ways() {
        for length in 0..40u8 {
            let bytes: Vec<u8> = (0..length).map(|byte| byte.wrapping_mul(37)).collect();
            assert_eq!(from_base64(&to_base64(&bytes)), Some(bytes));
        }
        assert_eq!(to_base64(b"hello"), "aGVsbG8=");
        assert_eq!(from_base64("a*"), None);
    }

    #[test]
    fn json_is_read() {
        let json = Json::read(br#" {"a":[1, {"b":"x\n\u0041"}], "c":true,"d":{},"e":null} "#).expect("it is JSON");
        assert_eq!(json.list("a")[1].word("b"), "x\nA");
        assert_eq!((json.get("c"), json.word("a"), json.list("c")), (Some(&Json::Truth(true)), "", &[][..]));
        for none in [&b"{\"a\""[..], b"[[[[", b"", b"{\"a\" 1}", b"[1 2]", b"[1,", b"\"a", b"{} x", b"\"\\u12\""] {
            assert_eq!(Json::read(none), None, "{}", String::from_utf8_lossy(none));
        }
        assert_eq!(Json::read(&b"[".repeat(1000)), None);
    }
}
