//! Hexadecimal text.

/// The bytes of hexadecimal digits; blanks are passed over.
pub fn unhex(text: &str) -> Vec<u8> {
    let digits: Vec<u8> = text.bytes().filter(|byte| !byte.is_ascii_whitespace()).collect();
    assert_eq!(digits.len() % 2, 0, "{text}");
    let byte = |pair: &[u8]| u8::from_str_radix(&String::from_utf8_lossy(pair), 16);
    digits.chunks(2).map(|pair| byte(pair).unwrap_or_else(|_| panic!("not hexadecimal: {text}"))).collect()
}

pub fn hex(bytes: &[u8]) -> String {
    bytes.iter().map(|byte| format!("{byte:02X}")).collect()
}

/// A record: mark, body length, position, body.
pub fn record(mark: &str, position: u32, body: &str) -> Vec<u8> {
    let body = unhex(body);
    let mut bytes = mark.as_bytes().to_vec();
    bytes.extend((body.len() as u16).to_be_bytes());
    bytes.extend(position.to_be_bytes());
    bytes.extend(body);
    bytes
}
