// Made by tools/plain_rust.py from crates/slh_key_files/src/base64_lines.rt.
//! Base64 (RFC 4648, section 4) of bytes that may be a secret key's. So its characters are read and written by sums and
//! comparisons, and no `match` and no table takes one.

/// The character of a value.
fn char_of(value: u8) -> u8 {
    b'A' + value + 6 * u8::from(value >= 26) - 75 * u8::from(value >= 52) - 15 * u8::from(value >= 62)
        + 3 * u8::from(value >= 63)
}

/// The value of a character; that of any other byte has no meaning.
fn value_of(byte: u8) -> u8 {
    let byte = byte & 127;
    let next = 3 * u8::from(byte >= b'/') + 12 * u8::from(byte >= b'0');
    (byte + 19 - next - 69 * u8::from(byte >= b'A') - 6 * u8::from(byte >= b'a')) & 63
}

/// Writes the characters of bytes, four of each three.
fn encode_groups(bytes: &[u8], chars: &mut [u8]) {
    for i in 0..bytes.len() / 3 {
        let (one, two, three) = (bytes[3 * i], bytes[3 * i + 1], bytes[3 * i + 2]);
        chars[4 * i] = char_of(one / 4);
        chars[4 * i + 1] = char_of(one % 4 * 16 + two / 16);
        chars[4 * i + 2] = char_of(two % 16 * 4 + three / 64);
        chars[4 * i + 3] = char_of(three % 64);
    }
}

/// Writes the bytes of characters, three of each four.
fn decode_groups(chars: &[u8], bytes: &mut [u8]) {
    for i in 0..bytes.len() / 3 {
        let (one, two) = (value_of(chars[4 * i]), value_of(chars[4 * i + 1]));
        let (three, four) = (value_of(chars[4 * i + 2]), value_of(chars[4 * i + 3]));
        bytes[3 * i] = one * 4 + two / 16;
        bytes[3 * i + 1] = two % 16 * 16 + three / 4;
        bytes[3 * i + 2] = three % 4 * 64 + four;
    }
}

/// Writes a line: these bytes, and a line feed.
fn put_line(bytes: &[u8], text: &mut [u8]) {
    let (front, feed) = text.split_at_mut(bytes.len());
    front.copy_from_slice(bytes);
    feed.fill(b'\n');
}

/// Writes characters in lines of 64.
fn put_lines(chars: &[u8], text: &mut [u8]) {
    for i in 0..(chars.len() + 63) / 64 {
        let end = chars.len().min(64 * i + 64);
        put_line(&chars[64 * i..end], &mut text[65 * i..end + i + 1]);
    }
}

/// Writes the characters of lines of 64.
fn take_lines(text: &[u8], chars: &mut [u8]) {
    for i in 0..chars.len() {
        chars[i] = text[i + i / 64];
    }
}

/// Writes bytes, and zeros from there to the end.
fn put_zeros_after(bytes: &[u8], out: &mut [u8]) {
    let (front, rest) = out.split_at_mut(bytes.len());
    front.copy_from_slice(bytes);
    rest.fill(0);
}

/// Writes a character from a place to the end.
fn end_with(char: u8, from: usize, chars: &mut [u8]) {
    let (_, rest) = chars.split_at_mut(from);
    rest.fill(char);
}

/// Writes the base64 of bytes, in lines.
pub(crate) fn put_base64(bytes: &[u8], text: &mut [u8]) {
    let groups = (bytes.len() + 2) / 3;
    let mut whole_buffer = [0; 150];
    let whole = &mut whole_buffer[..3 * groups];
    put_zeros_after(bytes, whole);
    let mut buffer = [0; 200];
    let chars = &mut buffer[..4 * groups];
    encode_groups(whole, chars);
    end_with(b'=', groups + bytes.len(), chars);
    put_lines(chars, text);
}

/// Writes the bytes whose base64 in lines the text begins with. Any other text gives bytes with no meaning.
pub(crate) fn get_base64(text: &[u8], bytes: &mut [u8]) {
    let groups = (bytes.len() + 2) / 3;
    let mut buffer = [0; 200];
    let chars = &mut buffer[..4 * groups];
    take_lines(text, chars);
    end_with(b'A', groups + bytes.len(), chars);
    let mut whole_buffer = [0; 150];
    let whole = &mut whole_buffer[..3 * groups];
    decode_groups(chars, whole);
    bytes.copy_from_slice(&whole[..bytes.len()]);
}
