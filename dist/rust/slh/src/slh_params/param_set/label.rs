// Made by tools/plain_rust.py from crates/slh_params/src/param_set/label.rt.
//! Parameter sets as one line of text (ours).

use super::ParamSet;
use arrayvec::ArrayString;
use core::str;

impl ParamSet {
    /// The name of a set of the standard; of any other set, `custom:` and n, lg_w, hp, d, a and k in decimal, with
    /// commas between them. It has at most 22 bytes.
    pub fn label(&self) -> ArrayString<32> {
        let mut label = ArrayString::new();
        if self.is_fips_205() {
            label.push_str(self.name());
            return label;
        }
        label.push_str("custom");
        put_number(&mut label, b':', self.n);
        put_number(&mut label, b',', self.lg_w);
        put_number(&mut label, b',', self.hp);
        put_number(&mut label, b',', self.d);
        put_number(&mut label, b',', self.a);
        put_number(&mut label, b',', self.k);
        label
    }

    /// The set of this label; `None` where the bytes are no set's label. So a number has no sign, space or leading
    /// zero, and a set of the standard goes by its name alone.
    pub fn from_label(text: &[u8]) -> Option<ParamSet> {
        let set = candidate(text)?;
        let label = set.label();
        if label.as_str().as_bytes() == text { Some(set) } else { None }
    }
}

/// The only set that can have this label.
fn candidate(text: &[u8]) -> Option<ParamSet> {
    match text.strip_prefix(b"custom") {
        Some(numbers) => listed_set(numbers),
        None => standard_set(text),
    }
}

/// The set of the standard that has this name.
fn standard_set(text: &[u8]) -> Option<ParamSet> {
    match str::from_utf8(text) {
        Ok(name) => ParamSet::from_name(name),
        Err(_) => None,
    }
}

/// The set of the six numbers in the text, each behind a separator.
fn listed_set(text: &[u8]) -> Option<ParamSet> {
    let (n, text) = number(text);
    let (lg_w, text) = number(text);
    let (hp, text) = number(text);
    let (d, text) = number(text);
    let (a, text) = number(text);
    let (k, _) = number(text);
    ParamSet::custom(n, lg_w, hp, d, a, k).ok()
}

/// The number of at most two digits behind the first byte, and what follows it. Where there is none, 0, which no set
/// has.
fn number(text: &[u8]) -> (u32, &[u8]) {
    if !has_digit(text, 1) {
        (0, text)
    } else if !has_digit(text, 2) {
        ((text[1] - b'0') as u32, &text[2..])
    } else {
        ((text[1] - b'0') as u32 * 10 + (text[2] - b'0') as u32, &text[3..])
    }
}

/// Whether a decimal digit stands at this place.
fn has_digit(text: &[u8], at: usize) -> bool {
    at < text.len() && text[at].is_ascii_digit()
}

/// Puts a separator and a number of at most two digits.
fn put_number(label: &mut ArrayString<32>, separator: u8, number: u32) {
    put(label, separator);
    if number >= 10 {
        put(label, b'0' + (number / 10) as u8);
    }
    put(label, b'0' + (number % 10) as u8);
}

/// Puts an ASCII character.
fn put(label: &mut ArrayString<32>, byte: u8) {
    label.push(byte as char);
}
