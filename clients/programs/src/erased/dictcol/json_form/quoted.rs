//! Strings of JSON without an escape, as `encode` writes most texts. They are split off without the memory that a reader takes.

//~ ghost use Rattle.std.specs.Prelude.{◌≡◌, ◌<◌, ◌∷◌, false, length, nat_lt, IfSome};
//~ ghost use Rattle.std.specs.List.{list_any};
//~ ghost use Rattle.json.specs.Lex.{tokens};
//~ ghost use Rattle.json.specs.Token.{string};
//~ ghost use Rattle.dictcol.specs.Lines.{has_newline};

use crate::rt::prelude::*; use crate::memchr::memchr2;

/// Returns whether a byte is below a space, as controls are.
fn has_control(bytes: &[u8]) -> bool
    //~ ensures { result ≡ list_any (λ byte. nat_lt byte 32) bytes.now }
{
    // Without an exit, so that many bytes are compared at once.
    let mut least = b' ';
    for byte in bytes {
        least = least.min(*byte);
    }
    least < b' '
}

/// Splits off the first text of a list of strings, and the comma behind it. Returns `None` if the text has an escape, or
/// something else is behind it than a string or the end of the list.
pub fn split_text(list: &str) -> Option<(&str, &str)>
    //~ ensures token { IfSome result (λ parts.
    //~     tokens list.now ≡ string parts.0.now ∷ tokens parts.1.now) }
    //~ ensures plain { IfSome result (λ parts. has_newline parts.0.now ≡ false) }
    //~ ensures shorter { IfSome result (λ parts. length parts.1.now < length list.now) }
{
    if *list.as_bytes().first()? != b'"' {
        return None;
    }
    let quoted = &list[1..];
    let bytes = quoted.as_bytes();
    let end = memchr2(b'"', b'\\', bytes)?;
    if bytes[end] != b'"' || has_control(&bytes[..end]) {
        return None;
    }
    let text = &quoted[..end];
    let behind = &quoted[end + 1..];
    let next = behind.as_bytes();
    if next.len() < 2 {
        return None;
    }
    if next[0] == b']' {
        return Some((text, behind));
    }
    if next[0] == b',' && next[1] == b'"' {
        return Some((text, &behind[1..]));
    }
    None
}
