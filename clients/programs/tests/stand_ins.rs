//! What is written by hand beside the proved code, against Rust's own.

use programs::itoa::Buffer;
use programs::memchr::{memchr, memchr2, memmem, memrchr};
use programs::rt::alloc::Global;
use programs::rt::serde_json::Value;
use programs::rt::string::String;
use programs::rt::vec::Vec;
use programs::simdutf8::from_utf8;
use programs::tokens::{Reader, Scratch, Token};

/// Numbers that look random, and are the same in each run.
struct Random(u64);

impl Random {
    fn below(&mut self, limit: usize) -> usize {
        self.0 = self.0.wrapping_mul(0x5851_f42d_4c95_7f2d).wrapping_add(1);
        (self.0 >> 33) as usize % limit
    }

    /// Up to 80 bytes, of which few differ.
    fn bytes(&mut self) -> std::vec::Vec<u8> {
        let len = self.below(80);
        (0..len).map(|_| b"ab\x80\xff"[self.below(4)]).collect()
    }
}

#[test]
fn bytes_are_found_where_they_are() {
    let mut random = Random(1);
    for _ in 0..20_000 {
        let (bytes, part) = (random.bytes(), random.bytes());
        for wanted in *b"ab\x80\xffc" {
            let is_wanted = |byte: &u8| *byte == wanted;
            assert_eq!(memchr(wanted, &bytes), bytes.iter().position(is_wanted));
            assert_eq!(memrchr(wanted, &bytes), bytes.iter().rposition(is_wanted));
            let is_either = |byte: &u8| *byte == wanted || *byte == b'a';
            assert_eq!(
                memchr2(wanted, b'a', &bytes),
                bytes.iter().position(is_either)
            );
        }
        let part = &part[..part.len().min(3)];
        if !part.is_empty() {
            let place = (0..bytes.len()).find(|at| bytes[*at..].starts_with(part));
            assert_eq!(memmem::find(&bytes, part), place);
        }
    }
}

#[test]
fn digits_are_those_of_rust() {
    let mut random = Random(2);
    let powers = (0..20).flat_map(|power| {
        let power = 10_usize.pow(power);
        [power - 1, power, power + 1, power / 7]
    });
    let others = (0..64).map(|bits| usize::MAX >> bits);
    let random = (0..10_000).map(|_| random.below(usize::MAX >> 1));
    for number in powers.chain(others).chain(random) {
        assert_eq!(Buffer::new().format(number), number.to_string());
    }
}

/// Of equal ones the first comes first.
#[test]
fn sorting_keeps_the_order_of_equal_items() {
    let mut random = Random(3);
    for len in (0..200).chain([1000, 4096, 5001]) {
        let limit = 1 + random.below(1 + len);
        let mut wanted: std::vec::Vec<_> = (0..len).map(|at| (random.below(limit), at)).collect();
        let mut items = Vec::from_slice(Global, &wanted).unwrap();
        items.sort_by(|one, other| one.0.cmp(&other.0)).unwrap();
        wanted.sort_by_key(|item| item.0);
        assert_eq!(items.as_slice(), wanted);
    }
}

#[test]
fn what_is_not_utf8_is_replaced_as_rust_does() {
    let mut random = Random(4);
    for _ in 0..10_000 {
        let bytes: std::vec::Vec<u8> = (0..random.below(9))
            .map(|_| b"a\xc3\xa9\xe6\x97\xf0\x9f\x90\x98\xff"[random.below(10)])
            .collect();
        let text = String::from_utf8_lossy(Global, &bytes).unwrap();
        assert_eq!(&*text, std::string::String::from_utf8_lossy(&bytes));
    }
}

/// Both tell the same, and where bytes are not UTF-8.
fn same_as_rust(bytes: &[u8]) {
    assert_eq!(from_utf8(bytes), std::str::from_utf8(bytes), "{bytes:x?}");
}

#[test]
fn each_three_bytes_are_utf8_where_rust_says_so() {
    for bytes in 0..1_u32 << 24 {
        same_as_rust(&bytes.to_be_bytes()[1..]);
    }
}

/// Of the bytes that mean the same somewhere the first and the last one, up to six of them, behind some that are compared at once.
#[test]
fn bytes_are_utf8_where_rust_says_so() {
    let ends = *b"\x00\x7f\x80\x8f\x90\x9f\xa0\xbf\xc0\xc1\xc2\xdf\xe0\xe1\xec\xed\xee\xef\xf0\xf1\xf3\xf4\xf5\xff";
    let mut random = Random(5);
    for first in ends {
        for number in 0..ends.len().pow(3) {
            let at = |power: u32| ends[number / ends.len().pow(power) % ends.len()];
            same_as_rust(&[first, at(0), at(1), at(2)]);
        }
    }
    for _ in 0..300_000 {
        let mut bytes = [b'a'; 40];
        let start = random.below(30);
        let letters = [
            "é",
            "日",
            "\u{800}",
            "\u{d7ff}",
            "\u{10000}",
            "🐘",
            "\u{10ffff}",
            "z",
        ];
        let letter = letters[random.below(letters.len())].as_bytes();
        bytes[start..start + letter.len()].copy_from_slice(letter);
        if random.below(2) == 0 {
            bytes[start + random.below(6)] = ends[random.below(ends.len())];
        }
        same_as_rust(&bytes[..random.below(41)]);
        same_as_rust(&bytes[random.below(41)..]);
    }
}

/// A word for each token.
fn tokens_of(text: &str) -> std::vec::Vec<std::string::String> {
    let mut scratch = Scratch::new(Global);
    let mut reader = Reader::new(text, &mut scratch).unwrap();
    let mut tokens = std::vec::Vec::new();
    while let Some(token) = reader.next() {
        tokens.push(match token {
            Token::BeginObject => "{".into(),
            Token::EndObject => "}".into(),
            Token::BeginArray => "[".into(),
            Token::EndArray => "]".into(),
            Token::Key(key) => format!("key {key}"),
            Token::String(text) => format!("string {text}"),
            Token::Number(number) => format!("number {number}"),
            Token::Bool(is_true) => is_true.to_string(),
            Token::Null => "null".into(),
            Token::Bad => "bad".into(),
        });
        if tokens.last().is_some_and(|token| token == "bad") {
            break;
        }
    }
    tokens
}

#[test]
fn tokens_follow_each_other() {
    for (text, wanted) in [
        ("", &[][..]),
        (" [ ] ", &["[", "]"]),
        (
            r#"{"a": [1, -0.5e+7, true], "b" : {}}"#,
            &[
                "{",
                "key a",
                "[",
                "number 1",
                "number -0.5e+7",
                "true",
                "]",
                "key b",
                "{",
                "}",
                "}",
            ],
        ),
        // As behind the bracket that opens a list.
        (
            r#""a","b"],"c":null}"#,
            &["string a", "string b", "]", "key c", "null", "}"],
        ),
        (r#""\u00e9\n\ud83d\udc18\/""#, &["string é\n🐘/"]),
        (r#"["\ud83d"]"#, &["[", "bad"]),
        ("[1 2]", &["[", "number 1", "bad"]),
        ("[1,]", &["[", "number 1", "bad"]),
        ("[1,", &["[", "number 1", "bad"]),
        ("[01]", &["[", "bad"]),
        ("[nul]", &["[", "bad"]),
        ("{\"a\" \"b\"}", &["{", "string a", "bad"]),
        ("\"a\tb\"", &["bad"]),
        ("\"a", &["bad"]),
    ] {
        assert_eq!(tokens_of(text), wanted, "{text}");
    }
}

/// A text as the grammar of JSON has it, and as `serde_json` writes it.
fn quote(text: &str) -> std::string::String {
    let signs = |letter| match letter {
        '"' => "\\\"".into(),
        '\\' => "\\\\".into(),
        '\u{8}' => "\\b".into(),
        '\t' => "\\t".into(),
        '\n' => "\\n".into(),
        '\u{c}' => "\\f".into(),
        '\r' => "\\r".into(),
        '\0'..' ' => format!("\\u{:04x}", u32::from(letter)),
        _ => std::string::String::from(letter),
    };
    let signs: std::string::String = text.chars().map(signs).collect();
    format!("\"{signs}\"")
}

/// Texts of each length, with a letter at each place that may have to be escaped.
#[test]
fn texts_are_written_and_read_back() {
    let letters = (0..=0x80).chain([0xe9, 0x65e5, 0x1f418]);
    for letter in letters.filter_map(char::from_u32) {
        for (len, at) in (0..40).flat_map(|len| (0..=len).map(move |at| (len, at))) {
            let text = format!("{}{letter}{}", "a".repeat(at), "é".repeat(len - at));
            let value = Value::try_from_str(Global, &text).unwrap();
            let json = value.try_to_vec(Global).unwrap();
            assert_eq!(json.as_slice(), quote(&text).as_bytes());
            assert_eq!(value.to_string(), quote(&text));
            let read = Value::from_slice(Global, &json).unwrap();
            assert_eq!(read.as_str(), Some(&*text));
        }
    }
}

#[test]
fn lists_and_numbers_are_written() {
    for json in [
        "[]",
        r#"["a"]"#,
        r#"["a","b",[],["c"]]"#,
        "[0,18446744073709551615]",
    ] {
        let value = Value::from_str(Global, json).unwrap();
        assert_eq!(value.to_string(), json);
        assert_eq!(
            value.try_to_vec(Global).unwrap().as_slice(),
            json.as_bytes()
        );
    }
}

/// A byte that begins no letter is named by its line and its column.
#[test]
fn bytes_that_are_not_utf8_are_no_json() {
    let error = Value::from_slice(Global, b"[\n \"a\xff\"]").map(drop);
    let told = error.unwrap_err().to_string();
    assert_eq!(told, "invalid JSON at line 2 column 4");
}

#[test]
fn values_are_read() {
    let json = r#"{"a":[0,18446744073709551615,18446744073709551616,-1,1.0],"b":false,"a":["é"],"c":{"d":null}}"#;
    let value = Value::from_str(Global, json).unwrap();
    let texts = value.get("a").and_then(Value::as_array).unwrap();
    assert_eq!(
        texts
            .iter()
            .map(Value::as_str)
            .collect::<std::vec::Vec<_>>(),
        [Some("é")]
    );
    assert_eq!(value.get("b").and_then(Value::as_bool), Some(false));
    assert!(
        value.get("d").is_none() && value.get("c").is_some_and(|inner| inner.get("d").is_some())
    );
    let numbers = Value::from_str(
        Global,
        "[0,18446744073709551615,18446744073709551616,-1,1.0,-0]",
    )
    .unwrap();
    let numbers = numbers.as_array().unwrap().iter().map(Value::as_u64);
    let wanted = [Some(0), Some(u64::MAX), None, None, None, None];
    assert_eq!(numbers.collect::<std::vec::Vec<_>>(), wanted);
    assert!(Value::from_str(Global, &"[".repeat(127)).is_err_and(|error| error.is_eof()));
    assert!(Value::from_str(Global, &"[".repeat(128)).is_err_and(|error| !error.is_eof()));
}
