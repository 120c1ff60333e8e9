//! Texts that are chosen without the keys, against the seeded hasher: `attacks KEYS PROBED`
//!
//! Each family is a list of texts that someone may choose who knows the function and not the keys. Under each of KEYS pairs of
//! keys, at most 1.3 times as many pairs of texts share a home, or the bits that a tag is made of, as by chance. Under each of
//! PROBED pairs, a table that is half full takes at most 1.3 times the looks. Two weaker functions must be told apart: one whose
//! multiplier is public, and the seeded one without its last product. The function is written here once more, and has the codes
//! of the worked rows. The last line counts what passed.

use std::collections::HashSet;

const TEXTS: u64 = 4096;
const HOMES: usize = 1 << 13;
/// 13 bits from here on hold those that `TaggedIndex` makes a tag of.
const TAG_BIT: u32 = 19;
const LIMIT: f64 = 1.3;
/// The worst of some pairs of keys is not below chance by more.
const LEAST: f64 = 0.8;
const MULTIPLIER: u64 = 0x9E37_79B9_7F4A_7C15;

type Keys = (u64, u64);
type Hash = fn(Keys, &Text) -> u64;
type Family = (&'static str, Vec<Text>);

/// A text as the hasher reads it: its length, and blocks of two words.
struct Text {
    length: u32,
    blocks: Vec<u128>,
}

/// The bytes as a number, the lowest first.
fn number(bytes: &[u8]) -> u128 {
    bytes
        .iter()
        .rev()
        .fold(0, |number, &byte| number << 8 | u128::from(byte))
}

fn text(bytes: &[u8]) -> Text {
    let length = bytes.len();
    let both_ends = |count: usize| [&bytes[..count], &bytes[length - count..]].concat();
    let last = match length {
        0 => vec![],
        1..=3 => vec![bytes[0], bytes[length / 2], bytes[length - 1]],
        4..=8 => both_ends(4),
        9..=15 => both_ends(8),
        _ => bytes[length - 16..].to_vec(),
    };
    let before = bytes[..length.saturating_sub(1)].chunks_exact(16);
    Text {
        length: length as u32,
        blocks: before.chain([&last[..]]).map(number).collect(),
    }
}

/// The two words of the product, joined by xor.
fn product(a: u64, b: u64) -> u64 {
    let wide = u128::from(a) * u128::from(b);
    (wide >> 64) as u64 ^ wide as u64
}

fn fold(start: u64, key: u64, text: &Text) -> u64 {
    text.blocks.iter().fold(start, |state, &block| {
        product(block as u64 ^ state, (block >> 64) as u64 ^ key)
    })
}

/// The seeded hasher.
fn seeded((key0, key1): Keys, text: &Text) -> u64 {
    product(
        fold(key0 ^ key1.rotate_left(text.length), key1, text) ^ key1,
        key0 | 1,
    )
}

/// The same without the last product.
fn unfinished((key0, key1): Keys, text: &Text) -> u64 {
    fold(key0 ^ key1.rotate_left(text.length), key1, text)
}

/// A fold with a secret start and a public multiplier.
fn plain((key0, _): Keys, text: &Text) -> u64 {
    fold(key0.wrapping_add(u64::from(text.length)), MULTIPLIER, text)
}

/// Pairs of keys, the same in each run: SplitMix64.
fn keys(count: usize) -> impl Iterator<Item = Keys> {
    let mut state = 1_u64;
    let mut next = move || {
        state = state.wrapping_add(MULTIPLIER);
        let mut word = state;
        word = (word ^ word >> 30).wrapping_mul(0xBF58_476D_1CE4_E5B9);
        word = (word ^ word >> 27).wrapping_mul(0x94D0_49BB_1331_11EB);
        word ^ word >> 31
    };
    (0..count).map(move |_| (next(), next()))
}

fn family(name: &'static str, make: impl Fn(u64) -> Vec<u8>) -> Family {
    let distinct: HashSet<Vec<u8>> = (0..TEXTS).map(make).collect();
    (name, distinct.iter().map(|bytes| text(bytes)).collect())
}

fn halves(a: u64, b: u64) -> Vec<u8> {
    [a.to_le_bytes(), b.to_le_bytes()].concat()
}

/// A text of 9 to 16 bytes whose first byte undoes what its length adds.
fn undo_length(v: u64) -> Vec<u8> {
    let len = 9 + (v % 8) as usize;
    let mut text = vec![b'a'; len];
    text[0] = (v >> 3) as u8 ^ len as u8;
    text[1] = (v >> 11) as u8;
    text
}

/// Twelve blocks, each of one of two kinds.
fn twelve(v: u64, block: impl Fn(bool) -> Vec<u8>) -> Vec<u8> {
    (0..12).flat_map(|i| block(v >> i & 1 == 1)).collect()
}

fn families() -> Vec<Family> {
    let zeros = |count| vec![0; count];
    vec![
        family("low bits of the first half", |v| halves(v, 0)),
        family("middle bits of the first half", |v| halves(v << 26, 0)),
        family("high bits of the first half", |v| halves(v << 52, 0)),
        family("low bits of the second half", |v| halves(0, v)),
        family("high bits of the second half", |v| halves(0, v << 52)),
        family("equal halves, low bits", |v| halves(v, v)),
        family("equal halves, high bits", |v| halves(v << 52, v << 52)),
        family("a half and its complement", |v| halves(v, !v)),
        family("low bits and high bits", |v| halves(v, v << 52)),
        family("six low bits of each half", |v| halves(v & 63, v >> 6)),
        family("six high and six low bits", |v| halves(v << 58, v >> 6)),
        family("six low and six high bits", |v| {
            halves(v & 63, v >> 6 << 58)
        }),
        family("six high bits of each half", |v| {
            halves(v << 58, v >> 6 << 58)
        }),
        family("swapped halves", |v| {
            if v & 1 == 0 {
                halves(v / 2, v / 2 * 77 + 5)
            } else {
                halves(v / 2 * 77 + 5, v / 2)
            }
        }),
        family("eight bytes, low bits", |v| v.to_le_bytes().to_vec()),
        family("eight bytes, high bits", |v| {
            (v << 52).to_le_bytes().to_vec()
        }),
        family("so many zeros", |v| zeros(v as usize)),
        family("so many letters", |v| vec![b'a'; v as usize]),
        family("two blocks, low bits of the first", |v| {
            [halves(v, 0), zeros(16)].concat()
        }),
        family("two blocks, high bits of the first", |v| {
            [halves(v << 52, 0), zeros(16)].concat()
        }),
        family("twenty blocks behind the first", |v| {
            [halves(v, 0), zeros(320)].concat()
        }),
        family("two blocks, low bits of the second", |v| {
            [zeros(16), halves(v, 0)].concat()
        }),
        family("blocks of two kinds", |v| {
            twelve(v, |is_set| if is_set { halves(2, 1) } else { halves(1, 2) })
        }),
        family("highest bits of blocks", |v| {
            twelve(v, |is_set| halves(u64::from(is_set) << 63, 0))
        }),
        family("near the public multiplier", |v| {
            halves(v << 8, MULTIPLIER ^ 4)
        }),
        family("the public multiplier", |v| halves(v, MULTIPLIER)),
        family("two bits of the public multiplier", |v| {
            [&(v << 20).to_le_bytes()[..], b"\x15|J\x7f9y7\x1e"].concat()
        }),
        family("a byte that undoes the length", undo_length),
        family("identifiers", |v| format!("x{v}").into_bytes()),
    ]
}

/// How many pairs share 13 bits of their codes from a bit on, by what chance gives; infinite if two texts have one code.
fn shared(hash: Hash, keys: Keys, texts: &[Text], bit: u32) -> f64 {
    let codes: Vec<u64> = texts.iter().map(|text| hash(keys, text)).collect();
    if codes.iter().collect::<HashSet<_>>().len() < codes.len() {
        return f64::INFINITY;
    }
    let mut homes = vec![0_u32; HOMES];
    codes
        .iter()
        .for_each(|&code| homes[(code >> bit) as usize % HOMES] += 1);
    let pairs: f64 = homes
        .iter()
        .map(|&n| f64::from(n) * (f64::from(n) - 1.0) / 2.0)
        .sum();
    let count = texts.len() as f64;
    pairs / (count * (count - 1.0) / 2.0 / HOMES as f64)
}

/// How many looks a text takes on average in a table that is half full, by what chance gives.
fn probed(hash: Hash, keys: Keys, texts: &[Text]) -> f64 {
    let slots = (2 * texts.len()).next_power_of_two();
    let mut is_full = vec![false; slots];
    let mut looks = 0_u64;
    for text in texts {
        let mut at = hash(keys, text) as usize % slots;
        looks += 1;
        while is_full[at] {
            at = (at + 1) % slots;
            looks += 1;
        }
        is_full[at] = true;
    }
    // Knuth's (1 + 1 / (1 - load)) / 2 for a search that finds.
    let load = texts.len() as f64 / slots as f64;
    looks as f64 / texts.len() as f64 / ((1.0 + 1.0 / (1.0 - load)) / 2.0)
}

fn worst(pairs: usize, measure: impl Fn(Keys) -> f64) -> f64 {
    keys(pairs).map(measure).fold(0.0, f64::max)
}

/// Whether the two weaker functions are seen to be weak: both by the pairs, and the unfinished one by the looks.
fn tells_weak_functions(families: &[Family]) -> bool {
    let of = |name| {
        &families
            .iter()
            .find(|(it, _)| *it == name)
            .expect("a family of this name")
            .1
    };
    let (near, high) = (
        of("near the public multiplier"),
        of("high bits of the second half"),
    );
    worst(3, |keys| shared(plain, keys, near, 0)) > 100.0
        && worst(100, |keys| shared(unfinished, keys, high, 0)) > 4.0
        && worst(100, |keys| probed(unfinished, keys, high)) > 4.0
        && worst(3, |keys| {
            shared(plain, keys, of("the public multiplier"), 0)
        })
        .is_infinite()
}

/// Whether the proved rows have these codes, and no others. The keys are those of the rows.
fn agrees_with_worked_rows() -> bool {
    let rows = include_str!("../../crates/string_interner/proofs/Worked/SeededHash.antt");
    let mut chosen = ["Elephant", "Aardvark"]
        .map(|word| format!("pelhxgajlndawnwxG5WzMie1{word}"))
        .to_vec();
    let plain = "|a|ab|foo|1234|Tiger|12345678|123456789|fifteen bytes !|sixteen bytes ok|seventeen bytes !";
    chosen.extend(plain.split('|').map(String::from));
    chosen.push("the quick brown fox jumps over the lazy dog".to_owned());
    chosen.push("a".repeat(80));
    rows.replace('_', "").matches("≡ 0x").count() == chosen.len()
        && chosen.iter().all(|it| {
            let code = seeded(
                (0xAED6_6CE1_84BE_2329, 0xEBE9_BBF1_F149_9052),
                &text(it.as_bytes()),
            );
            rows.replace('_', "")
                .contains(&format!("≡ 0x{code:016X}\n"))
        })
}

fn main() {
    let mut counts = std::env::args()
        .skip(1)
        .map(|word| word.parse().expect("a count of pairs of keys"));
    let (pairs, probes) = (counts.next().unwrap_or(100), counts.next().unwrap_or(1000));
    let families = families();
    let mut wrong = Vec::new();
    if !agrees_with_worked_rows() {
        wrong.push("the function differs from the worked rows".to_owned());
    }
    for (name, texts) in &families {
        let homes = worst(pairs, |keys| shared(seeded, keys, texts, 0));
        let shares = homes.max(worst(pairs, |keys| shared(seeded, keys, texts, TAG_BIT)));
        let looks = worst(probes, |keys| probed(seeded, keys, texts));
        println!("{name}: {shares:.2} of the pairs, {looks:.2} of the looks that chance gives");
        if shares.max(looks) > LIMIT || shares.min(looks) < LEAST {
            wrong.push(format!("{name}: {shares:.2}, {looks:.2}"));
        }
    }
    if !tells_weak_functions(&families) {
        wrong.push("a weaker function is not told apart".to_owned());
    }
    wrong.iter().for_each(|it| println!("{it}"));
    let (passed, failed) = (families.len() + 2 - wrong.len(), wrong.len());
    println!("{passed} passed, {failed} failed");
    if let Ok(counts) = std::env::var("GATE_COUNTS") {
        std::fs::write(counts, format!("[{passed}, {failed}, []]")).expect("a file for the counts");
    }
    std::process::exit(i32::from(!wrong.is_empty()));
}
