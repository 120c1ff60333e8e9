//! A file in the form that `encode` writes, read token by token: without a tree of its values.

//~ ghost use Rattle.std.specs.Prelude.{◌≡◌, ◌<◌, ◌++◌, ◌∷◌, [], List, All, map, codes, false, Some, IfOk, IfErr, IfSome, IsTrue};
//~ ghost use Rattle.std.specs.List.{list_any};
//~ ghost use Rattle.json.specs.Lex.{tokens};
//~ ghost use Rattle.json.specs.Token.{begin_object, end_object, begin_array, end_array, key, string, number, boolean};
//~ ghost use Rattle.serde_json.specs.Data.{unsigned};
//~ ghost use Rattle.serde_json.specs.Read.{number_of};
//~ ghost use Rattle.string_interner.specs.Text.{Text};
//~ ghost use Rattle.string_column.specs.Column.{rows_of};
//~ ghost use Rattle.string_column.specs.Entries.{LacksSymbol};
//~ ghost use Rattle.dictcol.specs.Crowded.{LacksEntry, LacksText};
//~ ghost use Rattle.dictcol.specs.Fault.{IsTakeFault};
//~ ghost use Rattle.dictcol.specs.File.{AreWithin, FileHolds, HasDictionary};
//~ ghost use Rattle.dictcol.specs.Lines.{has_newline};
//~ ghost use Rattle.dictcol.specs.StreamTokens.{AreIndexes, StreamHolds, behind_front};
//~ ghost use Rattle.dictcol.specs.declared.fault.Fault.TheVariants.{Memory};

use crate::rt::prelude::*; use crate::dictcol::fault::Fault;
use crate::dictcol::hasher::LineHasher;
use crate::dictcol::json_form::file::{Dictionary, Parts};
use crate::dictcol::json_form::quoted::split_text;
use crate::tokens::{Reader, Scratch, Token};
use crate::rt::alloc::Global;
use crate::string_column::Codes;
use crate::erased::backend::Backend;

/// Takes the key of a member and the bracket that opens an array.
fn takes_array(reader: &mut Reader<'_>, name: &str) -> bool
    //~ ensures { IsTrue result → reader.old ≡ key name.now ∷ begin_array ∷ reader.new }
{
    match reader.next() {
        Some(Token::Key(text)) if text == name => {}
        _ => return false,
    }
    matches!(reader.next(), Some(Token::BeginArray))
}

/// Appends a text, and returns whether it is a new one.
#[inline(always)]
fn push_text<B: Backend>(dictionary: &mut Dictionary<B>, text: &str) -> Result<bool, Fault>
    //~ ensures new { IfOk result (λ is_new. IsTrue is_new
    //~     → dictionary.new.texts ≡ dictionary.old.texts ++ text.now ∷ []) }
    //~ ensures fault { IfErr result
    //~     (IsTakeFault (LacksSymbol B.numbering dictionary.old.texts text.now)) }
{
    let count = dictionary.len();
    dictionary.get_or_intern(text).map_err(Fault::of_intern)?;
    Ok(dictionary.len() > count)
}

/// Reads the texts that a list begins with, up to the first that `split_text` leaves to a reader, and returns what is ahead
/// then. Returns `None` if a text repeats an earlier one.
fn read_front_texts<'t, B: Backend>(
    dictionary: &mut Dictionary<B>,
    list: &'t str,
) -> Result<Option<&'t str>, Fault>
    //~ requires { list_any has_newline dictionary.old.texts ≡ false }
    //~ ensures texts { IfOk result (λ found. IfSome found (λ ahead.
    //~     map string dictionary.old.texts ++ tokens list.now
    //~     ≡ map string dictionary.new.texts ++ tokens ahead.now)) }
    //~ ensures plain { IfOk result (λ found. IfSome found (λ ahead.
    //~     list_any has_newline dictionary.new.texts ≡ false)) }
    //~ ensures fault { IfErr result (IsTakeFault
    //~     (LacksText B.numbering (map string dictionary.old.texts ++ tokens list.now))) }
{
    let mut ahead = list;
    'texts: while let Some((text, behind)) = split_text(ahead) {
        if !push_text(dictionary, text)? {
            return Ok(None);
        }
        ahead = behind;
    }
    Ok(Some(ahead))
}

/// Reads further texts of one line each, up to the bracket behind them. Returns whether there is nothing else, and no text
/// repeats an earlier one.
fn read_texts<B: Backend>(
    dictionary: &mut Dictionary<B>,
    reader: &mut Reader<'_>,
) -> Result<bool, Fault>
    //~ requires { list_any has_newline dictionary.old.texts ≡ false }
    //~ ensures texts { IfOk result (λ is_read. IsTrue is_read
    //~     → map string dictionary.old.texts ++ reader.old
    //~     ≡ map string dictionary.new.texts ++ end_array ∷ reader.new) }
    //~ ensures plain { IfOk result (λ is_read. IsTrue is_read
    //~     → list_any has_newline dictionary.new.texts ≡ false) }
    //~ ensures fault { IfErr result
    //~     (IsTakeFault (LacksText B.numbering (map string dictionary.old.texts ++ reader.old))) }
{
    'texts: while !reader.take_end_array() {
        let Some(Token::String(text)) = reader.next() else {
            return Ok(false);
        };
        if text.as_bytes().contains(&b'\n') {
            return Ok(false);
        }
        if !push_text(dictionary, text)? {
            return Ok(false);
        }
    }
    Ok(true)
}

/// Returns the index that a number of JSON is, below `count`.
fn read_index(text: &str, count: usize) -> Option<usize>
    //~ ensures number { IfSome result (λ index. number_of text.now ≡ Some (unsigned index)) }
    //~ ensures within { IfSome result (λ index. index < count) }
{
    let bytes = text.as_bytes();
    if bytes.is_empty() {
        return None;
    }
    let mut index = 0_usize;
    for byte in bytes {
        if !byte.is_ascii_digit() {
            return None;
        }
        let tens = index.checked_mul(10)?;
        index = tens.checked_add((*byte - b'0') as usize)?;
    }
    if index < count { Some(index) } else { None }
}

/// Reads indexes below `count`, up to the bracket behind them. Returns `None` if there is something else.
fn read_indexes(
    alloc: Global,
    count: usize,
    reader: &mut Reader<'_>,
) -> Result<Option<Codes>, Fault>
    //~ ensures indexes { IfOk result (λ found. IfSome found (λ indexes. (numbers : List Text)
    //~     × (reader.old ≡ map number numbers ++ end_array ∷ reader.new)
    //~     × AreIndexes numbers indexes.items)) }
    //~ ensures within { IfOk result (λ found. IfSome found (λ codes.
    //~     All (λ index. index < count) codes.items)) }
    //~ ensures fault { IfErr result (λ fault. fault ≡ Memory) }
{
    let mut codes = Codes::new(alloc);
    'indexes: while !reader.take_end_array() {
        let Some(Token::Number(text)) = reader.next() else {
            return Ok(None);
        };
        let Some(index) = read_index(text, count) else {
            return Ok(None);
        };
        codes.push(index).map_err(|_| Fault::Memory)?;
    }
    Ok(Some(codes))
}

/// Takes the brace that opens an object.
fn takes_object(reader: &mut Reader<'_>) -> bool
    //~ ensures { IsTrue result → reader.old ≡ begin_object ∷ reader.new }
{
    matches!(reader.next(), Some(Token::BeginObject))
}

/// Takes the member that tells whether the last line ends in a newline.
fn read_end(reader: &mut Reader<'_>) -> Option<bool>
    //~ ensures { IfSome result (λ is_ended.
    //~     reader.old ≡ key (codes "final_newline") ∷ boolean is_ended ∷ reader.new) }
{
    match reader.next() {
        Some(Token::Key("final_newline")) => {}
        _ => return None,
    }
    match reader.next() {
        Some(Token::Bool(is_ended)) => Some(is_ended),
        _ => None,
    }
}

/// Takes the brace that closes an object, behind which nothing may come.
fn takes_end(reader: &mut Reader<'_>) -> bool
    //~ ensures { IsTrue result → reader.old ≡ end_object ∷ [] }
{
    match reader.next() {
        Some(Token::EndObject) => reader.next().is_none(),
        _ => false,
    }
}

/// Reads the further texts of the dictionary of a file, and all that is behind them, in the order in which `encode` writes it.
/// Returns the indexes and whether the last line ends in a newline, or `None` if there is something else.
fn read_rest<B: Backend>(
    alloc: Global,
    dictionary: &mut Dictionary<B>,
    reader: &mut Reader<'_>,
) -> Result<Option<(Codes, bool)>, Fault>
    //~ requires { list_any has_newline dictionary.old.texts ≡ false }
    //~ ensures holds { IfOk result (λ found. IfSome found (λ rest.
    //~     StreamHolds (behind_front (map string dictionary.old.texts ++ reader.old))
    //~     dictionary.new.texts rest.0.items rest.1)) }
    //~ ensures fault { IfErr result
    //~     (IsTakeFault (LacksText B.numbering (map string dictionary.old.texts ++ reader.old))) }
{
    if !read_texts(dictionary, reader)? {
        return Ok(None);
    }
    let Some(is_ended) = read_end(reader) else {
        return Ok(None);
    };
    if !takes_array(reader, "lines") {
        return Ok(None);
    }
    let Some(codes) = read_indexes(alloc, dictionary.len(), reader)? else {
        return Ok(None);
    };
    if !takes_end(reader) {
        return Ok(None);
    }
    Ok(Some((codes, is_ended)))
}

/// Reads a file behind the bracket that opens its dictionary, where no space is in front of that.
fn read_list<B: Backend>(
    alloc: Global,
    dictionary: &mut Dictionary<B>,
    list: &str,
) -> Result<Option<(Codes, bool)>, Fault>
    //~ requires { dictionary.old.texts ≡ [] }
    //~ ensures holds { IfOk result (λ found. IfSome found (λ rest.
    //~     StreamHolds (behind_front (tokens list.now)) dictionary.new.texts rest.0.items rest.1)) }
    //~ ensures fault { IfErr result (IsTakeFault (LacksText B.numbering (tokens list.now))) }
{
    let Some(ahead) = read_front_texts(dictionary, list)? else {
        return Ok(None);
    };
    let mut scratch = Scratch::new(alloc);
    match Reader::new(ahead, &mut scratch) {
        Ok(mut reader) => read_rest(alloc, dictionary, &mut reader),
        Err(_) => Err(Fault::Memory),
    }
}

/// Reads a file with any space between its tokens.
fn read_spaced<B: Backend>(
    alloc: Global,
    dictionary: &mut Dictionary<B>,
    file: &str,
) -> Result<Option<(Codes, bool)>, Fault>
    //~ requires { dictionary.old.texts ≡ [] }
    //~ ensures holds { IfOk result (λ found. IfSome found (λ rest.
    //~     StreamHolds (tokens file.now) dictionary.new.texts rest.0.items rest.1)) }
    //~ ensures fault { IfErr result (IsTakeFault (LacksEntry B.numbering (tokens file.now))) }
{
    let mut scratch = Scratch::new(alloc);
    let Ok(mut reader) = Reader::new(file, &mut scratch) else {
        return Err(Fault::Memory);
    };
    if !takes_object(&mut reader) {
        return Ok(None);
    }
    if !takes_array(&mut reader, "dictionary") {
        return Ok(None);
    }
    read_rest(alloc, dictionary, &mut reader)
}

/// Returns what a file holds, if its tokens are those that `encode` writes. `None` says nothing of the file.
pub fn read_stream<B: Backend + Drop>(
    alloc: Global,
    hasher: LineHasher,
    file: &str,
) -> Result<Option<Parts<B>>, Fault>
    //~ ensures lines { IfOk result (λ found. IfSome found (λ parts. FileHolds file.now
    //~     (rows_of parts.dictionary.texts parts.codes.items) parts.is_ended)) }
    //~ ensures within { IfOk result (λ found. IfSome found AreWithin) }
    //~ ensures texts { IfOk result (λ found. IfSome found (λ parts.
    //~     HasDictionary file.now parts.dictionary.texts)) }
    //~ ensures fault { IfErr result (IsTakeFault (LacksEntry B.numbering (tokens file.now))) }
{
    let mut dictionary = Dictionary::<B>::with_hasher(alloc, hasher);
    let rest = match file.strip_prefix("{\"dictionary\":[") {
        Some(list) => read_list(alloc, &mut dictionary, list)?,
        None => read_spaced(alloc, &mut dictionary, file)?,
    };
    match rest {
        Some((codes, is_ended)) => Ok(Some(Parts {
            dictionary,
            codes,
            is_ended,
        })),
        None => Ok(None),
    }
}
