//! The file: a JSON object with the dictionary, a number for each line, and whether the last line ends in a newline.

//~ ghost use Rattle.std.specs.Prelude.{◌≡◌, ◌≢◌, ◌<◌, ◌≤◌, ◌++◌, ◌⊎◌, List, All, length, Bool, true, false, codes, Some, None, IfOk, IfErr, OnOk};
//~ ghost use Rattle.std.specs.Io.KnownBytes.{Appends};
//~ ghost use Rattle.std.specs.List.{join_with_byte, list_any};
//~ ghost use Rattle.serde_json.specs.Data.{boolean, array, Items};
//~ ghost use Rattle.serde_json.specs.Find.{get};
//~ ghost use Rattle.serde_json.specs.Read.{read};
//~ ghost use Rattle.serde_json.specs.View.{view, items_view};
//~ ghost use Rattle.string_interner.specs.Text.{Text, IsDistinct};
//~ ghost use Rattle.string_interner.specs.Extend.{texts_of};
//~ ghost use Rattle.string_interner.specs.Json.{json_of_texts};
//~ ghost use Rattle.string_column.specs.Column.{rows_of};
//~ ghost use Rattle.dictcol.specs.Crowded.{CrowdsColumn, CrowdsFile, LacksElement, default_numbering};
//~ ghost use Rattle.dictcol.specs.Fault.{IsParseFault, IsValueDamage, IsWriteFault, WritesLast};
//~ ghost use Rattle.dictcol.specs.File.{indexed_texts, AreWithin, HasDictionary, HaveEntries, HoldsLines, HoldsText, IsFileDamage, IsFileFault, IsJsonFault, FileHolds, DecodesFile};
//~ ghost use Rattle.dictcol.specs.Lines.{has_newline, newline_if, text_of_lines};
//~ ghost use Rattle.dictcol.specs.Places.{IsEarlyEnd, IsLastLine};
//~ ghost use Rattle.dictcol.specs.Writes.{Writes};
//~ ghost use Rattle.dictcol.specs.declared.fault.Fault.TheVariants.{Memory};

use crate::rt::prelude::*; use crate::dictcol::fault::Fault;
use crate::dictcol::hasher::LineHasher;
use crate::dictcol::input::blocks::{check_utf8, count_byte};
use crate::dictcol::json_form::stream;
use crate::dictcol::output::write;
use crate::memchr::memrchr;
use crate::rt::serde_json::Value;
use crate::rt::alloc::Global;
use crate::rt::io;
use crate::rt::io::Write;
use crate::string_column::{Codes, Column, PartsError};
use crate::erased::StringInterner;
use crate::erased::backend::{Backend, DefaultBackend, Store};
use crate::erased::dedup::TaggedIndex;
use crate::erased::json::JsonError;

/// The texts of a file.
pub type Dictionary<B = DefaultBackend> = StringInterner<
    B,
    LineHasher,
    TaggedIndex<<B as Store>::Symbol>,
>;

/// What a file holds: its texts, for each line the index of its text, and whether the last line ends in a newline.
//~ #[derive(Drop)]
pub struct Parts<B: Backend> {
    pub dictionary: Dictionary<B>,
    pub codes: Codes,
    pub is_ended: bool,
}

/// Reads the dictionary.
fn read_dictionary<B: Backend + Drop>(
    alloc: Global,
    hasher: LineHasher,
    file: &Value,
) -> Result<Dictionary<B>, Fault>
    //~ ensures ok { IfOk result (λ dictionary.
    //~     get (codes "dictionary") (view file.now) ≡ Some (json_of_texts dictionary.texts)) }
    //~ ensures err { IfErr result (IsParseFault (LacksElement B.numbering (view file.now))
    //~     (λ fault. IsValueDamage fault × ((texts : List Text) → IsDistinct texts
    //~     → get (codes "dictionary") (view file.now) ≢ Some (json_of_texts texts)))) }
{
    let value = file.get("dictionary").ok_or(Fault::NoDictionary)?;
    match Dictionary::<B>::from_json_exact_with_hasher(alloc, value, hasher) {
        Ok(dictionary) => Ok(dictionary),
        Err(JsonError::NotAText { index }) => Err(Fault::NotAText(index)),
        Err(JsonError::Repeated { index }) => Err(Fault::Repeated(index)),
        Err(JsonError::NoSymbol) => Err(Fault::TooMany),
        Err(JsonError::Memory(_)) => Err(Fault::Memory),
        Err(JsonError::NotAList) => Err(Fault::NoDictionary),
        Err(JsonError::NotANumber) => Err(Fault::NoDictionary),
    }
}

/// Checks that each text of the dictionary is one line.
fn check_texts<B: Backend>(dictionary: &Dictionary<B>) -> Result<(), Fault>
    //~ ensures ok { OnOk result (list_any has_newline dictionary.now.texts ≡ false) }
    //~ ensures err { IfErr result (λ fault. IsValueDamage fault
    //~     × (list_any has_newline dictionary.now.texts ≡ true)) }
{
    let mut index = 0_usize;
    for (_, text) in dictionary {
        if text.as_bytes().contains(&b'\n') {
            return Err(Fault::HasNewline(index));
        }
        index = index.saturating_add(1);
    }
    Ok(())
}

/// Returns the texts of the dictionary.
pub fn list_texts(alloc: Global, dictionary: &Dictionary) -> Result<Vec<&str>, Fault>
    //~ ensures ok { IfOk result (λ texts. texts_of texts.items ≡ dictionary.now.texts) }
    //~ ensures fault { IfErr result (λ fault. fault ≡ Memory) }
{
    let mut texts = Vec::with_capacity(alloc, dictionary.len()).map_err(|_| Fault::Memory)?;
    for (_, text) in dictionary {
        texts.push_reserved(text);
    }
    Ok(texts)
}

/// Returns the numbers of the lines, each of which must be the index of a text.
fn read_codes<B: Backend>(
    alloc: Global,
    dictionary: &Dictionary<B>,
    numbers: &[Value],
) -> Result<Codes, Fault>
    //~ ensures ok { IfOk result (λ codes. indexed_texts dictionary.now.texts (items_view numbers.now)
    //~     ≡ Some (rows_of dictionary.now.texts codes.items)) }
    //~ ensures within { IfOk result (λ codes. HaveEntries dictionary.now.texts codes.items) }
    //~ ensures err { IfErr result (λ fault. (fault ≡ Memory) ⊎ (IsValueDamage fault
    //~     × (indexed_texts dictionary.now.texts (items_view numbers.now) ≡ None))) }
{
    let mut codes = Codes::new(alloc);
    for number in numbers {
        let index = number.as_u64().ok_or(Fault::NotAnIndex(codes.len()))? as usize;
        if index >= dictionary.len() {
            return Err(Fault::NotAnIndex(codes.len()));
        }
        codes.push(index).map_err(|_| Fault::Memory)?;
    }
    Ok(codes)
}

/// Writes a line, behind a newline if it is a further one.
fn write_line<W: Write>(output: &mut W, line: &str, is_further: bool) -> io::Result<()>
    //~ ensures { OnOk result (Appends (W.contents output.old) (W.contents output.new)
    //~     (newline_if is_further ++ line.now)) }
{
    if is_further {
        output.write_all(b"\n")?;
    }
    output.write_all(line.as_bytes())
}

/// Writes lines with newlines between them.
fn write_joined<W: Write>(output: &mut W, texts: &[&str], codes: &Codes) -> io::Result<()>
    //~ requires { All (λ code. code < length texts.now) codes.now.items }
    //~ ensures { OnOk result (Appends (W.contents output.old) (W.contents output.new)
    //~     (join_with_byte 10 (rows_of (texts_of texts.now) codes.now.items))) }
{
    for row in 0..codes.len() {
        write_line(output, texts[codes.at(row)], row > 0)?;
    }
    Ok(())
}

/// Writes the text of the lines.
pub fn write_lines<W: Write>(
    output: &mut W,
    texts: &[&str],
    codes: &Codes,
    is_ended: bool,
) -> Result<(), Fault>
    //~ requires { All (λ code. code < length texts.now) codes.now.items }
    //~ ensures written { OnOk result (Appends (W.contents output.old) (W.contents output.new)
    //~     (text_of_lines (rows_of (texts_of texts.now) codes.now.items) is_ended)) }
    //~ ensures fault { IfErr result IsWriteFault }
{
    write_joined(output, texts, codes).map_err(Fault::of_write)?;
    if is_ended {
        write(output, b"\n")?;
    }
    output.flush().map_err(Fault::of_write)
}

/// Finds the numbers of the lines.
fn find_numbers(file: &Value) -> Result<&Vec<Value>, Fault>
    //~ ensures ok { IfOk result (λ numbers.
    //~     get (codes "lines") (view file.now) ≡ Some (array (items_view numbers.now.items))) }
    //~ ensures err { IfErr result (λ fault. IsValueDamage fault × ((numbers : Items)
    //~     → get (codes "lines") (view file.now) ≢ Some (array numbers))) }
{
    file.get("lines")
        .and_then(Value::as_array)
        .ok_or(Fault::NoLines)
}

/// Finds whether the last line ends in a newline.
fn find_final_newline(file: &Value) -> Result<bool, Fault>
    //~ ensures ok { IfOk result (λ is_ended.
    //~     get (codes "final_newline") (view file.now) ≡ Some (boolean is_ended)) }
    //~ ensures err { IfErr result (λ fault. IsValueDamage fault × ((is_ended : Bool)
    //~     → get (codes "final_newline") (view file.now) ≢ Some (boolean is_ended))) }
{
    file.get("final_newline")
        .and_then(Value::as_bool)
        .ok_or(Fault::NoFinalNewline)
}

/// Returns what the value holds. Faults are looked for in the order of its members.
fn read_value<B: Backend + Drop>(
    alloc: Global,
    hasher: LineHasher,
    file: &Value,
) -> Result<Parts<B>, Fault>
    //~ ensures lines { IfOk result (λ parts. HoldsLines (view file.now)
    //~     (rows_of parts.dictionary.texts parts.codes.items) parts.is_ended) }
    //~ ensures within { IfOk result AreWithin }
    //~ ensures texts { IfOk result (λ parts. get (codes "dictionary") (view file.now)
    //~     ≡ Some (json_of_texts parts.dictionary.texts)) }
    //~ ensures err { IfErr result (IsParseFault (LacksElement B.numbering (view file.now))
    //~     (λ fault. IsValueDamage fault × ((text : Text) → ¬ (HoldsText (view file.now) text)))) }
{
    let dictionary = read_dictionary(alloc, hasher, file)?;
    check_texts(&dictionary)?;
    let codes = read_codes(alloc, &dictionary, find_numbers(file)?)?;
    let is_ended = find_final_newline(file)?;
    Ok(Parts {
        dictionary,
        codes,
        is_ended,
    })
}

/// Returns where the last line of a file begins.
fn find_last_line(file: &[u8]) -> usize
    //~ ensures within { result ≤ length file.now }
    //~ ensures line { IsLastLine file.now result }
{
    match memrchr(b'\n', file) {
        Some(at) => at + 1,
        None => 0,
    }
}

/// Returns the fault of a file that ends within its JSON.
fn locate_early_end(file: &[u8]) -> Fault
    //~ ensures { IsEarlyEnd file.now result }
{
    let last_line = &file[find_last_line(file)..];
    Fault::EndsEarly {
        line: count_byte(b'\n', file).saturating_add(1),
        column: last_line.len().saturating_add(1),
    }
}

/// Reads the JSON of a file.
fn parse(alloc: Global, file: &str) -> Result<Value, Fault>
    //~ ensures ok { IfOk result (λ value. read file.now ≡ Some (view value)) }
    //~ ensures err { IfErr result (λ fault. (fault ≡ Memory) ⊎ IsJsonFault file.now fault) }
{
    match Value::from_str(alloc, file) {
        Ok(value) => Ok(value),
        Err(error) if error.is_memory() => Err(Fault::Memory),
        Err(error) if error.is_eof() => Err(locate_early_end(file.as_bytes())),
        Err(_) if file.starts_with('\u{feff}') => Err(Fault::ByteOrderMark),
        Err(error) => Err(Fault::NotJson(error)),
    }
}

/// Returns what a file holds, or finds where it is damaged.
pub fn read<B: Backend + Drop>(
    alloc: Global,
    hasher: LineHasher,
    file: &str,
) -> Result<Parts<B>, Fault>
    //~ ensures lines { IfOk result (λ parts. FileHolds file.now
    //~     (rows_of parts.dictionary.texts parts.codes.items) parts.is_ended) }
    //~ ensures within { IfOk result AreWithin }
    //~ ensures texts { IfOk result (λ parts. HasDictionary file.now parts.dictionary.texts) }

    // A file that holds a text is never called damaged. Where its JSON ends early is told.
    //~ ensures err { IfErr result
    //~     (IsParseFault (CrowdsFile B.numbering file.now) (IsFileDamage file.now)) }
{
    // What `encode` writes needs no tree. Of any other file the tree also tells what is wrong.
    if let Some(parts) = stream::read_stream(alloc, hasher, file)? {
        return Ok(parts);
    }
    let value = parse(alloc, file)?;
    read_value(alloc, hasher, &value)
}

/// Returns what a file holds, and frees the file, which is as long as the texts.
fn read_bytes<B: Backend + Drop>(
    alloc: Global,
    hasher: LineHasher,
    bytes: Vec<u8>,
) -> Result<Parts<B>, Fault>
    //~ ensures lines { IfOk result (λ parts. FileHolds bytes.items
    //~     (rows_of parts.dictionary.texts parts.codes.items) parts.is_ended) }
    //~ ensures within { IfOk result AreWithin }
    //~ ensures texts { IfOk result (λ parts. HasDictionary bytes.items parts.dictionary.texts) }

    // A file is called damaged only if it holds no text, and not UTF-8 only if it is not.
    //~ ensures err { IfErr result (IsFileFault (CrowdsFile B.numbering) (Some bytes.items)) }
{
    read(alloc, hasher, check_utf8(0, &bytes)?)
}

/// Returns a column of the lines of a file, and whether the last one ends in a newline.
pub fn read_column<B: Backend + Drop>(
    alloc: Global,
    hasher: LineHasher,
    bytes: Vec<u8>,
) -> Result<(Column<B, LineHasher>, bool), Fault>
    //~ ensures lines { IfOk result (λ lines. FileHolds bytes.items lines.0 lines.1) }

    // A file is called damaged only if it holds no text, and not UTF-8 only if it is not.
    //~ ensures err { IfErr result (IsFileFault (CrowdsColumn B.numbering) (Some bytes.items)) }
{
    let Parts {
        dictionary,
        codes,
        is_ended,
    } = read_bytes(alloc, hasher, bytes)?;
    // For the proof: states that the texts are distinct.
    let _ = dictionary.len();
    match Column::from_interner(alloc, hasher, dictionary, codes) {
        Ok(lines) => Ok((lines, is_ended)),
        Err(PartsError::NoSymbol) => Err(Fault::TooMany),
        Err(PartsError::Memory(_)) => Err(Fault::Memory),
        // The texts of a dictionary are distinct, and each number is the index of one.
        Err(PartsError::Repeated { .. }) => unreachable!(),
        Err(PartsError::NoEntry { .. }) => unreachable!(),
    }
}

/// Writes the text that a file was made of, line by line, or finds where the file is damaged. Nothing is written of a damaged
/// file.
pub fn decode<W: Write>(
    alloc: Global,
    hasher: LineHasher,
    bytes: Vec<u8>,
    output: &mut W,
) -> Result<(), Fault>
    //~ ensures written { OnOk result
    //~     (Writes (DecodesFile bytes.items) (W.contents output.old) (W.contents output.new)) }

    // A file is called damaged only if it holds no text, and not UTF-8 only if it is not.
    //~ ensures err { IfErr result (λ fault.
    //~     IsFileFault (CrowdsFile default_numbering) (Some bytes.items) fault
    //~     ⊎ IsWriteFault fault) }

    // Unless all went well or a write failed, the output was not touched.
    //~ ensures silent { WritesLast result output.old output.new }
{
    let parts = read_bytes::<DefaultBackend>(alloc, hasher, bytes)?;
    let texts = list_texts(alloc, &parts.dictionary)?;
    write_lines(output, &texts, &parts.codes, parts.is_ended)
}
