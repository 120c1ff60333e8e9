//! What the arguments so far say.

//~ ghost use Rattle.std.specs.Prelude.{IfOk};
//~ ghost use Rattle.dictcol.specs.Arguments.{AreFiles, AreRowsOf, IsCommand, IsField, IsGet, IsInvocation, IsReading};

use crate::rt::prelude::*; use super::misuse::Misuse;
use super::options::{CommandName, OPTIONS, Setting, find_option, split_value};
use crate::dictcol::command::{
    BackendKind, Columns, Command, Files, Invocation, Onto, Order, Rows, ShardFolder,
};
use crate::dictcol::get::{Asked, Get, RowRange};
use crate::dictcol::input::field::Field;
use crate::dictcol::input::mend::Mending;
use crate::dictcol::reader::Reading;
use crate::dictcol::shown::ShownWord;
use crate::dictcol::source::Source;
use crate::rt::alloc::Global;
use crate::rt::num::NonZeroUsize;

/// Returns the value of an option, which may not be empty.
fn check_value<'a>(option: &'static str, value: &'a str) -> Result<&'a str, Misuse<'a>> {
    if value.is_empty() {
        return Err(Misuse::NoValue(option));
    }
    Ok(value)
}

/// Returns the number above 0 that is the value of an option.
fn parse_positive<'a>(option: &'static str, value: &'a str) -> Result<NonZeroUsize, Misuse<'a>> {
    value
        .parse()
        .map_err(|_| Misuse::NotPositive(option, ShownWord(value)))
}

/// Returns the byte that is the value of an option.
fn parse_byte<'a>(option: &'static str, value: &'a str) -> Result<u8, Misuse<'a>> {
    match value.as_bytes() {
        [byte] if *byte != b'\n' => Ok(*byte),
        _ => Err(Misuse::NoByte(option, ShownWord(value))),
    }
}

/// Returns the number at one end of a range, if there is one. No row has a number that is too great for the program.
fn parse_bound<'a>(bound: &str, range: &'a str) -> Result<Option<usize>, Misuse<'a>> {
    if bound.is_empty() {
        return Ok(None);
    }
    for byte in bound.as_bytes() {
        if !byte.is_ascii_digit() {
            return Err(Misuse::NoRange(ShownWord(range)));
        }
    }
    Ok(Some(bound.parse().unwrap_or(usize::MAX)))
}

/// Returns the rows that are the value of an option: a range as in Rust, without the row at its end.
fn parse_range(value: &str) -> Result<RowRange, Misuse<'_>> {
    let Some((start, end)) = value.split_once("..") else {
        return Err(Misuse::NoRange(ShownWord(value)));
    };
    let start = parse_bound(start, value)?.unwrap_or(0);
    match parse_bound(end, value)? {
        Some(end) if end < start => Err(Misuse::NoRange(ShownWord(value))),
        end => Ok(RowRange { start, end }),
    }
}

/// Returns the backend of this name.
fn parse_backend(name: &str) -> Result<BackendKind, Misuse<'_>> {
    match name {
        "string" => Ok(BackendKind::String),
        "bucket" => Ok(BackendKind::Bucket),
        "buffer" => Ok(BackendKind::Buffer),
        _ => Err(Misuse::UnknownBackend(ShownWord(name))),
    }
}

/// Returns what `--invalid` asks for by its value.
fn parse_mending(value: &str) -> Result<Option<Mending>, Misuse<'_>> {
    match value {
        "error" => Ok(None),
        "replace" => Ok(Some(Mending::Replace)),
        "skip" => Ok(Some(Mending::Skip)),
        _ => Err(Misuse::UnknownMending(ShownWord(value))),
    }
}

/// What the next word is.
#[derive(Clone, Copy)]
pub enum Next {
    OptionOrOperand,
    /// The value of the option of this name.
    Value(&'static str, Setting),
    /// Behind `--`.
    Operand,
}

/// What the words so far say.
//~ #[derive(Drop)]
pub struct Given<'a> {
    command: Option<CommandName>,
    /// The name of the command.
    called: &'a str,
    files: Vec<Source<'a>>,
    /// Whether one of them is standard input.
    has_input: bool,
    backend: Option<BackendKind>,
    is_sorted: bool,
    /// What `--top` says.
    top: Option<NonZeroUsize>,
    /// What `--at-least` says.
    at_least: Option<usize>,
    /// What `--invalid` says.
    mending: Option<Option<Mending>>,
    is_zero_ended: bool,
    /// What `--field` says.
    field: Option<NonZeroUsize>,
    /// What `--separator` says.
    separator: Option<u8>,
    is_encoded: bool,
    /// What `--plain` says.
    folder: Option<&'a str>,
    /// What `--onto` or `--onto-dictionary` says.
    onto: Option<Onto<'a>>,
    appends: bool,
    /// What is wrong with the first folder that is given beside another one, which would be left out in silence.
    repeat: Option<Misuse<'a>>,
    /// What `--files0-from` says.
    list: Option<&'a str>,
    /// How many shards `shard` writes.
    count: Option<NonZeroUsize>,
    /// Where it writes them.
    shards: Option<ShardFolder<'a>>,
    /// The folder of which `get` writes something.
    columns: Option<&'a str>,
    /// Whose numbers it writes.
    texts: Vec<&'a str>,
    /// What `--rows` says.
    range: Option<RowRange>,
    is_checked: bool,
    pub asks_help: bool,
    pub asks_version: bool,
}

impl<'a> Given<'a> {
    /// Returns what no words say.
    pub fn new(alloc: Global) -> Given<'a> {
        Given {
            command: None,
            called: "",
            files: Vec::new(alloc),
            has_input: false,
            backend: None,
            is_sorted: false,
            top: None,
            at_least: None,
            mending: None,
            is_zero_ended: false,
            field: None,
            separator: None,
            is_encoded: false,
            folder: None,
            onto: None,
            appends: false,
            repeat: None,
            list: None,
            count: None,
            shards: None,
            columns: None,
            texts: Vec::new(alloc),
            range: None,
            is_checked: false,
            asks_help: false,
            asks_version: false,
        }
    }

    /// Takes the folder that columns are written into.
    fn take_folder(&mut self, name: &'static str, value: &'a str) -> Result<(), Misuse<'a>> {
        let repeat = self.folder.map(|_| Misuse::Repeated(name));
        self.repeat = self.repeat.or(repeat);
        self.folder = Some(check_value(name, value)?);
        Ok(())
    }

    /// Takes the folder whose dictionary columns begin with.
    fn take_onto(
        &mut self,
        name: &'static str,
        value: &'a str,
        is_dictionary: bool,
    ) -> Result<(), Misuse<'a>> {
        let repeat = match self.onto {
            Some(onto) if onto.is_dictionary == is_dictionary => Some(Misuse::Repeated(name)),
            Some(_) => Some(Misuse::Excluded("--onto", "--onto-dictionary")),
            None => None,
        };
        self.repeat = self.repeat.or(repeat);
        let folder = check_value(name, value)?;
        self.onto = Some(Onto {
            folder,
            is_dictionary,
        });
        Ok(())
    }

    /// Takes an option of this name, with its value if it has one. Of several the last decides, but of folders there may be one.
    fn take_option(
        &mut self,
        name: &'static str,
        option: Setting,
        value: &'a str,
    ) -> Result<(), Misuse<'a>> {
        match option {
            Setting::Plain => self.take_folder(name, value)?,
            Setting::Onto => self.take_onto(name, value, false)?,
            Setting::OntoDictionary => self.take_onto(name, value, true)?,
            Setting::Append => self.appends = true,
            Setting::List => self.list = Some(check_value(name, value)?),
            Setting::Sorted => self.is_sorted = true,
            Setting::Top => self.top = Some(parse_positive(name, value)?),
            Setting::AtLeast => {
                let number = value
                    .parse()
                    .map_err(|_| Misuse::NoLeast(ShownWord(value)))?;
                self.at_least = Some(number);
            }
            Setting::Backend => self.backend = Some(parse_backend(value)?),
            Setting::Field => self.field = Some(parse_positive(name, value)?),
            Setting::Separator => self.separator = Some(parse_byte(name, value)?),
            Setting::Mending => self.mending = Some(parse_mending(value)?),
            Setting::ZeroEnded => self.is_zero_ended = true,
            Setting::Encoded => self.is_encoded = true,
            Setting::Rows => self.range = Some(parse_range(value)?),
            Setting::Check => self.is_checked = true,
            Setting::Help => self.asks_help = true,
            Setting::Version => self.asks_version = true,
        }
        Ok(())
    }

    /// Returns whether an option was given.
    fn has(&self, option: Setting) -> bool {
        match option {
            Setting::Plain => self.folder.is_some(),
            Setting::Onto => matches!(self.onto, Some(onto) if !onto.is_dictionary),
            Setting::OntoDictionary => matches!(self.onto, Some(onto) if onto.is_dictionary),
            Setting::Append => self.appends,
            Setting::List => self.list.is_some(),
            Setting::Sorted => self.is_sorted,
            Setting::Top => self.top.is_some(),
            Setting::AtLeast => self.at_least.is_some(),
            Setting::Backend => self.backend.is_some(),
            Setting::Field => self.field.is_some(),
            Setting::Separator => self.separator.is_some(),
            Setting::Mending => self.mending.is_some(),
            Setting::ZeroEnded => self.is_zero_ended,
            Setting::Encoded => self.is_encoded,
            Setting::Rows => self.range.is_some(),
            Setting::Check => self.is_checked,
            Setting::Help => self.asks_help,
            Setting::Version => self.asks_version,
        }
    }

    fn take_command(&mut self, word: &'a str) -> Result<(), Misuse<'a>> {
        self.command = Some(match word {
            "encode" => CommandName::Encode,
            "decode" => CommandName::Decode,
            "count" => CommandName::Count,
            "distinct" => CommandName::Distinct,
            "merge" => CommandName::Merge,
            "shard" => CommandName::Shard,
            "get" => CommandName::Get,
            _ => return Err(Misuse::UnknownCommand(ShownWord(word))),
        });
        self.called = word;
        Ok(())
    }

    /// Takes how many shards are written, or where.
    fn take_shards(&mut self, word: &'a str) -> Result<(), Misuse<'a>> {
        match self.count {
            Some(_) if word.is_empty() => return Err(Misuse::EmptyFolder("shard")),
            Some(count) => self.shards = Some(ShardFolder {
                count,
                folder: word,
            }),
            None => self.count = Some(word.parse().map_err(|_| Misuse::NoCount(ShownWord(word)))?),
        }
        Ok(())
    }

    /// Takes the folder of which something is got, or a text.
    fn take_text(&mut self, word: &'a str) -> Result<(), Misuse<'a>> {
        match self.columns {
            None if word.is_empty() => Err(Misuse::EmptyFolder("get")),
            None => {
                self.columns = Some(word);
                Ok(())
            }
            Some(_) => self.texts.push(word).map_err(|_| Misuse::Memory),
        }
    }

    fn take_file(&mut self, word: &'a str) -> Result<(), Misuse<'a>> {
        let is_input = word == "-";
        if is_input && self.has_input {
            return Err(Misuse::InputTwice);
        }
        self.has_input |= is_input;
        let file = Source::of_word(word);
        self.files.push(file).map_err(|_| Misuse::Memory)
    }

    /// Takes the command, or what stands behind it.
    fn take_operand(&mut self, word: &'a str) -> Result<(), Misuse<'a>> {
        match self.command {
            None => self.take_command(word),
            Some(CommandName::Decode) if !self.files.is_empty() => Err(Misuse::ExtraOperand(
                ShownWord(word),
            )),
            Some(CommandName::Shard) if self.shards.is_none() => self.take_shards(word),
            Some(CommandName::Get) => self.take_text(word),
            Some(_) => self.take_file(word),
        }
    }

    /// Takes an option or an operand, and returns what the next word is.
    fn take_word(&mut self, word: &'a str) -> Result<Next, Misuse<'a>> {
        let (name, value) = split_value(word);
        match (find_option(name), value) {
            (Some((name, option, true, _)), None) => return Ok(Next::Value(name, option)),
            (Some((name, option, true, _)), Some(value)) => self.take_option(name, option, value)?,
            (Some((name, option, false, _)), None) => self.take_option(name, option, "")?,
            (Some((name, _, false, _)), Some(_)) => return Err(Misuse::HasValue(ShownWord(name))),
            (None, _) if word == "--" => return Ok(Next::Operand),
            (None, _) if word.starts_with('-') && word != "-" => {
                return Err(Misuse::UnknownOption(ShownWord(word)));
            }
            (None, _) => self.take_operand(word)?,
        }
        Ok(Next::OptionOrOperand)
    }

    /// Takes the next word, and returns what the one behind it is.
    pub fn take(&mut self, next: Next, word: &'a str) -> Result<Next, Misuse<'a>> {
        match next {
            Next::OptionOrOperand => self.take_word(word),
            Next::Value(name, option) => {
                self.take_option(name, option, word)?;
                Ok(Next::OptionOrOperand)
            }
            Next::Operand => {
                self.take_operand(word)?;
                Ok(Next::Operand)
            }
        }
    }

    /// Checks that the command takes the options.
    fn check_options(&self, command: CommandName) -> Result<(), Misuse<'a>> {
        for (name, option, _, commands) in OPTIONS {
            if self.has(option) && !commands.contains(&command) {
                return Err(Misuse::OptionOfAnother(self.called, name));
            }
            if self.has(option) && self.is_encoded && option.is_of_lines() {
                return Err(Misuse::Excluded("--encoded", name));
            }
        }
        for (name, option, _, _) in OPTIONS {
            if self.has(option) && option.is_of_columns() && self.folder.is_none() {
                return Err(Misuse::NeedsOption(name, "--plain"));
            }
            if self.has(option) && option.is_onto() && self.appends {
                return Err(Misuse::Excluded("--append", name));
            }
        }
        if self.separator.is_some() && self.field.is_none() {
            return Err(Misuse::NeedsOption("--separator", "--field"));
        }
        match self.repeat {
            Some(misuse) => Err(misuse),
            None => Ok(()),
        }
    }

    /// Returns which counted lines are written.
    fn rows(&self) -> Rows
        //~ ensures { AreRowsOf self.now result }
    {
        let order = match self.top {
            Some(top) => Order::Top(top),
            None if self.is_sorted => Order::Frequency,
            None => Order::Appearance,
        };
        let at_least = self.at_least.unwrap_or(1);
        Rows { order, at_least }
    }

    /// Returns the field that stands for a line, if one does.
    fn field(&self) -> Option<Field>
        //~ ensures { IsField self.now result }
    {
        let separator = self.separator.unwrap_or(b'\t');
        match self.field {
            Some(number) => Some(Field { number, separator }),
            None => None,
        }
    }

    /// Returns how lines are read.
    fn reading(&self) -> Reading
        //~ ensures { IsReading self.now result }
    {
        Reading {
            mending: self.mending.flatten(),
            is_zero_ended: self.is_zero_ended,
            field: self.field(),
        }
    }

    /// Returns the command of this name, with all that it needs.
    fn command(&self, name: CommandName) -> Result<Command<'a>, Misuse<'a>>
        //~ ensures { IfOk result (IsCommand self.now name) }
    {
        Ok(match (name, self.folder) {
            (CommandName::Encode, Some(folder)) => Command::WriteColumns(Columns {
                folder,
                onto: self.onto,
                appends: self.appends,
            }),
            (CommandName::Encode, None) => Command::Encode,
            (CommandName::Decode, _) => Command::Decode,
            (CommandName::Count, _) if self.is_encoded => Command::CountEncoded(self.rows()),
            (CommandName::Count, _) => Command::Count(self.rows()),
            (CommandName::Distinct, _) => Command::Distinct,
            (CommandName::Merge, _) if self.files.is_empty() => return Err(Misuse::NoFile),
            (CommandName::Merge, _) => Command::Merge,
            (CommandName::Shard, _) => Command::Shard(self.shards.ok_or(Misuse::NoShards)?),
            // It reads no files.
            (CommandName::Get, _) => return Err(Misuse::NoText),
        })
    }

    /// Returns where the files are named.
    fn files(self) -> Result<Files<'a>, Misuse<'a>>
        //~ ensures { IfOk result (AreFiles self.entry) }
    {
        match (self.list, self.files.first()) {
            (None, _) => Ok(Files::Named(self.files)),
            (Some(path), None) => Ok(Files::Listed(Source::of_word(path))),
            (Some(_), Some(Source::File(path))) => Err(Misuse::FileBesideList(ShownWord(path))),
            (Some(_), Some(Source::StandardInput)) => Err(Misuse::FileBesideList(ShownWord("-"))),
        }
    }

    /// Returns what is got of a folder.
    fn get(self) -> Result<Get<'a>, Misuse<'a>>
        //~ ensures { IfOk result (IsGet self.entry) }
    {
        let folder = self.columns.ok_or(Misuse::NoText)?;
        let is_checked = self.is_checked;
        let asked = match (self.range, self.texts.first()) {
            (Some(_), Some(text)) => return Err(Misuse::TextBesideRows(ShownWord(*text))),
            (Some(range), None) => Asked::Rows(range),
            (None, Some(_)) => Asked::Texts(self.texts),
            (None, None) => return Err(Misuse::NoText),
        };
        Ok(Get {
            folder,
            asked,
            is_checked,
        })
    }

    /// Returns what all the words ask for.
    pub fn decide(self) -> Result<Invocation<'a>, Misuse<'a>>
        //~ ensures { IfOk result (IsInvocation self.entry) }
    {
        let name = self.command.ok_or(Misuse::NoCommand)?;
        self.check_options(name)?;
        if name == CommandName::Get {
            return Ok(Invocation::Get(self.get()?));
        }
        let command = self.command(name)?;
        let backend = self.backend.unwrap_or(BackendKind::String);
        let reading = self.reading();
        Ok(Invocation::Run(command, backend, reading, self.files()?))
    }
}
