//! Errors that end the program.

//~ ghost use Rattle.std.specs.Prelude.{◌≡◌};
//~ ghost use Rattle.std.specs.IoError.{error_kind};
//~ ghost use Rattle.string_interner.specs.declared.backend.InternError.TheVariants.{NoSymbol};
//~ ghost use Rattle.dictcol.specs.Fault.{arguments_fault, dictionary_fault, intern_fault, numbers_fault, pair_fault, read_fault, write_fault, status_of, IsNoDamage, IsReadFault, IsTakeFault, IsWriteFault};

use crate::rt::prelude::*; use crate::dictcol::input::compression::Compression;
use crate::rt::io;
use crate::rt::io::ErrorKind;
use crate::erased::backend::InternError;
//~ use thiserror::Error;

/// Why the program failed. It is displayed as the message for standard error. Lines are counted from 1, and elements from 0.
#[derive(Debug)]
pub enum Fault {
    //~ #[error("an argument is not UTF-8")]
    Argument,
    //~ #[error("cannot read input: {0}")]
    Input(io::Error),
    /// The first line that is not UTF-8.
    //~ #[error("line {0} is not UTF-8")]
    NotUtf8(usize),
    /// This line, in input that looks compressed.
    //~ #[error("line {0} is not UTF-8: it looks compressed ({1} FILE | dictcol ..)")]
    Compressed(usize, Compression),
    /// The file is no JSON, nests deeper than 127, or has a number too large for a float.
    //~ #[error("{0}")]
    NotJson(crate::rt::serde_json::Error),
    /// The column is counted from 1, in bytes.
    //~ #[error("JSON ends too early, at line {line} column {column}")]
    EndsEarly { line: usize, column: usize },
    //~ #[error("the JSON begins with a byte order mark")]
    ByteOrderMark,
    /// Also if the file is no object.
    //~ #[error("no array \"dictionary\"")]
    NoDictionary,
    //~ #[error("dictionary[{0}] is not a string")]
    NotAText(usize),
    //~ #[error("dictionary[{0}] repeats an earlier text")]
    Repeated(usize),
    //~ #[error("dictionary[{0}] contains a newline")]
    HasNewline(usize),
    //~ #[error("no array \"lines\"")]
    NoLines,
    //~ #[error("lines[{0}] is not the index of a text")]
    NotAnIndex(usize),
    //~ #[error("no boolean \"final_newline\"")]
    NoFinalNewline,
    //~ #[error("dict.txt: line {0} is not UTF-8")]
    DictionaryNotUtf8(usize),
    //~ #[error("dict.txt does not end in a newline")]
    NotEnded,
    //~ #[error("dict.txt: line {0} repeats an earlier line")]
    RepeatedLine(usize),
    /// Also if `codes.npy` is shorter than a header.
    //~ #[error("codes.npy is not in NumPy's format 1.0")]
    NotNpy,
    //~ #[error("codes.npy has another type than '<u4'")]
    OtherType,
    //~ #[error("codes.npy is in Fortran's order")]
    OtherOrder,
    //~ #[error("codes.npy has another shape than a list")]
    OtherShape,
    //~ #[error("codes.npy has another length than its header says")]
    OtherLength,
    //~ #[error("codes[{0}] is not the number of a line of dict.txt")]
    NotALine(usize),
    /// `dict.txt` has more or fewer lines than `pair.txt` says, or `codes.npy` other numbers.
    //~ #[error("dict.txt and codes.npy are not of one run (see pair.txt)")]
    NotAPair,
    //~ #[error("no_final_newline is missing (see pair.txt)")]
    NoCut,
    /// If `pair.txt` says that it is not there.
    //~ #[error("no_final_newline is of another run (see pair.txt)")]
    OtherCut,
    //~ #[error("cannot read dict.txt: {0}")]
    DictionaryFile(io::Error),
    //~ #[error("cannot read codes.npy: {0}")]
    NumbersFile(io::Error),
    //~ #[error("cannot read pair.txt: {0}")]
    PairFile(io::Error),
    /// The system does not tell whether `no_final_newline` is there.
    //~ #[error("cannot read no_final_newline: {0}")]
    CutFile(io::Error),
    /// If its lines are to end in zero bytes.
    //~ #[error("newlines end the lines of a folder: leave out -z")]
    NotZeroEnded,
    //~ #[error("cannot write files: {0}")]
    Folder(io::Error),
    /// The character behind DIR in the name of the unfinished folder.
    //~ #[error("cannot write files: DIR{0}dictcol-unfinished is not what a killed run leaves: move it away")]
    NotLeft(char),
    /// So many shards can be open at once.
    //~ #[error("cannot write files: the limit of open files allows {0} shards (see ulimit -n)")]
    TooManyShards(usize),
    //~ #[error("cannot draw random keys: {0}")]
    NoKeys(io::Error),
    /// If the backend has no symbol for one more, or the count is full.
    //~ #[error("too many distinct lines")]
    TooMany,
    //~ #[error("out of memory")]
    Memory,
    //~ #[error("cannot write output: {0}")]
    Output(io::Error),
    /// If nobody reads it any more.
    //~ #[error("output is closed")]
    ClosedOutput,
} impl ::core::error::Error for Fault {} impl ::core::fmt::Display for Fault { fn fmt(&self, f: &mut ::core::fmt::Formatter<'_>) -> ::core::fmt::Result { match self { Self::Argument { .. } => f.write_str("an argument is not UTF-8"), Self::Input(it) => ::core::write!(f, "cannot read input: {0}", it), Self::NotUtf8(it) => ::core::write!(f, "line {0} is not UTF-8", it), Self::Compressed(it0, it1) => ::core::write!(f, "line {0} is not UTF-8: it looks compressed ({1} FILE | dictcol ..)", it0, it1), Self::NotJson(it) => ::core::write!(f, "{0}", it), Self::EndsEarly { line, column, .. } => ::core::write!(f, "JSON ends too early, at line {line} column {column}"), Self::ByteOrderMark { .. } => f.write_str("the JSON begins with a byte order mark"), Self::NoDictionary { .. } => f.write_str("no array \"dictionary\""), Self::NotAText(it) => ::core::write!(f, "dictionary[{0}] is not a string", it), Self::Repeated(it) => ::core::write!(f, "dictionary[{0}] repeats an earlier text", it), Self::HasNewline(it) => ::core::write!(f, "dictionary[{0}] contains a newline", it), Self::NoLines { .. } => f.write_str("no array \"lines\""), Self::NotAnIndex(it) => ::core::write!(f, "lines[{0}] is not the index of a text", it), Self::NoFinalNewline { .. } => f.write_str("no boolean \"final_newline\""), Self::DictionaryNotUtf8(it) => ::core::write!(f, "dict.txt: line {0} is not UTF-8", it), Self::NotEnded { .. } => f.write_str("dict.txt does not end in a newline"), Self::RepeatedLine(it) => ::core::write!(f, "dict.txt: line {0} repeats an earlier line", it), Self::NotNpy { .. } => f.write_str("codes.npy is not in NumPy's format 1.0"), Self::OtherType { .. } => f.write_str("codes.npy has another type than '<u4'"), Self::OtherOrder { .. } => f.write_str("codes.npy is in Fortran's order"), Self::OtherShape { .. } => f.write_str("codes.npy has another shape than a list"), Self::OtherLength { .. } => f.write_str("codes.npy has another length than its header says"), Self::NotALine(it) => ::core::write!(f, "codes[{0}] is not the number of a line of dict.txt", it), Self::NotAPair { .. } => f.write_str("dict.txt and codes.npy are not of one run (see pair.txt)"), Self::NoCut { .. } => f.write_str("no_final_newline is missing (see pair.txt)"), Self::OtherCut { .. } => f.write_str("no_final_newline is of another run (see pair.txt)"), Self::DictionaryFile(it) => ::core::write!(f, "cannot read dict.txt: {0}", it), Self::NumbersFile(it) => ::core::write!(f, "cannot read codes.npy: {0}", it), Self::PairFile(it) => ::core::write!(f, "cannot read pair.txt: {0}", it), Self::CutFile(it) => ::core::write!(f, "cannot read no_final_newline: {0}", it), Self::NotZeroEnded { .. } => f.write_str("newlines end the lines of a folder: leave out -z"), Self::Folder(it) => ::core::write!(f, "cannot write files: {0}", it), Self::NotLeft(it) => ::core::write!(f, "cannot write files: DIR{0}dictcol-unfinished is not what a killed run leaves: move it away", it), Self::TooManyShards(it) => ::core::write!(f, "cannot write files: the limit of open files allows {0} shards (see ulimit -n)", it), Self::NoKeys(it) => ::core::write!(f, "cannot draw random keys: {0}", it), Self::TooMany { .. } => f.write_str("too many distinct lines"), Self::Memory { .. } => f.write_str("out of memory"), Self::Output(it) => ::core::write!(f, "cannot write output: {0}", it), Self::ClosedOutput { .. } => f.write_str("output is closed"), } } }

impl Fault {
    /// Returns the fault of arguments that cannot be read.
    pub fn of_arguments(error: io::Error) -> Fault
        //~ ensures { result ≡ arguments_fault (error_kind error) }
    {
        match error.kind() {
            ErrorKind::OutOfMemory => Fault::Memory,
            _ => Fault::Argument,
        }
    }

    /// Returns the fault of a read that failed with this error. A failed allocation is a kind of read error.
    pub fn of_read(error: io::Error) -> Fault
        //~ ensures value { result ≡ read_fault (error_kind error) error }
        //~ ensures reading { IsReadFault result }
    {
        match error.kind() {
            ErrorKind::OutOfMemory => Fault::Memory,
            _ => Fault::Input(error),
        }
    }

    /// Returns the fault of a write that failed with this error.
    pub fn of_write(error: io::Error) -> Fault
        //~ ensures value { result ≡ write_fault (error_kind error) error }
        //~ ensures writing { IsWriteFault result }
        //~ ensures sound { IsNoDamage result }
    {
        match error.kind() {
            ErrorKind::BrokenPipe => Fault::ClosedOutput,
            _ => Fault::Output(error),
        }
    }

    /// Returns the fault of lines that an interner does not take.
    pub fn of_intern(error: InternError) -> Fault
        //~ ensures value { result ≡ intern_fault error }
        //~ ensures taking { IsTakeFault (error ≡ NoSymbol) result }
        //~ ensures sound { IsNoDamage result }
    {
        match error {
            InternError::NoSymbol => Fault::TooMany,
            InternError::Memory(_) => Fault::Memory,
        }
    }

    /// Returns a fault of reading lines as one of reading `dict.txt`.
    pub fn of_dictionary(fault: Fault) -> Fault
        //~ ensures { result ≡ dictionary_fault fault }
    {
        match fault {
            Fault::Input(error) => Fault::DictionaryFile(error),
            Fault::NotUtf8(line) => Fault::DictionaryNotUtf8(line),
            fault => fault,
        }
    }

    /// Returns a fault of reading the input as one of reading `codes.npy`.
    pub fn of_numbers(fault: Fault) -> Fault
        //~ ensures { result ≡ numbers_fault fault }
    {
        match fault {
            Fault::Input(error) => Fault::NumbersFile(error),
            fault => fault,
        }
    }

    /// Returns a fault of reading the input as one of reading `pair.txt`.
    pub fn of_pair(fault: Fault) -> Fault
        //~ ensures { result ≡ pair_fault fault }
    {
        match fault {
            Fault::Input(error) => Fault::PairFile(error),
            fault => fault,
        }
    }

    /// Returns the exit status: 2 if the arguments or the input are wrong, 1 if the system failed or there is too much. If
    /// the output is closed it is 141, as a shell reports for `cat` or `sort` then: 128 and the number of SIGPIPE.
    pub fn status(&self) -> u8
        //~ ensures { result ≡ status_of self.now }
    {
        match self {
            Fault::ClosedOutput => 141,
            Fault::Input(_)
            | Fault::DictionaryFile(_)
            | Fault::NumbersFile(_)
            | Fault::PairFile(_)
            | Fault::CutFile(_)
            | Fault::Folder(_)
            | Fault::NotLeft(_)
            | Fault::TooManyShards(_)
            | Fault::NoKeys(_)
            | Fault::TooMany
            | Fault::Memory
            | Fault::Output(_) => 1,
            _ => 2,
        }
    }
}
