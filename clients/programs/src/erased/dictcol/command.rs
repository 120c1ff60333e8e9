//! The commands, and what each does with files.

//~ ghost use Rattle.std.specs.Prelude.{◌≡◌, [], ◌∷◌, map, IfErr, IfOk};
//~ ghost use Rattle.dictcol.specs.Compression.{explained};
//~ ghost use Rattle.dictcol.specs.Inputs.{compression_at, named_at};
//~ ghost use Rattle.dictcol.specs.declared.fault.Fault.TheVariants.{Memory};

use crate::rt::prelude::*; use crate::dictcol::count::count;
use crate::dictcol::decode::decode;
use crate::dictcol::distinct::distinct;
use crate::dictcol::encode::encode;
use crate::dictcol::fault::Fault;
use crate::dictcol::get::Get;
use crate::dictcol::hasher::LineHasher;
use crate::dictcol::input::inputs::Inputs;
use crate::dictcol::located::Located;
use crate::dictcol::merge::{MergeFault, count_encoded, merge};
use crate::dictcol::output::open_output;
use crate::dictcol::plain::folder;
use crate::dictcol::reader::{LineReader, Reading};
use crate::dictcol::source::Source;
use crate::dictcol::{columns, shards};
use crate::rt::num::NonZeroUsize;
use crate::erased::backend::{Backend, BucketBackend, BufferBackend, StringBackend};

/// Which backend the texts are stored in.
#[derive(Clone, Copy)]
pub enum BackendKind {
    String,
    Bucket,
    Buffer,
}

/// Where the dictionary comes from that plain columns begin with.
#[derive(Clone, Copy)]
pub struct Onto<'a> {
    /// The folder.
    pub folder: &'a str,
    /// Whether the dictionary is taken alone, and needs no numbers.
    pub is_dictionary: bool,
}

/// Where plain columns are written.
#[derive(Clone, Copy)]
pub struct Columns<'a> {
    /// The folder.
    pub folder: &'a str,
    /// What they begin with.
    pub onto: Option<Onto<'a>>,
    /// Whether the rows in the folder stay before theirs.
    pub appends: bool,
}

/// Where shards are written.
#[derive(Clone, Copy)]
pub struct ShardFolder<'a> {
    /// How many there are.
    pub count: NonZeroUsize,
    /// The folder.
    pub folder: &'a str,
}

/// In which order counted lines are written.
#[derive(Clone, Copy)]
pub enum Order {
    /// That of first appearance.
    Appearance,
    /// The most frequent first.
    Frequency,
    /// The same, but only so many.
    Top(NonZeroUsize),
}

/// Which counted lines are written.
#[derive(Clone, Copy)]
pub struct Rows {
    /// Their order.
    pub order: Order,
    /// How often each occurs at least.
    pub at_least: usize,
}

/// What is done with files.
#[derive(Clone, Copy)]
pub enum Command<'a> {
    /// The file of their lines is written.
    Encode,
    /// Their lines are written as plain columns.
    WriteColumns(Columns<'a>),
    /// The text is written that the file, or the folder of plain columns, holds.
    Decode,
    /// How often each of their lines occurs is written.
    Count(Rows),
    /// The same of the text that they hold, which `encode` wrote.
    CountEncoded(Rows),
    /// Each of their lines is written once.
    Distinct,
    /// They, which `encode` wrote, become one file.
    Merge,
    /// Their lines are written in shards.
    Shard(ShardFolder<'a>),
}

/// Where the files are named.
//~ #[derive(Drop)]
pub enum Files<'a> {
    /// By the arguments. If there are none, standard input is read.
    Named(Vec<Source<'a>>),
    /// In this list. If there are none, nothing is read.
    Listed(Source<'a>),
}

/// What the arguments ask for.
//~ #[derive(Drop)]
pub enum Invocation<'a> {
    Help,
    Version,
    /// The command, in which the backend stores the lines, and how and from where these are read.
    Run(Command<'a>, BackendKind, Reading, Files<'a>),
    /// Some of what a folder of plain columns holds.
    Get(Get<'a>),
}

/// Returns each file as an input of its own.
fn separate<'a>(rt: &'a HostRuntime, files: &'a [Source<'a>]) -> Result<Vec<Inputs<'a>>, Fault>
    //~ ensures each { IfOk result (λ inputs. map (λ input. input.sources.now) inputs.items
    //~     ≡ map (λ file. file ∷ []) files.now) }
    //~ ensures fault { IfErr result (λ fault. fault ≡ Memory) }
{
    let mut inputs = Vec::new(rt.alloc());
    for at in 0..files.len() {
        let input = Inputs::new(rt, &files[at..=at]);
        if inputs.push(input).is_err() {
            return Err(Fault::Memory);
        }
    }
    Ok(inputs)
}

/// Returns a fault of files, of which each is an input of its own, as one of the file that it is of.
fn locate<'a>(files: &[Source<'a>], inputs: &[Inputs<'a>], ended: MergeFault) -> Located<'a>
    //~ ensures source { result.source ≡ named_at files.now ended.index }
    //~ ensures fault { result.fault
    //~     ≡ explained (compression_at inputs.now ended.index) ended.fault }
    //~ ensures advice { result.advice.now ≡ [] }
{
    let source = match ended.index {
        Some(at) if at < files.len() => files[at],
        _ => Source::StandardInput,
    };
    match ended.index {
        Some(at) if at < inputs.len() => Located::new(source, inputs[at].explain(ended.fault)),
        _ => Located::new(source, ended.fault),
    }
}

/// Writes the file of the text that the files hold, one behind the other.
fn merge_files<'a, B: Backend + Drop>(
    rt: &'a HostRuntime,
    files: &'a [Source<'a>],
) -> Result<(), Located<'a>> {
    let (hasher, mut inputs) = (LineHasher::draw(rt)?, separate(rt, files)?);
    let mut output = open_output(rt, false)?;
    match merge::<B, _, _>(rt.alloc(), hasher, &mut inputs, &mut output) {
        Ok(()) => Ok(()),
        Err(ended) => Err(locate(files, &inputs, ended)),
    }
}

/// Writes how often each line of that text occurs.
fn count_encoded_files<'a, B: Backend + Drop>(
    rt: &'a HostRuntime,
    files: &'a [Source<'a>],
    asked: Rows,
) -> Result<(), Located<'a>> {
    let (hasher, mut inputs) = (LineHasher::draw(rt)?, separate(rt, files)?);
    let mut output = open_output(rt, false)?;
    match count_encoded::<B, _, _>(rt.alloc(), hasher, asked, &mut inputs, &mut output) {
        Ok(()) => Ok(()),
        Err(ended) => Err(locate(files, &inputs, ended)),
    }
}

/// Writes the text of the file, or of the folder of plain columns.
fn decode_files<'a>(rt: &'a HostRuntime, files: &'a [Source<'a>]) -> Result<(), Located<'a>> {
    if let Some(Source::File(path)) = files.first() {
        if folder::is_folder(rt, path) {
            let source = Source::File(path);
            let mut output = open_output(rt, false).map_err(|fault| Located::new(source, fault))?;
            return folder::decode(rt, path, &mut output).map_err(|fault| Located::new(
                source, fault,
            ));
        }
    }
    let hasher = LineHasher::draw(rt)?;
    let mut input = Inputs::new(rt, files);
    let mut output = open_output(rt, false).map_err(|fault| input.locate(fault))?;
    let outcome = decode(rt.alloc(), hasher, &mut input, &mut output);
    outcome.map_err(|fault| input.locate(fault))?;
    input.report_end();
    Ok(())
}

impl<'a> Command<'a> {
    /// Does it with the files, whose lines are read in this way and stored in this backend.
    pub fn run(
        self,
        rt: &'a HostRuntime,
        backend: BackendKind,
        reading: Reading,
        files: &'a [Source<'a>],
    ) -> Result<(), Located<'a>> {
        match backend {
            BackendKind::String => self.run_over::<StringBackend>(rt, reading, files),
            BackendKind::Bucket => self.run_over::<BucketBackend>(rt, reading, files),
            BackendKind::Buffer => self.run_over::<BufferBackend>(rt, reading, files),
        }
    }

    /// Does it, and stores the lines in the backend `B`.
    fn run_over<B: Backend + Drop>(
        self,
        rt: &'a HostRuntime,
        reading: Reading,
        files: &'a [Source<'a>],
    ) -> Result<(), Located<'a>> {
        let alloc = rt.alloc();
        let mut lines = LineReader::new(rt, reading, files);
        match self {
            Command::Encode => {
                let hasher = LineHasher::draw(rt)?;
                let mut output = lines.open_output()?;
                let outcome = encode::<B, _, _>(alloc, hasher, &mut lines.input, &mut output);
                lines.end(outcome)
            }
            Command::WriteColumns(columns) => {
                columns::write::<B>(&mut lines, LineHasher::draw(rt)?, columns)
            }
            Command::Decode => decode_files(rt, files),
            Command::Count(asked) => {
                let hasher = LineHasher::draw(rt)?;
                let mut output = lines.open_output()?;
                let outcome = count::<B, _, _>(alloc, hasher, asked, &mut lines.input, &mut output);
                lines.end(outcome)
            }
            Command::CountEncoded(asked) => count_encoded_files::<B>(rt, files, asked),
            Command::Distinct => {
                let hasher = LineHasher::draw(rt)?;
                let mut output = lines.open_output()?;
                let outcome = distinct::<B, _, _>(alloc, hasher, &mut lines.input, &mut output);
                lines.end(outcome)
            }
            Command::Merge => merge_files::<B>(rt, files),
            Command::Shard(place) => shards::folder::write(&mut lines, place, files),
        }
    }
}
