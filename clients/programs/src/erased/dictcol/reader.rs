//! The lines of some files, and what is told of them on standard error.

//~ ghost use Rattle.std.specs.Prelude.{◌≡◌};
//~ ghost use Rattle.dictcol.specs.Inputs.{advice_on_lines, caused, IsLocated, StaysAt};

use crate::rt::prelude::*; use crate::dictcol::fault::Fault;
use crate::dictcol::input::field::{Field, Picked};
use crate::dictcol::input::inputs::Inputs;
use crate::dictcol::input::mend::{Mended, Mending};
use crate::dictcol::located::Located;
use crate::dictcol::output::exchanged::Exchanged;
use crate::dictcol::output::open_output;
use crate::dictcol::shown::ShownPath;
use crate::dictcol::source::Source;
use crate::rt::io::{BufWriter, Stdout};

/// What is said of lines that look like what `encode` writes.
const LOOKS_ENCODED: &str = "lines were read from what encode wrote (see decode, count --encoded)";

/// What is said of lines that look compressed.
const LOOKS_COMPRESSED: &str = "fields were read from what looks compressed";

/// What may be done about a line that is not UTF-8.
const MENDING_ADVICE: &str = " (see --invalid)";

/// How lines are read.
#[derive(Clone, Copy)]
pub struct Reading {
    /// What is done with lines that are not UTF-8. If nothing is, they are faults.
    pub mending: Option<Mending>,
    /// Whether a zero byte ends each line, and not a newline.
    pub is_zero_ended: bool,
    /// The field of each line that stands for it, if one does.
    pub field: Option<Field>,
}

/// Reads the lines of some files.
//~ #[derive(Drop)]
pub struct LineReader<'a> {
    pub rt: &'a HostRuntime,
    /// Whether a zero byte ends each line, and not a newline.
    pub is_zero_ended: bool,
    /// The lines of all files.
    pub input: Mended<Picked<Inputs<'a>>>,
}

impl<'a> LineReader<'a> {
    /// Returns the reader of these files, none of which is open yet.
    pub fn new(rt: &'a HostRuntime, reading: Reading, files: &'a [Source<'a>]) -> LineReader<'a> {
        let is_zero_ended = reading.is_zero_ended;
        let picked = Picked::new(Inputs::of_lines(rt, files, is_zero_ended), reading.field);
        LineReader {
            rt,
            is_zero_ended,
            input: Mended::new(rt.alloc(), picked, reading.mending),
        }
    }

    /// Returns the files that are read one behind the other.
    pub fn inputs(&self) -> &Inputs<'a>
        //~ ensures { result.now ≡ self.now.input.input.input }
    {
        &self.input.input.input
    }

    /// Returns standard output, in which lines end as in the files.
    pub fn open_output(&self) -> Result<BufWriter<Exchanged<Stdout>>, Located<'a>> {
        open_output(self.rt, self.is_zero_ended).map_err(|fault| self.inputs().locate(fault))
    }

    /// Tells on standard error how many lines were left out.
    pub fn tell_skipped(&self) {
        let skipped = self.input.skipped;
        if skipped > 0 {
            // Nothing is lost if standard error is closed.
            let _ = crate::rt::eprintln!(self.rt; "dictcol: lines left out that are not UTF-8: {skipped}");
        }
    }

    /// Warns on standard error if a file whose lines were read looks like one that `encode` wrote, or if one whose fields were read
    /// looks compressed: the other lines of such a file are not UTF-8.
    pub fn warn_of_looks(&self) {
        self.warn(self.inputs().encoded, LOOKS_ENCODED);
        if self.input.input.field.is_some() {
            self.warn(self.inputs().compressed, LOOKS_COMPRESSED);
        }
    }

    /// Tells on standard error how a file looks, if there is one.
    fn warn(&self, source: Option<Source<'a>>, looks: &str) {
        // Nothing is lost if standard error is closed.
        let _ = match source {
            Some(Source::File(path)) => {
                let path = ShownPath(path);
                crate::rt::eprintln!(self.rt; "dictcol: {path}: warning: {looks}")
            }
            Some(Source::StandardInput) => crate::rt::eprintln!(self.rt; "dictcol: warning: {looks}"),
            None => Ok(()),
        };
    }

    /// Returns a fault of reading the lines as one of the file that it is about.
    pub fn locate(&mut self, fault: Fault) -> Located<'a>
        //~ ensures file { IsLocated self.new.input.input.input
        //~     (caused self.old.input.input.input.damage fault) result }
        //~ ensures same { StaysAt self.old.input.input.input self.new.input.input.input }
        //~ ensures advice { result.advice.now ≡ advice_on_lines result.fault }
    {
        let mended = &mut self.input;
        let picked = &mut mended.input;
        let cause = picked.input.find_cause(fault);
        let mut located = self.inputs().locate(cause);
        if let Fault::NotUtf8(_) = located.fault {
            located.advice = MENDING_ADVICE;
        }
        located
    }

    /// Tells what there is to tell of all lines, if they were taken, or locates why they were not.
    pub fn end(&mut self, outcome: Result<(), Fault>) -> Result<(), Located<'a>> {
        if let Err(fault) = outcome {
            return Err(self.locate(fault));
        }
        self.tell_skipped();
        self.inputs().report_end();
        self.warn_of_looks();
        Ok(())
    }
}
