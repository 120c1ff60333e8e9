//! Faults, each with the file that it is of and what may be done about it.

//~ ghost use Rattle.std.specs.Prelude.{◌≡◌, []};

use crate::rt::prelude::*; use crate::dictcol::fault::Fault;
use crate::dictcol::source::Source;

/// A fault of a file. It ends a command.
//~ #[derive(Drop)]
pub struct Located<'a> {
    /// The file. Standard input, which has no name to tell, is also in the place of none.
    pub source: Source<'a>,
    pub fault: Fault,
    /// What may be done about it, behind the message.
    pub advice: &'static str,
}

impl<'a> Located<'a> {
    /// Returns the fault of a file, without advice.
    pub fn new(source: Source<'a>, fault: Fault) -> Located<'a>
        //~ ensures source { result.source ≡ source.entry }
        //~ ensures fault { result.fault ≡ fault }
        //~ ensures advice { result.advice.now ≡ [] }
    {
        Located {
            source,
            fault,
            advice: "",
        }
    }
}

/// A fault of no file.
impl From<Fault> for Located<'_> {
    //~ ghost use Rattle.dictcol.specs.declared.source.Source.TheVariants.{StandardInput};

    //~ ghost from_gives = { λ fault located. (located.source ≡ StandardInput)
    //~     × (located.fault ≡ fault) × (located.advice.now ≡ []) };

    fn from(fault: Fault) -> Self {
        Located::new(Source::StandardInput, fault)
    }
}
