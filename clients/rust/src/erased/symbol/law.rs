//! A law of the symbol types.

//~ ghost use Rattle.string_interner.specs.SymbolOrder.{U16IsByNumber, U32IsByNumber, UsizeIsByNumber};

use crate::rt::prelude::*; /// Does nothing. Its clauses are a law of the symbol types here: they are ordered and hashed as their numbers are.
pub fn order_law()
    //~ ensures two_bytes { U16IsByNumber }
    //~ ensures four_bytes { U32IsByNumber }
    //~ ensures eight_bytes { UsizeIsByNumber }
{}
