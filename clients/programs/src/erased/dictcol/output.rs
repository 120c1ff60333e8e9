//! What is written to.

use crate::rt::prelude::*; pub mod block_writer;
pub mod exchanged;

//~ ghost use Rattle.std.specs.Prelude.{IfErr, OnOk};
//~ ghost use Rattle.std.specs.Io.KnownBytes.{Appends};
//~ ghost use Rattle.dictcol.specs.Fault.{IsWriteFault};

use crate::dictcol::fault::Fault;
use crate::dictcol::output::exchanged::Exchanged;
use crate::rt::io::{BufWriter, Stdout, Write};

/// How many bytes are written at once.
const BUFFER: usize = 1 << 16;

/// Returns standard output, to which much is written at once, with newlines and zero bytes exchanged or not.
pub fn open_output(
    rt: &HostRuntime,
    is_exchanged: bool,
) -> Result<BufWriter<Exchanged<Stdout>>, Fault> {
    let alloc = rt.alloc();
    let output = Exchanged::new(alloc, rt.stdout(), is_exchanged).map_err(|_| Fault::Memory)?;
    BufWriter::with_capacity(alloc, BUFFER, output).map_err(|_| Fault::Memory)
}

/// Writes some bytes.
pub fn write<W: Write>(output: &mut W, bytes: &[u8]) -> Result<(), Fault>
    //~ ensures written { OnOk result
    //~     (Appends (W.contents output.old) (W.contents output.new) bytes.now) }
    //~ ensures fault { IfErr result IsWriteFault }
{
    output.write_all(bytes).map_err(Fault::of_write)
}
