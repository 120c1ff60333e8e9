//! Input that looks compressed.

//~ ghost use Rattle.std.specs.Prelude.{◌≡◌};
//~ ghost use Rattle.dictcol.specs.Compression.{compression_of};

use crate::rt::prelude::*; use crate::rt::fmt;
use crate::rt::fmt::{Formatter, Write};

/// What compressed an input, as its first bytes look. It is displayed as the command that reads such a file.
#[derive(Clone, Copy, Debug, PartialEq)]
pub enum Compression {
    Gzip,
    Zstd,
    Xz,
    Bzip2,
}

impl Compression {
    /// Returns what compressed an input that begins with these bytes, if it looks compressed.
    pub fn of(bytes: &[u8]) -> Option<Compression>
        //~ ensures { result ≡ compression_of bytes.now }
    {
        if bytes.starts_with(b"\x1f\x8b") {
            return Some(Compression::Gzip);
        }
        if bytes.starts_with(b"\x28\xb5\x2f\xfd") {
            return Some(Compression::Zstd);
        }
        if bytes.starts_with(b"\xfd7zXZ") {
            return Some(Compression::Xz);
        }
        if bytes.starts_with(b"BZh") && bytes.len() > 4 && bytes[4..].starts_with(b"1AY&SY") {
            return Some(Compression::Bzip2);
        }
        None
    }
}

impl fmt::Display for Compression {
    //~ ghost use Rattle.std.specs.Prelude.{Some};
    //~ ghost use Rattle.dictcol.specs.Compression.{reader_of};

    //~ ghost output = { λ compression. Some (reader_of compression) };

    fn fmt(&self, f: &mut Formatter<'_>) -> fmt::Result {
        f.write_str(match self {
            Compression::Gzip => "zcat",
            Compression::Zstd => "zstdcat",
            Compression::Xz => "xzcat",
            Compression::Bzip2 => "bzcat",
        })
    }
}
