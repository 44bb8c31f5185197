//! Standard output.

use std::io::{self, BufWriter, ErrorKind, Write, stdout};

use crate::closed::was_closed;
use crate::failure::Failure;

/// The operating system's number for what is no open file.
const BAD_FILE: i32 = 9;

/// What is written to: standard output or a file.
pub type Out<'a> = BufWriter<&'a mut dyn Write>;

/// What is written to, with room for some of it before it goes there.
pub fn buffered(to: &mut dyn Write) -> Out<'_> {
    BufWriter::with_capacity(1 << 16, to)
}

/// Writes to standard output. Nobody reading on is no failure.
pub fn output(fill: impl FnOnce(&mut Out) -> io::Result<()>) -> Result<(), Failure> {
    if was_closed() {
        let error = io::Error::from_raw_os_error(BAD_FILE);
        return Err(Failure::file("standard output", error));
    }
    let mut stdout = stdout().lock();
    let mut out = buffered(&mut stdout);
    match fill(&mut out).and_then(|()| out.flush()) {
        Err(error) if error.kind() != ErrorKind::BrokenPipe => {
            Err(Failure::file("standard output", error))
        }
        _ => Ok(()),
    }
}

/// Writes a text to standard output.
pub fn text(text: &str) -> Result<(), Failure> {
    output(|out| out.write_all(text.as_bytes()))
}
