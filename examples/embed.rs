//! examples/embed.rs: a live host within a program in Rust.
//!
//!     rustc -O -o embed examples/embed.rs $(tools/library --rustc)
//!     ./embed < cases/serve/two-nodes-hear-each-other/lines
//!
//! It reads lines from the standard input, has a host answer each, and prints the blocks, as `scphost serve` does. With the
//! word `--bytes` envelopes are printed as bytes. The module `scp_host` is all that a program of yours needs.

use std::io::{self, BufRead, Write};
use std::process::ExitCode;

/// Safe Rust over the static library. Nothing compares it with `scp_host.h`, which says what each function does.
mod scp_host {
    use std::ptr::null_mut;

    #[repr(C)]
    struct Handle {
        at: *mut u8,
    }

    unsafe extern "C" {
        fn scp_host_new(host: &mut Handle, bytes: bool) -> u32;
        fn scp_host_line(host: &mut Handle, line: *const u8, length: usize) -> u32;
        fn scp_host_block(host: &mut Handle, room: *mut u8, length: usize) -> usize;
        fn scp_host_free(host: &mut Handle);
    }

    /// A live host. It stays in its thread, since it holds a raw pointer.
    pub struct Host {
        handle: Handle,
        block: Vec<u8>,
    }

    /// Why there is no answer.
    #[derive(Debug)]
    pub enum Failed {
        NoMemory,
        NoHost,
        NoNumber,
    }

    impl Host {
        /// A host without networks; `None` if it is out of memory.
        pub fn new(bytes: bool) -> Option<Host> {
            let mut handle = Handle { at: null_mut() };
            // SAFETY: the handle begins with null, and is changed by the library alone, here and below.
            match unsafe { scp_host_new(&mut handle, bytes) } {
                0 => Some(Host { handle, block: vec![0; 4096] }),
                _ => None,
            }
        }

        /// Has the host answer a line without its line feed: its block, and whether a journal keeps the line.
        pub fn line(&mut self, line: &[u8]) -> Result<(&[u8], bool), Failed> {
            // SAFETY: the pointer and the length are those of one slice, which is lent for the call.
            let kept = match unsafe { scp_host_line(&mut self.handle, line.as_ptr(), line.len()) } {
                0 => false,
                1 => true,
                2 => return Err(Failed::NoMemory),
                3 => return Err(Failed::NoHost),
                _ => return Err(Failed::NoNumber),
            };
            let length = self.copied();
            if length > self.block.len() {
                self.block.resize(length, 0);
                self.copied();
            }
            Ok((&self.block[..length], kept))
        }

        fn copied(&mut self) -> usize {
            // SAFETY: as above, and all bytes of the room may be written.
            unsafe { scp_host_block(&mut self.handle, self.block.as_mut_ptr(), self.block.len()) }
        }
    }

    impl Drop for Host {
        fn drop(&mut self) {
            // SAFETY: as above.
            unsafe { scp_host_free(&mut self.handle) }
        }
    }
}

/// Has each whole line answered, until the input ends. What stands behind its last line feed is no line.
fn serve(host: &mut scp_host::Host) -> io::Result<()> {
    let (mut input, mut output, mut line) = (io::stdin().lock(), io::stdout().lock(), Vec::new());
    while input.read_until(b'\n', &mut line)? > 0 && line.pop() == Some(b'\n') {
        let (block, _) = host.line(&line).map_err(|failed| io::Error::other(format!("{failed:?}")))?;
        output.write_all(block)?;
        output.flush()?;
        line.clear();
    }
    Ok(())
}

fn main() -> ExitCode {
    let bytes = std::env::args().nth(1).is_some_and(|word| word == "--bytes");
    let served = match scp_host::Host::new(bytes) {
        Some(mut host) => serve(&mut host),
        None => Err(io::ErrorKind::OutOfMemory.into()),
    };
    match served {
        Ok(()) => ExitCode::SUCCESS,
        Err(error) => {
            eprintln!("{error}");
            ExitCode::from(3)
        }
    }
}
