//! The program under test, run once for each file: standard input to standard output and standard error.

use std::ffi::OsString;
use std::io::{Error, ErrorKind, Write};
use std::os::fd::OwnedFd;
use std::os::unix::net::UnixStream;
use std::process::{Child, Command, ExitStatus, Output, Stdio};

pub struct Program {
    pub path: OsString,
    pub arguments: Vec<OsString>,
}

pub struct Ran {
    pub status: ExitStatus,
    pub output: Vec<u8>,
    /// Standard error.
    pub said: Vec<u8>,
}

impl From<Output> for Ran {
    fn from(ended: Output) -> Ran {
        Ran { status: ended.status, output: ended.stdout, said: ended.stderr }
    }
}

impl Program {
    fn start(&self, input: Stdio) -> std::io::Result<Child> {
        Command::new(&self.path)
            .args(&self.arguments)
            .stdin(input)
            .stdout(Stdio::piped())
            .stderr(Stdio::piped())
            .spawn()
    }

    fn cannot(&self, what: &str, error: Error) -> String {
        format!("cannot {what} {}: {error}", self.path.display())
    }

    /// Runs the program on input that begins with the given bytes and then cannot be read: a stream that does not wait
    /// for more, and whose other end stays open.
    pub fn run_broken(&self, input: &[u8]) -> Result<Ran, String> {
        let broken = || {
            let (mut here, there) = UnixStream::pair()?;
            there.set_nonblocking(true)?;
            here.write_all(input)?;
            let ended = self.start(OwnedFd::from(there).into())?.wait_with_output()?;
            drop(here);
            Ok(Ran::from(ended))
        };
        broken().map_err(|error| self.cannot("run", error))
    }

    /// Runs the program on a file. The input goes through a pipe in pieces of the given size, so that it arrives by and
    /// by; a program that ends before it has read everything is no error here.
    pub fn run(&self, input: &[u8], piece: usize) -> Result<Ran, String> {
        let mut child = self.start(Stdio::piped()).map_err(|error| self.cannot("start", error))?;
        let pipe = child.stdin.take();
        let (written, ended) = std::thread::scope(|scope| {
            let writer = scope.spawn(move || match pipe {
                Some(mut pipe) => input.chunks(piece.max(1)).try_for_each(|part| pipe.write_all(part)),
                None => Ok(()),
            });
            let ended = child.wait_with_output();
            (writer.join(), ended)
        });
        match written {
            Ok(Err(error)) if error.kind() != ErrorKind::BrokenPipe => return Err(self.cannot("write to", error)),
            Err(_) => return Err("the writer's thread failed".to_string()),
            _ => {}
        }
        let ended = ended.map_err(|error| self.cannot("read from", error))?;
        Ok(Ran::from(ended))
    }
}
