use cli::go;
use std::alloc::{Allocator, Global};
use std::fs::{File, Metadata, OpenFile, OpenOptions, Permissions};
use std::io::{BufRead, ErrorKind, Lines, Read, Seek, SeekFrom, Write};
use std::path::PathBuf;
use std::rt::Files;
use std::test::Fail;
use std::{fs, io};

/// The disk of the host, on which each open file takes a number of bytes and then no more, and on which a file can
/// report another length than it has; and a standard input of some bytes.
#[derive(Clone, Copy)]
pub struct Disk<'a> {
    pub host: &'a HostRuntime,
    /// The bytes that each file takes.
    pub room: usize,
    /// The length that each file reports, if it is not its own.
    pub reported: Option<u64>,
    /// The most bytes that a call reads of a file, if files can be read.
    pub at_once: Option<usize>,
    /// What the standard input has.
    pub input: &'a [u8],
}

/// The disk of the host with this standard input.
pub fn with_input<'a>(rt: &'a HostRuntime, input: &'a [u8]) -> Disk<'a> {
    Disk {
        host: rt,
        room: 0,
        reported: None,
        at_once: Some(usize::MAX),
        input,
    }
}

impl<'a> Input for Disk<'a> {
    type Reader = &'a [u8];

    fn read_line<A: Allocator + Clone>(&self, buf: &mut String<A>) -> io::Result<usize> {
        self.reader().read_line(buf)
    }

    fn lines<A: Allocator>(&self, alloc: A) -> Lines<&'a [u8], A> {
        self.reader().lines(alloc)
    }

    fn reader(&self) -> &'a [u8] {
        self.input
    }
}

/// An open file of such a disk.
#[derive(Drop)]
pub struct DiskFile {
    file: File,
    room: usize,
    reported: Option<u64>,
    at_once: Option<usize>,
}

impl Read for DiskFile {
    fn read(&mut self, buf: &mut [u8]) -> io::Result<usize> {
        match self.at_once {
            Some(most) => {
                let count = buf.len().min(most);
                self.file.read(&mut buf[..count])
            }
            None => Err(io::Error::from(ErrorKind::Other)),
        }
    }
}

impl Write for DiskFile {
    fn write(&mut self, buf: &[u8]) -> io::Result<usize> {
        let count = buf.len().min(self.room);
        if count == 0 {
            return Err(io::Error::from(ErrorKind::StorageFull));
        }
        let taken = self.file.write(&buf[..count])?;
        self.room = self.room.saturating_sub(taken);
        Ok(taken)
    }

    fn flush(&mut self) -> io::Result<()> {
        self.file.flush()
    }
}

impl Seek for DiskFile {
    fn seek(&mut self, start: SeekFrom) -> io::Result<u64> {
        self.file.seek(start)
    }
}

impl OpenFile for DiskFile {
    fn metadata(&self) -> io::Result<Metadata> {
        match self.reported {
            Some(len) => Ok(Metadata::of_file(len)),
            None => self.file.metadata(),
        }
    }

    fn set_len(&self, size: u64) -> io::Result<()> {
        self.file.set_len(size)
    }

    fn sync_all(&self) -> io::Result<()> {
        self.file.sync_all()
    }

    fn sync_data(&self) -> io::Result<()> {
        self.file.sync_data()
    }

    fn set_permissions(&self, perm: Permissions) -> io::Result<()> {
        self.file.set_permissions(perm)
    }
}

impl Files for Disk<'_> {
    type File = DiskFile;

    type Dir = <HostRuntime as Files>::Dir;

    fn open_file(&self, how: &OpenOptions, path: &str) -> io::Result<DiskFile> {
        Ok(DiskFile {
            file: self.host.open_file(how, path)?,
            room: self.room,
            reported: self.reported,
            at_once: self.at_once,
        })
    }

    fn open_dir(&self, path: &str) -> io::Result<Self::Dir> {
        self.host.open_dir(path)
    }

    fn metadata(&self, path: &str) -> io::Result<Metadata> {
        self.host.metadata(path)
    }

    fn symlink_metadata(&self, path: &str) -> io::Result<Metadata> {
        self.host.symlink_metadata(path)
    }

    fn copy(&self, from: &str, to: &str) -> io::Result<u64> {
        self.host.copy(from, to)
    }

    fn rename(&self, from: &str, to: &str) -> io::Result<()> {
        self.host.rename(from, to)
    }

    fn remove_file(&self, path: &str) -> io::Result<()> {
        self.host.remove_file(path)
    }

    fn create_dir(&self, path: &str) -> io::Result<()> {
        self.host.create_dir(path)
    }

    fn remove_dir(&self, path: &str) -> io::Result<()> {
        self.host.remove_dir(path)
    }

    fn remove_dir_all<B: Allocator>(&self, alloc: B, path: &str) -> io::Result<()> {
        self.host.remove_dir_all(alloc, path)
    }

    fn canonicalize<B: Allocator>(&self, alloc: B, path: &str) -> io::Result<PathBuf<B>> {
        self.host.canonicalize(alloc, path)
    }
}

/// What the program prints on such a disk, and its status.
pub fn answer_on(disk: Disk, words: &[&str]) -> Result<(u8, String, String), Fail> {
    let alloc: Global = disk.host.alloc();
    let (mut out, mut err) = (Vec::new(alloc), Vec::new(alloc));
    let status = go(&(disk, alloc), words, &mut out, &mut err);
    let out = String::from_utf8(out).ok().ok_or("no text")?;
    let err = String::from_utf8(err).ok().ok_or("no text")?;
    Ok((status, out, err))
}
