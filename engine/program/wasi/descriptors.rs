//! What a program has open: its standard streams, folders and files.

use crate::wasi::Errno;
use crate::wasi::folders::Folder;
use std::fs::{File, Metadata};
use std::io::{Seek, SeekFrom};
use std::time::SystemTime;

/// What a descriptor stands for.
pub enum Descriptor {
    Input,
    Output,
    Error,
    Folder(Folder),
    File(File),
}

/// The descriptors of a program, by number.
pub struct Descriptors(Vec<Option<Descriptor>>);

/// How many may be open at once.
const MOST: usize = 1000;

// Flags and rights of `path_open`.
const CREATE_OR_CHANGE: u32 = 1 | 4 | 8;
const ONLY_FOLDER: u32 = 2;
const RIGHT_TO_WRITE: u64 = 1 << 6;

/// The kinds of files.
#[derive(Clone, Copy)]
enum Kind {
    Unknown = 0,
    Terminal = 2,
    Folder = 3,
    File = 4,
    Link = 7,
}

// The rights that a descriptor has, as programs are told.
const READ: u64 = 1 << 1;
const SEEK: u64 = 1 << 2;
const TELL: u64 = 1 << 5;
const STATUS: u64 = 1 << 21;
const OPEN: u64 = 1 << 13;
const PATH_STATUS: u64 = 1 << 18;
const OF_FILE: u64 = READ | SEEK | TELL | STATUS;
const OF_FOLDER: u64 = OPEN | PATH_STATUS | STATUS;

impl Descriptors {
    /// The standard streams, and after them the folders that are given.
    pub fn new(folders: Vec<Folder>) -> Self {
        let streams = [Descriptor::Input, Descriptor::Output, Descriptor::Error];
        Self(streams.into_iter().chain(folders.into_iter().map(Descriptor::Folder)).map(Some).collect())
    }

    pub fn get(&mut self, fd: u32) -> Result<&mut Descriptor, Errno> {
        self.0.get_mut(fd as usize).and_then(Option::as_mut).ok_or(Errno::BadDescriptor)
    }

    pub fn close(&mut self, fd: u32) -> Result<(), Errno> {
        self.get(fd)?;
        self.0[fd as usize] = None;
        Ok(())
    }

    pub fn folder(&mut self, fd: u32) -> Result<&Folder, Errno> {
        match self.get(fd)? {
            Descriptor::Folder(folder) => Ok(folder),
            _ => Err(Errno::NotFolder),
        }
    }

    /// The name of a folder that a flag names.
    pub fn name(&mut self, fd: u32) -> Result<&str, Errno> {
        self.folder(fd).ok().and_then(|it| it.name.as_deref()).ok_or(Errno::BadDescriptor)
    }

    /// Opens a file or a folder to be read, by its path in a folder.
    pub fn open(&mut self, fd: u32, path: &str, follows: bool, flags: u32, rights: u64) -> Result<u32, Errno> {
        let folder = self.folder(fd)?;
        if flags & CREATE_OR_CHANGE != 0 || rights & RIGHT_TO_WRITE != 0 {
            return Err(Errno::ReadOnly);
        }
        let found = folder.find(path, follows)?;
        let metadata = found.symlink_metadata()?;
        let opened = if metadata.is_dir() {
            Descriptor::Folder(Folder { name: None, root: found })
        } else if flags & ONLY_FOLDER != 0 {
            return Err(Errno::NotFolder);
        } else if metadata.is_file() {
            Descriptor::File(File::open(found)?)
        } else {
            return Err(if metadata.is_symlink() { Errno::Loop } else { Errno::NotCapable });
        };
        self.insert(opened)
    }

    fn insert(&mut self, opened: Descriptor) -> Result<u32, Errno> {
        let free = self.0.iter().position(Option::is_none).unwrap_or(self.0.len());
        if free >= MOST {
            return Err(Errno::TooManyFiles);
        }
        if free == self.0.len() {
            self.0.push(None);
        }
        self.0[free] = Some(opened);
        Ok(free as u32)
    }
}

impl Descriptor {
    /// The kind, the flags, the rights, and the rights of what is opened in it, as `fd_fdstat_get` writes them.
    ///
    /// The standard streams are terminals for each program, so that what it prints doesn't depend on where it goes.
    pub fn status(&self) -> [u8; 24] {
        const RIGHT_TO_READ: u64 = READ | STATUS;
        let (kind, rights, passed) = match self {
            Self::Input => (Kind::Terminal, RIGHT_TO_READ, 0),
            Self::Output | Self::Error => (Kind::Terminal, RIGHT_TO_WRITE | STATUS, 0),
            Self::Folder(_) => (Kind::Folder, OF_FOLDER, OF_FOLDER | OF_FILE),
            Self::File(_) => (Kind::File, OF_FILE, 0),
        };
        let mut status = [0; 24];
        status[0] = kind as u8;
        status[8..16].copy_from_slice(&rights.to_le_bytes());
        status[16..].copy_from_slice(&passed.to_le_bytes());
        status
    }

    /// What `fd_filestat_get` writes.
    pub fn file_status(&self) -> Result<[u8; 64], Errno> {
        match self {
            Self::File(file) => Ok(status_of(&file.metadata()?)),
            Self::Folder(folder) => Ok(status_of(&folder.root.symlink_metadata()?)),
            Self::Input | Self::Output | Self::Error => Ok(status(Kind::Terminal, 0, 0)),
        }
    }

    pub fn seek(&mut self, offset: i64, whence: u32) -> Result<u64, Errno> {
        let Self::File(file) = self else { return Err(Errno::NoSeek) };
        let to = match whence {
            0 => SeekFrom::Start(offset.try_into().or(Err(Errno::Invalid))?),
            1 => SeekFrom::Current(offset),
            2 => SeekFrom::End(offset),
            _ => return Err(Errno::Invalid),
        };
        Ok(file.seek(to)?)
    }
}

/// The kind, the size and the time of the last change of a file. Its numbers on the machine are left out.
pub fn status_of(metadata: &Metadata) -> [u8; 64] {
    let kind = match metadata {
        it if it.is_file() => Kind::File,
        it if it.is_dir() => Kind::Folder,
        it if it.is_symlink() => Kind::Link,
        _ => Kind::Unknown,
    };
    let changed = metadata.modified().ok().and_then(|it| it.duration_since(SystemTime::UNIX_EPOCH).ok());
    status(kind, metadata.len(), changed.map_or(0, |it| it.as_nanos() as u64))
}

fn status(kind: Kind, size: u64, changed: u64) -> [u8; 64] {
    const LINKS: u64 = 1;
    let fields = [0, 0, kind as u64, LINKS, size, changed, changed, changed];
    std::array::from_fn(|i| fields[i / 8].to_le_bytes()[i % 8])
}
