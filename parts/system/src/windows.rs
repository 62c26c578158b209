//! The calls of Windows.

use std::ffi::{c_int, c_uint, c_void, OsStr};
use std::fs::{File, OpenOptions};
use std::io::{self, Write};
use std::mem::MaybeUninit;
use std::os::windows::io::{AsHandle, AsRawHandle, RawHandle};
use std::path::Path;

use crate::Identity;

extern "C" {
    fn _write(file: c_int, bytes: *const c_void, count: c_uint) -> c_int;
    fn _exit(status: c_int) -> !;
}

extern "system" {
    fn GetFileInformationByHandle(file: RawHandle, data: *mut Data) -> c_int;
}

/// BY_HANDLE_FILE_INFORMATION, word by word.
#[repr(C)]
struct Data {
    _attributes: u32,
    _times: [u32; 6],
    volume: u32,
    _size_and_links: [u32; 3],
    number: [u32; 2],
}

const STANDARD_ERROR: c_int = 2;

/// Ends the program with a sentence. Nothing is allocated any more.
pub fn end(sentence: &[u8], status: c_int) -> ! {
    // Safety: the bytes are there, with their length, which is small.
    unsafe {
        _write(STANDARD_ERROR, sentence.as_ptr().cast(), sentence.len() as c_uint);
        _exit(status)
    }
}

/// A file that a signal removes. Windows has no such signals.
pub struct Removed;

/// Windows does not tell a closed standard output from one that takes everything.
pub fn standard_output_is_open() -> io::Result<()> {
    Ok(())
}

pub fn close_standard_output() -> io::Result<()> {
    io::stdout().flush()
}

pub fn standard_input() -> io::Result<File> {
    opened(&io::stdin())
}

pub fn standard_output() -> io::Result<File> {
    opened(&io::stdout())
}

fn opened(stream: &impl AsHandle) -> io::Result<File> {
    stream.as_handle().try_clone_to_owned().map(File::from)
}

/// The identity of a file; a pipe, a console or a device has none, and Windows says so by an error.
pub fn identity_of(file: &File) -> io::Result<Option<Identity>> {
    let mut data = MaybeUninit::<Data>::uninit();
    // Safety: the handle is open, and there is room for what is written.
    if unsafe { GetFileInformationByHandle(file.as_raw_handle(), data.as_mut_ptr()) } == 0 {
        return Ok(None);
    }
    // Safety: the call wrote all of it.
    let Data { volume, number: [high, low], .. } = unsafe { data.assume_init() };
    Ok(Some(Identity(volume.into(), u64::from(high) << 32 | u64::from(low))))
}

/// Creates a file that must not exist yet. A file of Windows has no mode.
pub fn new_file(path: &Path, _mode: u32) -> io::Result<(File, Option<Removed>)> {
    OpenOptions::new().write(true).create_new(true).open(path).map(|file| (file, None))
}

/// What is before the first `=` of a word, and what is behind it where there is one; a word that is no text has none.
pub fn parted(word: &OsStr) -> (&OsStr, Option<&OsStr>) {
    match word.to_str().and_then(|text| text.split_once('=')) {
        None => (word, None),
        Some((name, behind)) => (name.as_ref(), Some(behind.as_ref())),
    }
}
