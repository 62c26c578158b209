//! The calls of Linux and of other systems like Unix.

use std::ffi::{c_char, c_int, c_void, CString, OsStr};
use std::fs::{File, OpenOptions};
use std::io;
use std::os::fd::AsFd;
use std::os::unix::ffi::OsStrExt;
use std::os::unix::fs::{MetadataExt, OpenOptionsExt};
use std::path::Path;
use std::ptr;
use std::sync::atomic::{AtomicBool, AtomicPtr, AtomicU32, Ordering::SeqCst};

use crate::Identity;

extern "C" {
    fn write(file: c_int, bytes: *const c_void, count: usize) -> isize;
    fn close(file: c_int) -> c_int;
    fn fcntl(file: c_int, command: c_int, ...) -> c_int;
    fn unlink(path: *const c_char) -> c_int;
    fn signal(number: c_int, action: usize) -> usize;
    fn raise(number: c_int) -> c_int;
    fn _exit(status: c_int) -> !;
}

/// The signals that end a program and that someone sends: SIGHUP, SIGINT, SIGQUIT and SIGTERM.
const SENT: [c_int; 4] = [1, 2, 3, 15];
const DEFAULT: usize = 0;
const IGNORED: usize = 1;
const STANDARD_OUTPUT: c_int = 1;
const GET_FLAGS: c_int = 1;
const NOT_OPEN: i32 = 9;
const STANDARD_ERROR: c_int = 2;

/// Ends the program with a sentence. Nothing is allocated any more.
pub fn end(sentence: &[u8], status: c_int) -> ! {
    remove_all();
    // Safety: the bytes are there, with their length.
    unsafe {
        write(STANDARD_ERROR, sentence.as_ptr().cast(), sentence.len());
        _exit(status)
    }
}

/// The most files that are removed.
const MOST_FILES: usize = 8;
/// The paths of the files that are removed when the program ends early.
static PATHS: [AtomicPtr<c_char>; MOST_FILES] = [const { AtomicPtr::new(ptr::null_mut()) }; MOST_FILES];

/// Whether a file is being made and PATHS does not have its path yet. A signal waits until it has.
static IS_MAKING: AtomicBool = AtomicBool::new(false);
/// The signals that came, each as the bit of its number.
static CAME: AtomicU32 = AtomicU32::new(0);

/// A file that a signal removes, until this goes out of use.
pub struct Removed {
    place: usize,
}

/// Creates a file that must not exist yet, with this mode less the mask of the process. A signal that ends the program removes the
/// file first, however early it comes, unless PATHS is full.
pub fn new_file(path: &Path, mode: u32) -> io::Result<(File, Option<Removed>)> {
    let name = CString::new(path.as_os_str().as_bytes())?;
    IS_MAKING.store(true, SeqCst);
    SENT.into_iter().for_each(catch);
    let file = OpenOptions::new().write(true).create_new(true).mode(mode).open(path);
    let made = file.map(|file| (file, Removed::noted(name)));
    IS_MAKING.store(false, SeqCst);
    let came = CAME.load(SeqCst);
    if came != 0 {
        end_by(came.trailing_zeros() as c_int);
    }
    made
}

impl Removed {
    /// Notes the path, if PATHS has room.
    fn noted(name: CString) -> Option<Removed> {
        let path = name.into_raw();
        let taken = |at: &AtomicPtr<c_char>| at.compare_exchange(ptr::null_mut(), path, SeqCst, SeqCst).is_ok();
        let place = PATHS.iter().position(taken);
        if place.is_none() {
            // Safety: it was made by into_raw above, and nothing else has it.
            drop(unsafe { CString::from_raw(path) });
        }
        place.map(|place| Removed { place })
    }
}

impl Drop for Removed {
    fn drop(&mut self) {
        let path = PATHS[self.place].swap(ptr::null_mut(), SeqCst);
        if !path.is_null() {
            // Safety: it was made by into_raw, and no signal finds it any more. A signal that has it ends the program.
            drop(unsafe { CString::from_raw(path) });
        }
    }
}

/// Has a signal remove the files, unless it is ignored, as under nohup.
fn catch(number: c_int) {
    let action = on_signal as extern "C" fn(c_int);
    // Safety: the action calls nothing but unlink, signal and raise, which a signal may call.
    unsafe {
        if signal(number, action as usize) == IGNORED {
            signal(number, IGNORED);
            // One that came in between is ignored too.
            CAME.fetch_and(!(1 << number), SeqCst);
        }
    }
}

extern "C" fn on_signal(number: c_int) {
    CAME.fetch_or(1 << number, SeqCst);
    if !IS_MAKING.load(SeqCst) {
        end_by(number);
    }
}

/// Removes the files. The signal then ends the program as it does by default: at once, or when its handler returns.
fn end_by(number: c_int) {
    remove_all();
    // Safety: a signal may call both.
    unsafe {
        signal(number, DEFAULT);
        raise(number);
    }
}

fn remove_all() {
    for path in &PATHS {
        let path = path.load(SeqCst);
        if !path.is_null() {
            // Safety: it is a path that ends with a zero, and stays while it stands there.
            unsafe { unlink(path) };
        }
    }
}

/// Whether standard output was closed before the program began.
static WAS_CLOSED: AtomicBool = AtomicBool::new(false);

/// The standard library puts a device that takes everything in the place of a closed standard output, before main begins.
/// So this looks before that.
#[used]
#[link_section = ".init_array"]
static BEFORE_MAIN: extern "C" fn() = look_at_standard_output;

extern "C" fn look_at_standard_output() {
    // Safety: it only asks.
    let flags = unsafe { fcntl(STANDARD_OUTPUT, GET_FLAGS) };
    WAS_CLOSED.store(flags < 0, SeqCst);
}

/// That what is printed goes somewhere.
pub fn standard_output_is_open() -> io::Result<()> {
    match WAS_CLOSED.load(SeqCst) {
        false => Ok(()),
        true => Err(io::Error::from_raw_os_error(NOT_OPEN)),
    }
}

/// Closes standard output. Some file systems tell only then that something was not written.
pub fn close_standard_output() -> io::Result<()> {
    // Safety: nothing is written to it any more.
    match unsafe { close(STANDARD_OUTPUT) } {
        0 => Ok(()),
        _ => Err(io::Error::last_os_error()),
    }
}

pub fn standard_input() -> io::Result<File> {
    opened(&io::stdin())
}

pub fn standard_output() -> io::Result<File> {
    opened(&io::stdout())
}

fn opened(stream: &impl AsFd) -> io::Result<File> {
    stream.as_fd().try_clone_to_owned().map(File::from)
}

/// The identity of a plain file; a pipe, a terminal or a device has none.
pub fn identity_of(file: &File) -> io::Result<Option<Identity>> {
    let data = file.metadata()?;
    Ok(data.is_file().then(|| Identity(data.dev(), data.ino())))
}

/// What is before the first `=` of a word, and what is behind it where there is one.
pub fn parted(word: &OsStr) -> (&OsStr, Option<&OsStr>) {
    let bytes = word.as_bytes();
    match bytes.iter().position(|&byte| byte == b'=') {
        None => (word, None),
        Some(place) => (OsStr::from_bytes(&bytes[..place]), Some(OsStr::from_bytes(&bytes[place + 1..]))),
    }
}
