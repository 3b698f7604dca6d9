//! Archives of the proved library, two of them in one process if need be: each is made a
//! shared object, and its functions are found there by name.

use std::ffi::{CStr, CString};
use std::os::raw::{c_char, c_int, c_void};
use std::path::Path;
use std::process::{self, Command};
use std::{fs, mem};

use crate::file::Outcome;

/// The C functions over a lent file and a lent output.
pub type OverLent = unsafe extern "C" fn(*const u8, usize, *mut u8, usize, *mut usize) -> u8;

/// No length of anything, so that a call that leaves it shows.
pub const UNWRITTEN: usize = usize::MAX;

/// Calls one of them. Slices and references meet what the header asks: no pointer is NULL, and
/// places that are written overlap no other.
#[allow(unsafe_code)]
pub fn over_lent(function: OverLent, file: &[u8], output: &mut [u8]) -> Outcome {
    let mut written = UNWRITTEN;
    let (out, room) = (output.as_mut_ptr(), output.len());
    let status = unsafe { function(file.as_ptr(), file.len(), out, room, &mut written) };
    Outcome { status, written }
}

extern "C" {
    fn dlopen(file: *const c_char, mode: c_int) -> *mut c_void;
    fn dlsym(object: *mut c_void, name: *const c_char) -> *mut c_void;
    fn dlerror() -> *const c_char;
}
/// All names of the object are looked up at once, as a linked program has them.
const RTLD_NOW: c_int = 2;

/// An archive as a shared object that is loaded, and stays so.
pub struct Loaded(*mut c_void);

impl Loaded {
    /// Loads `libNAME.a` of a folder.
    #[allow(unsafe_code)]
    pub fn new(folder: &Path, name: &str) -> Self {
        let archive = folder.join(format!("lib{name}.a"));
        assert!(archive.exists(), "{} is not there", archive.display());
        let made = folder.join(format!("{name}-{}.so", process::id()));
        let linked = Command::new("cc")
            .args(["-shared", "-Wl,-Bsymbolic", "-Wl,--whole-archive"])
            .arg(&archive)
            .args(["-Wl,--no-whole-archive", "-o"])
            .arg(&made)
            .status();
        let linked = linked.unwrap_or_else(|error| panic!("cc does not start: {error}"));
        assert!(linked.success(), "cc makes no shared object of {}", archive.display());
        let path = made.canonicalize().expect("the object just made").display().to_string();
        let path = CString::new(path).expect("a name without a zero");
        let object = unsafe { dlopen(path.as_ptr(), RTLD_NOW) };
        fs::remove_file(&made).expect("the object, loaded and no longer needed");
        if object.is_null() {
            let why = unsafe { CStr::from_ptr(dlerror()) };
            panic!("{} is not loaded: {}", archive.display(), why.to_string_lossy());
        }
        Self(object)
    }

    #[allow(unsafe_code)]
    fn find(&self, name: &str) -> *mut c_void {
        let name = CString::new(name).expect("a name without a zero");
        let found = unsafe { dlsym(self.0, name.as_ptr()) };
        assert!(!found.is_null(), "{name:?} is not in the archive");
        found
    }

    /// `irga_run`.
    #[allow(unsafe_code)]
    pub fn run(&self) -> impl Fn(&[u8], &mut [u8]) -> Outcome {
        let function: OverLent = unsafe { mem::transmute(self.find("irga_run")) };
        move |file, output| over_lent(function, file, output)
    }

    /// `near` of a trial's archive, and by 10^7.
    #[allow(unsafe_code)]
    pub fn near(&self) -> (impl Fn(i64, u64) -> i64, impl Fn(i64) -> i64) {
        type By = unsafe extern "C" fn(i64, u64) -> i64;
        type ByConstant = unsafe extern "C" fn(i64) -> i64;
        let by: By = unsafe { mem::transmute(self.find("near_by")) };
        let constant: ByConstant = unsafe { mem::transmute(self.find("near_by_constant")) };
        (move |a, b| unsafe { by(a, b) }, move |a| unsafe { constant(a) })
    }
}
