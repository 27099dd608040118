//! Shared libraries, and their functions by name.

use std::ffi::{CStr, CString, c_char, c_int, c_void};

unsafe extern "C" {
    fn dlopen(path: *const c_char, flags: c_int) -> *mut c_void;
    fn dlsym(library: *mut c_void, name: *const c_char) -> *mut c_void;
    fn dlerror() -> *const c_char;
}

/// A shared library, which stays open.
pub struct Library(*mut c_void);

impl Library {
    pub fn open(path: &str) -> Result<Self, String> {
        const RTLD_NOW: c_int = 2;
        let name = CString::new(path).map_err(|e| e.to_string())?;
        // SAFETY: the path ends with a zero byte.
        found(unsafe { dlopen(name.as_ptr(), RTLD_NOW) }).map(Library)
    }

    pub fn function(&self, name: &CStr) -> Result<*mut c_void, String> {
        // SAFETY: the library is open, and the name ends with a zero byte.
        found(unsafe { dlsym(self.0, name.as_ptr()) })
    }
}

/// What was found, or why not.
fn found(address: *mut c_void) -> Result<*mut c_void, String> {
    if !address.is_null() {
        return Ok(address);
    }
    // SAFETY: behind a call that found nothing, the text of the reason.
    let reason = unsafe { CStr::from_ptr(dlerror()) };
    Err(reason.to_string_lossy().into_owned())
}
