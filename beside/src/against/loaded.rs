//! A library in a shared object (`adapter/lib.rs`).

use std::ffi::{CStr, CString, c_char, c_int, c_void};
use support::library::Library;

unsafe extern "C" {
    fn dlopen(file: *const c_char, flags: c_int) -> *mut c_void;
    fn dlsym(object: *mut c_void, name: *const c_char) -> *mut c_void;
    fn dlerror() -> *const c_char;
}

/// All symbols are resolved when the object is loaded, and none is visible to another object.
const RTLD_NOW: c_int = 2;
const RTLD_LOCAL: c_int = 0;

type Exported = fn() -> &'static dyn Library;

/// The library of the shared object at that path, which is never unloaded.
pub fn library(path: &str) -> Result<&'static dyn Library, String> {
    let file = CString::new(path).map_err(|e| e.to_string())?;
    // SAFETY: both strings end with 0; the object has nothing that runs when it is loaded.
    let symbol = unsafe {
        let object = dlopen(file.as_ptr(), RTLD_NOW | RTLD_LOCAL);
        if object.is_null() {
            return Err(why());
        }
        dlsym(object, c"library".as_ptr())
    };
    if symbol.is_null() {
        return Err(why());
    }
    // SAFETY: `adapter/lib.rs` exports that function, compiled by the same compiler.
    let exported = unsafe { std::mem::transmute::<*mut c_void, Exported>(symbol) };
    Ok(exported())
}

/// What failed last.
fn why() -> String {
    // SAFETY: null, or a string that is valid until the next of these calls.
    unsafe {
        let text = dlerror();
        if text.is_null() {
            return "not loaded".to_string();
        }
        CStr::from_ptr(text).to_string_lossy().into_owned()
    }
}
