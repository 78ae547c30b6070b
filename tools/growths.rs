//! Lets one growth of a program's memory fail: the call of `malloc`, `calloc`, `realloc` or `reallocarray` whose number, from 1, the
//! variable GROWTH says. At its end the program writes how many there were to the file that GROWTHS names. `starve.sh` builds this
//! as a library that the system loads before the others.

use std::ffi::{CStr, c_char, c_int, c_void};
use std::ptr::null_mut;
use std::sync::atomic::{AtomicUsize, Ordering};

unsafe extern "C" {
    fn __libc_malloc(size: usize) -> *mut c_void;
    fn __libc_calloc(count: usize, size: usize) -> *mut c_void;
    fn __libc_realloc(memory: *mut c_void, size: usize) -> *mut c_void;
    fn getenv(name: *const c_char) -> *const c_char;
    fn atoll(text: *const c_char) -> i64;
    fn creat(path: *const c_char, mode: c_int) -> c_int;
    fn dprintf(file: c_int, form: *const c_char, ...) -> c_int;
}

static COUNT: AtomicUsize = AtomicUsize::new(0);

fn variable(name: &CStr) -> Option<*const c_char> {
    let text = unsafe { getenv(name.as_ptr()) };
    (!text.is_null()).then_some(text)
}

/// Whether this growth is the one that fails.
fn fails() -> bool {
    let number = COUNT.fetch_add(1, Ordering::Relaxed) + 1;
    variable(c"GROWTH").is_some_and(|text| unsafe { atoll(text) } == number as i64)
}

#[unsafe(no_mangle)]
pub extern "C" fn malloc(size: usize) -> *mut c_void {
    if fails() { null_mut() } else { unsafe { __libc_malloc(size) } }
}

#[unsafe(no_mangle)]
pub extern "C" fn calloc(count: usize, size: usize) -> *mut c_void {
    if fails() { null_mut() } else { unsafe { __libc_calloc(count, size) } }
}

#[unsafe(no_mangle)]
pub extern "C" fn realloc(memory: *mut c_void, size: usize) -> *mut c_void {
    if fails() { null_mut() } else { unsafe { __libc_realloc(memory, size) } }
}

#[unsafe(no_mangle)]
pub extern "C" fn reallocarray(memory: *mut c_void, count: usize, size: usize) -> *mut c_void {
    match count.checked_mul(size) {
        Some(bytes) if !fails() => unsafe { __libc_realloc(memory, bytes) },
        _ => null_mut(),
    }
}

extern "C" fn tell() {
    if let Some(path) = variable(c"GROWTHS") {
        unsafe { dprintf(creat(path, 0o644), c"%zu\n".as_ptr(), COUNT.load(Ordering::Relaxed)) };
    }
}

#[used]
#[unsafe(link_section = ".fini_array")]
static AT_THE_END: extern "C" fn() = tell;
