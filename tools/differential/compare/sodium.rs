//! libsodium, where it is installed: s times a point by other people's code. It refuses the identity and scalar 0.

use std::ffi::{CString, c_char, c_int, c_void};

unsafe extern "C" {
    fn dlopen(name: *const c_char, flags: c_int) -> *mut c_void;
    fn dlsym(library: *mut c_void, name: *const c_char) -> *mut c_void;
}

type Multiply = unsafe extern "C" fn(*mut u8, *const u8, *const u8) -> c_int;

pub struct Sodium(Multiply);

impl Sodium {
    /// The library, if there is one with the call.
    pub fn find() -> Option<Sodium> {
        let name = |text: &str| CString::new(text).unwrap();
        for file in ["libsodium.so", "libsodium.so.26", "libsodium.so.23"] {
            let library = unsafe { dlopen(name(file).as_ptr(), 2) };
            if library.is_null() {
                continue;
            }
            let start = unsafe { dlsym(library, name("sodium_init").as_ptr()) };
            let call = unsafe { dlsym(library, name("crypto_scalarmult_ed25519_noclamp").as_ptr()) };
            if start.is_null() || call.is_null() {
                continue;
            }
            let start: unsafe extern "C" fn() -> c_int = unsafe { std::mem::transmute(start) };
            if unsafe { start() } >= 0 {
                return Some(Sodium(unsafe { std::mem::transmute::<*mut c_void, Multiply>(call) }));
            }
        }
        None
    }

    /// The scalar times an encoded point, encoded; none where it refuses.
    pub fn multiply(&self, scalar: &[u8; 32], point: &[u8; 32]) -> Option<[u8; 32]> {
        let mut out = [0; 32];
        let status = unsafe { (self.0)(out.as_mut_ptr(), scalar.as_ptr(), point.as_ptr()) };
        (status == 0).then_some(out)
    }
}
