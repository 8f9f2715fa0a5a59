//! Libraries that are loaded while the program runs: the original's own `simd` build, which another compiler makes, and
//! ours from before.
use crate::asked::Asked;
use crate::library::Find;
use oracle::image::{Area, Image};
use oracle::params::Params;
use std::ffi::{c_char, c_int, c_void, CString};
use std::mem::transmute;

extern "C" {
    fn dlopen(file: *const c_char, flags: c_int) -> *mut c_void;
    fn dlsym(library: *mut c_void, name: *const c_char) -> *mut c_void;
}

/// Linux: everything is bound at once, and a library's own names come before those of this program, which has the
/// functions of ours too.
const NOW_AND_OWN_NAMES_FIRST: c_int = 2 | 8;

/// The function of a shared object.
fn symbol(file: &str, name: &str) -> *mut c_void {
    let [path, symbol] = [file, name].map(|text| CString::new(text).expect("no zero byte"));
    // SAFETY: both are strings that end in a zero byte. The library is never closed.
    let found = unsafe {
        let library = dlopen(path.as_ptr(), NOW_AND_OWN_NAMES_FIRST);
        assert!(!library.is_null(), "{file} cannot be loaded");
        dlsym(library, symbol.as_ptr())
    };
    assert!(!found.is_null(), "{file} has no {name}");
    found
}

type Response = unsafe extern "C" fn(&Asked, &[usize; 4], *mut f32, usize) -> usize;
type Frame = unsafe extern "C" fn(&Asked, bool, *mut f32, usize) -> usize;

/// One `simd` build.
#[derive(Clone, Copy)]
pub struct Simd {
    /// As a column of a table.
    pub name: &'static str,
    response: Response,
    frame: Frame,
}

impl Simd {
    pub fn load(name: &'static str, file: &str) -> Self {
        let (response, frame) = (symbol(file, "simd_response"), symbol(file, "simd_frame"));
        // SAFETY: these are their types in simd/src/lib.rs, from the same tree.
        unsafe {
            let response = transmute::<*mut c_void, Response>(response);
            Self { name, response, frame: transmute::<*mut c_void, Frame>(frame) }
        }
    }

    /// The response of a box, of which as many cells are written as there are places; how many it has.
    pub fn response(&self, image: Image, p: &Params, area: Area, out: &mut [f32]) -> usize {
        let corners = [area.x0, area.y0, area.x1, area.y1];
        // SAFETY: image and places are there while the call lasts.
        unsafe { (self.response)(&Asked::new(image, p), &corners, out.as_mut_ptr(), out.len()) }
    }

    /// A frame, by its functions in turn or by its own orchestrator; how many corners it has.
    pub fn frame(&self, image: Image, p: &Params, orchestrated: bool, out: &mut [f32]) -> usize {
        // SAFETY: image and places are there while the call lasts.
        unsafe { (self.frame)(&Asked::new(image, p), orchestrated, out.as_mut_ptr(), out.len()) }
    }
}

/// The whole-frame function of a library of ours from before.
pub fn before(file: &str) -> Find {
    // SAFETY: this is its type in the header, which does not change.
    unsafe { transmute::<*mut c_void, Find>(symbol(file, "zakdomp_find_corners")) }
}
