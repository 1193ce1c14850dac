//! The heap of the library: the C library's.
use std::ffi::c_void;

extern "C" {
    fn malloc(size: usize) -> *mut c_void;
    fn realloc(at: *mut c_void, size: usize) -> *mut c_void;
    fn free(at: *mut c_void);
}

#[repr(C)]
pub struct Block {
    is_there: bool,
    at: *mut c_void,
}

// A block that isn't there points to a byte that nobody reads.
fn block_at(at: *mut c_void) -> Block {
    static NOTHING: u8 = 0;
    let is_there = !at.is_null();
    let nothing = std::ptr::addr_of!(NOTHING) as *mut c_void;
    Block { is_there, at: if is_there { at } else { nothing } }
}

#[no_mangle]
extern "C" fn rattle_alloc(size: usize, align: usize) -> Block {
    block_at(unsafe { malloc(if size == 0 { align } else { size }) })
}

#[no_mangle]
unsafe extern "C" fn rattle_realloc(at: *mut c_void, _kept: usize, size: usize, align: usize) -> Block {
    block_at(realloc(at, if size == 0 { align } else { size }))
}

#[no_mangle]
unsafe extern "C" fn rattle_dealloc(at: *mut c_void) {
    free(at)
}
