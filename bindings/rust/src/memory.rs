//! Without std: the memory of the C library is from Rust's global allocator. The build script compiles the C with these
//! three in place of malloc, realloc and free.
// SPDX-License-Identifier: MIT OR Apache-2.0
use alloc::alloc::{alloc, dealloc, realloc, Layout};
use core::ffi::c_void;
use core::ptr;

/// Stands before each block: C gives a block back without its size.
#[repr(C, align(16))]
struct Head {
    /// Of the head and the block.
    layout: Layout,
}

/// The layout of a block with its head. The head's alignment is enough for all types of C.
fn layout_of(size: usize) -> Option<Layout> {
    Layout::new::<Head>().extend(Layout::from_size_align(size, 1).ok()?).ok().map(|(layout, _)| layout)
}

/// Writes the head of new memory, and returns the block behind it; null if there is no memory.
///
/// # Safety
/// The memory is null, or of this layout.
unsafe fn block_of(memory: *mut u8, layout: Layout) -> *mut c_void {
    let head = memory.cast::<Head>();
    if head.is_null() {
        return ptr::null_mut();
    }
    // SAFETY: the memory begins with the head, for which it is aligned.
    unsafe {
        head.write(Head { layout });
        head.add(1).cast()
    }
}

// SAFETY, of what follows: C gives back blocks of these functions alone, each once. Their heads are as they were written.

#[no_mangle]
unsafe extern "C" fn timers_rust_allocate(size: usize) -> *mut c_void {
    layout_of(size).map_or(ptr::null_mut(), |layout| unsafe { block_of(alloc(layout), layout) })
}

#[no_mangle]
unsafe extern "C" fn timers_rust_resize(block: *mut c_void, size: usize) -> *mut c_void {
    let head = unsafe { block.cast::<Head>().sub(1) };
    let old = unsafe { head.read() }.layout;
    layout_of(size).map_or(ptr::null_mut(), |layout| unsafe { block_of(realloc(head.cast(), old, layout.size()), layout) })
}

#[no_mangle]
unsafe extern "C" fn timers_rust_release(block: *mut c_void) {
    let head = unsafe { block.cast::<Head>().sub(1) };
    unsafe { dealloc(head.cast(), head.read().layout) }
}
