//! The allocation functions that the library calls, over those of the C library.

#[cfg(target_os = "linux")]
use std::arch::global_asm;
use std::ffi::c_void;
use std::ptr;

/// The result of an allocation: whether there is room, and where.
#[repr(C)]
pub struct Allocated {
    is_there: bool,
    at: *mut c_void,
}

impl Allocated {
    /// Allocates `n` bytes with a function of the C library. That function gets a size that is not
    /// 0, and the library of the store gets a pointer that is not null.
    fn by(allocate: impl FnOnce(usize) -> *mut c_void, n: usize, align: usize) -> Allocated {
        #[cfg(test)]
        let allocate = crate::no_memory::failing(allocate);
        let at = allocate(if n == 0 { align } else { n });
        let is_there = !at.is_null();
        let at = if is_there { at } else { ptr::dangling_mut() };
        Allocated { is_there, at }
    }
}

// SAFETY: these are the functions of the C library, which std links.
unsafe extern "C" {
    fn malloc(n: usize) -> *mut c_void;
    fn realloc(at: *mut c_void, n: usize) -> *mut c_void;
    fn free(at: *mut c_void);
}

/// Allocates `n` bytes for the library, aligned to `align`, which divides 16. `n` may be 0.
// SAFETY: the name is reserved for the library's allocator, and the package's `links` key allows
// one such crate in a program.
#[unsafe(no_mangle)]
pub extern "C" fn nw_mem_alloc(n: usize, align: usize) -> Allocated {
    // SAFETY: malloc takes any size, and aligns to 16.
    let allocated = Allocated::by(|size| unsafe { malloc(size) }, n, align);
    #[cfg(test)]
    crate::no_memory::note(allocated.bytes());
    allocated
}

/// Resizes an allocation of `nw_mem_alloc` to `n` bytes. The library calls it with a pointer that
/// is not yet freed.
// SAFETY: as for `nw_mem_alloc`.
#[unsafe(no_mangle)]
pub unsafe extern "C" fn nw_mem_realloc(
    at: *mut c_void,
    _kept: usize,
    n: usize,
    align: usize,
) -> Allocated {
    #[cfg(test)]
    let before = Allocated { is_there: true, at }.bytes();
    // SAFETY: `at` is from malloc or realloc. If realloc fails, the allocation stays as it is.
    let allocated = Allocated::by(|size| unsafe { realloc(at, size) }, n, align);
    #[cfg(test)]
    if allocated.is_there {
        crate::no_memory::note(allocated.bytes() - before);
    }
    allocated
}

/// Frees an allocation of `nw_mem_alloc`. The library calls it once for each pointer.
// SAFETY: as for `nw_mem_alloc`.
#[unsafe(no_mangle)]
pub unsafe extern "C" fn nw_mem_dealloc(at: *mut c_void) {
    #[cfg(test)]
    crate::no_memory::note(-Allocated { is_there: true, at }.bytes());
    // SAFETY: `at` is from malloc or realloc, and is not used afterwards.
    unsafe { free(at) }
}

// A shared object exports each function that is marked `no_mangle`, also one of a crate that it
// links. This hides them: only the library calls them, and another object that is loaded may have
// functions of the same names.
#[cfg(target_os = "linux")]
global_asm!(
    ".hidden nw_mem_alloc",
    ".hidden nw_mem_realloc",
    ".hidden nw_mem_dealloc",
);

#[cfg(test)]
mod tests {
    use super::{Allocated, nw_mem_alloc, nw_mem_dealloc, nw_mem_realloc};
    use std::alloc::{GlobalAlloc, Layout, System};
    use std::cell::Cell;
    use std::ptr;

    thread_local! {
        /// The allocations of this thread with the global allocator.
        static GLOBAL: Cell<usize> = const { Cell::new(0) };
    }

    struct Counting;

    #[global_allocator]
    static COUNTING: Counting = Counting;

    // SAFETY: it passes each call to the system's allocator.
    unsafe impl GlobalAlloc for Counting {
        unsafe fn alloc(&self, layout: Layout) -> *mut u8 {
            GLOBAL.set(GLOBAL.get() + 1);
            // SAFETY: the caller meets the contract of `alloc`.
            unsafe { System.alloc(layout) }
        }

        unsafe fn dealloc(&self, at: *mut u8, layout: Layout) {
            // SAFETY: `at` is from `alloc` above.
            unsafe { System.dealloc(at, layout) }
        }
    }

    impl Allocated {
        /// The bytes that the C library gave.
        pub(in super::super) fn bytes(&self) -> isize {
            // SAFETY: this is a function of the C library: of glibc and musl, of macOS, or of Windows.
            unsafe extern "C" {
                #[cfg_attr(target_os = "macos", link_name = "malloc_size")]
                #[cfg_attr(windows, link_name = "_msize")]
                fn malloc_usable_size(at: *mut std::ffi::c_void) -> usize;
            }
            match self.is_there {
                // SAFETY: `at` is from malloc or realloc, and not yet freed.
                true => unsafe { malloc_usable_size(self.at) as isize },
                false => 0,
            }
        }
    }

    #[test]
    fn the_library_does_not_use_the_global_allocator() {
        let before = GLOBAL.get();
        let allocated = nw_mem_alloc(64, 8);
        assert_eq!(GLOBAL.get(), before);
        // SAFETY: it is freed once.
        unsafe { nw_mem_dealloc(allocated.at) };
        drop(std::hint::black_box(Box::new(0_u64)));
        assert_eq!(GLOBAL.get(), before + 1);
    }

    #[test]
    fn a_failed_allocation_is_not_there_and_not_null() {
        let failed = Allocated::by(|_| ptr::null_mut(), 8, 8);
        assert!(!failed.is_there && !failed.at.is_null());
    }

    /// The bytes of this process that are in memory. Systems other than Linux do not tell: 0.
    fn resident() -> usize {
        if cfg!(not(target_os = "linux")) {
            return 0;
        }
        let pages = std::fs::read_to_string("/proc/self/statm").unwrap();
        4_096 * pages.split(' ').nth(1).unwrap().parse::<usize>().unwrap()
    }

    /// 1,000 allocations of a megabyte are made, grown, written and freed, one after the other.
    #[test]
    fn freed_memory_goes_back() {
        let (size, before) = (1 << 20, resident());
        for _ in 0..1_000 {
            let made = nw_mem_alloc(size / 2, 8);
            // SAFETY: the allocation is resized, written and freed once.
            unsafe {
                let grown = nw_mem_realloc(made.at, size / 2, size, 8);
                grown.at.cast::<u8>().write_bytes(7, size);
                nw_mem_dealloc(grown.at);
            }
        }
        let grown = resident().saturating_sub(before);
        assert!(grown < 300 * size, "{grown} bytes are not freed");
    }

    #[test]
    fn a_grown_allocation_keeps_its_bytes() {
        for (size, grown) in [(1, 100), (100, 1_000_000), (5_000, 10)] {
            // SAFETY: no more is written and read than is allocated, and it is freed once.
            unsafe {
                let made = nw_mem_alloc(size, 8);
                made.at.cast::<u8>().write_bytes(7, size);
                let other = nw_mem_realloc(made.at, size.min(grown), grown, 8);
                let kept = std::slice::from_raw_parts(other.at.cast::<u8>(), size.min(grown));
                assert!(other.is_there && kept.iter().all(|byte| *byte == 7));
                nw_mem_dealloc(other.at);
            }
        }
    }

    #[test]
    fn an_allocation_of_no_bytes_has_a_place() {
        let mut place = 0_u64;
        for (n, asked) in [(0, 16), (5, 5)] {
            let allocate = |size| {
                assert_eq!(size, asked);
                ptr::from_mut(&mut place).cast()
            };
            assert!(Allocated::by(allocate, n, 16).is_there);
        }
    }
}
