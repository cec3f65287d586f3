//! Memory between two pages that may not be touched, and a thread or a call on a stack of known content.
//! For Linux on x86-64.

use std::arch::asm;
use std::ffi::c_void;

extern "C" {
    fn mmap(address: *mut c_void, len: usize, protection: i32, flags: i32, file: i32, offset: i64) -> *mut c_void;
    fn munmap(address: *mut c_void, len: usize) -> i32;
    fn mprotect(address: *mut c_void, len: usize, protection: i32) -> i32;
    fn pthread_attr_init(attributes: *mut Attributes) -> i32;
    fn pthread_attr_setstack(attributes: *mut Attributes, low: *mut c_void, len: usize) -> i32;
    fn pthread_attr_destroy(attributes: *mut Attributes) -> i32;
    fn pthread_create(
        thread: *mut usize,
        attributes: *const Attributes,
        start: extern "C" fn(*mut c_void) -> *mut c_void,
        argument: *mut c_void,
    ) -> i32;
    fn pthread_join(thread: usize, result: *mut *mut c_void) -> i32;
}

const PAGE: usize = 4_096;
const NONE: i32 = 0;
const READ: i32 = 1;
const READ_WRITE: i32 = 3;
const PRIVATE_ANONYMOUS: i32 = 0x22;

/// Pages for reading and writing, with a guard page before and one after them.
pub struct Guarded {
    base: *mut u8,
    pages: usize,
}

impl Guarded {
    /// Room for at least `len` bytes.
    pub fn new(len: usize) -> Guarded {
        let pages = len.div_ceil(PAGE).max(1);
        unsafe {
            let base = mmap(std::ptr::null_mut(), (pages + 2) * PAGE, NONE, PRIVATE_ANONYMOUS, -1, 0);
            assert!(base as isize != -1, "mmap failed");
            let guarded = Guarded { base: base.cast(), pages };
            guarded.protect(READ_WRITE);
            guarded
        }
    }

    fn protect(&self, protection: i32) {
        let done = unsafe { mprotect(self.base.add(PAGE).cast(), self.pages * PAGE, protection) };
        assert!(done == 0, "mprotect failed");
    }

    /// Lets the bytes be read only, or written again: a write to them ends the process.
    pub fn read_only(&mut self, on: bool) {
        self.protect(if on { READ } else { READ_WRITE });
    }

    /// All bytes between the guard pages.
    pub fn all(&mut self) -> &mut [u8] {
        unsafe { std::slice::from_raw_parts_mut(self.base.add(PAGE), self.pages * PAGE) }
    }
}

impl Drop for Guarded {
    fn drop(&mut self) {
        unsafe { munmap(self.base.cast(), (self.pages + 2) * PAGE) };
    }
}

/// Holds what the C library keeps in `pthread_attr_t` (56 bytes).
#[repr(C, align(16))]
struct Attributes([u8; 64]);

struct Task<'a> {
    run: &'a mut (dyn FnMut() + Send),
    /// The address of a local of the thread's first function.
    first: usize,
}

extern "C" fn start(task: *mut c_void) -> *mut c_void {
    let task = unsafe { &mut *task.cast::<Task>() };
    let local = 0u8;
    task.first = std::ptr::addr_of!(local) as usize;
    (task.run)();
    std::ptr::null_mut()
}

/// Runs `run` in a thread whose whole stack has `len` bytes, guarded at both ends, and gives
/// the bytes of stack that it wrote to.
pub fn on_stack(len: usize, run: &mut (dyn FnMut() + Send)) -> usize {
    const FILL: u8 = 0xa5;
    let mut stack = Guarded::new(len);
    let bytes = stack.all();
    bytes.fill(FILL);
    let low = bytes.as_mut_ptr();
    let len = bytes.len();
    let mut task = Task { run, first: 0 };
    unsafe {
        let mut attributes = Attributes([0; 64]);
        let mut thread = 0;
        assert!(pthread_attr_init(&mut attributes) == 0, "pthread_attr_init failed");
        assert!(pthread_attr_setstack(&mut attributes, low.cast(), len) == 0, "pthread_attr_setstack failed");
        let made = pthread_create(&mut thread, &attributes, start, std::ptr::addr_of_mut!(task).cast());
        assert!(made == 0, "pthread_create failed");
        assert!(pthread_join(thread, std::ptr::null_mut()) == 0, "pthread_join failed");
        pthread_attr_destroy(&mut attributes);
    }
    let untouched = stack.all().iter().take_while(|byte| **byte == FILL).count();
    (task.first - low as usize).saturating_sub(untouched)
}

/// A function of the C interface on a lent file and `out`.
pub type Function = unsafe extern "C" fn(*const u8, usize, *mut u64) -> u32;

/// Calls `function` on a stack with nothing else on it, guarded at both ends: its return value, and the bytes of stack
/// from its return address to the last that it wrote to.
///
/// # Safety
///
/// The function may be called with these arguments, and answers each call alike.
pub unsafe fn call_on_stack(function: Function, file: &[u8], out: &mut [u64; 4]) -> (u32, usize) {
    let mut stack = Guarded::new(16 * PAGE);
    let (mut code, mut used) = (0, 0);
    // A byte that is written to may hold what it held before, but not both times.
    for fill in [0xa5, 0x5a] {
        let bytes = stack.all();
        bytes.fill(fill);
        let top = bytes.as_mut_ptr_range().end;
        asm!(
            "mov r12, rsp",
            "mov rsp, r13",
            "call r14",
            "mov rsp, r12",
            out("r12") _,
            in("r13") top,
            in("r14") function,
            in("rdi") file.as_ptr(),
            in("rsi") file.len(),
            in("rdx") out.as_mut_ptr(),
            lateout("eax") code,
            clobber_abi("C"),
        );
        let bytes = stack.all();
        let untouched = bytes.iter().take_while(|byte| **byte == fill).count();
        used = used.max(bytes.len() - untouched);
    }
    (code, used)
}
