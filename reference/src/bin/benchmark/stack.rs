//! How much stack a call takes: it runs on a thread whose stack is ours and filled with a pattern,
//! and the lowest byte that changed tells how deep it went.

use std::alloc::{alloc, dealloc, Layout};
use std::os::raw::{c_int, c_void};

const STACK: usize = 16 << 20;
const PATTERN: u8 = 0xA5;

/// At least as large as any system's `pthread_attr_t`.
#[repr(C, align(16))]
struct Attributes([u64; 32]);

extern "C" {
    fn pthread_attr_init(attributes: *mut Attributes) -> c_int;
    fn pthread_attr_setstack(attributes: *mut Attributes, low: *mut c_void, len: usize) -> c_int;
    fn pthread_attr_destroy(attributes: *mut Attributes) -> c_int;
    fn pthread_create(
        thread: *mut usize,
        attributes: *const Attributes,
        entry: extern "C" fn(*mut c_void) -> *mut c_void,
        argument: *mut c_void,
    ) -> c_int;
    fn pthread_join(thread: usize, result: *mut *mut c_void) -> c_int;
}

struct Errand<'a> {
    call: &'a mut dyn FnMut(),
    low: *const u8,
    depth: usize,
}

/// The bytes of stack between the frame that makes the call and the deepest byte the call wrote.
pub fn depth_of(mut call: impl FnMut()) -> usize {
    let layout = Layout::from_size_align(STACK, 1 << 16).expect("a valid layout");
    let mut errand = Errand { call: &mut call, low: std::ptr::null(), depth: 0 };
    // SAFETY: the thread has the whole allocation for its stack and is joined before either the
    // allocation or the errand goes; the attributes are large enough for any system.
    unsafe {
        let low = alloc(layout);
        assert!(!low.is_null(), "no memory for a stack");
        low.write_bytes(PATTERN, STACK);
        errand.low = low;
        let mut attributes = Attributes([0; 32]);
        let mut thread = 0;
        let argument: *mut Errand = &mut errand;
        assert_eq!(pthread_attr_init(&mut attributes), 0);
        assert_eq!(pthread_attr_setstack(&mut attributes, low.cast(), STACK), 0);
        assert_eq!(pthread_create(&mut thread, &attributes, run_errand, argument.cast()), 0);
        assert_eq!(pthread_join(thread, std::ptr::null_mut()), 0);
        pthread_attr_destroy(&mut attributes);
        dealloc(low, layout);
    }
    errand.depth
}

extern "C" fn run_errand(argument: *mut c_void) -> *mut c_void {
    // SAFETY: `depth_of` handed over its errand and waits for this thread.
    let errand = unsafe { &mut *argument.cast::<Errand>() };
    let here = 0u8;
    (errand.call)();
    let mut untouched = 0;
    // SAFETY: the byte is of the allocation this thread has for its stack.
    while untouched < STACK && unsafe { errand.low.add(untouched).read_volatile() } == PATTERN {
        untouched += 1;
    }
    let frame = std::ptr::addr_of!(here) as usize;
    errand.depth = frame.saturating_sub(errand.low as usize + untouched);
    std::ptr::null_mut()
}
