//! How deep a call goes: it runs in a thread on a stack that is painted before, and what it wrote to is counted.
use std::alloc::{alloc, dealloc, Layout};
use std::ffi::c_void;
use std::hint::black_box;
use std::ptr::null_mut;

const ROOM: usize = 1 << 20;
const PAINT: u8 = 0xA5;

/// The C library's `pthread_attr_t`, 56 bytes on x86-64 and 64 on Arm.
#[repr(C, align(16))]
struct Attributes([u8; 64]);

extern "C" {
    fn pthread_attr_init(attributes: *mut Attributes) -> i32;
    fn pthread_attr_setstack(attributes: *mut Attributes, start: *mut u8, size: usize) -> i32;
    fn pthread_create(
        thread: *mut usize,
        attributes: *const Attributes,
        start: extern "C" fn(*mut c_void) -> *mut c_void,
        given: *mut c_void,
    ) -> i32;
    fn pthread_join(thread: usize, answer: *mut *mut c_void) -> i32;
}

extern "C" fn start(given: *mut c_void) -> *mut c_void {
    let call = unsafe { *(given as *const &dyn Fn()) };
    call();
    null_mut()
}

fn written(call: &dyn Fn()) -> usize {
    let layout = Layout::from_size_align(ROOM, 4096).unwrap();
    let (mut attributes, mut thread) = (Attributes([0; 64]), 0);
    unsafe {
        let stack = alloc(layout);
        stack.write_bytes(PAINT, ROOM);
        let given = &call as *const &dyn Fn() as *mut c_void;
        assert_eq!(pthread_attr_init(&mut attributes), 0);
        assert_eq!(pthread_attr_setstack(&mut attributes, stack, ROOM), 0);
        assert_eq!(pthread_create(&mut thread, &attributes, start, given), 0);
        assert_eq!(pthread_join(thread, null_mut()), 0);
        let clean = (0..ROOM).take_while(|&at| stack.add(at).read_volatile() == PAINT).count();
        dealloc(stack, layout);
        ROOM - clean
    }
}

/// The bytes of stack that a call takes beyond those of a thread that does nothing. It runs once before, so that what a first
/// call alone does is not counted.
pub fn depth<A>(call: impl Fn() -> A) -> usize {
    black_box(call());
    written(&|| drop(black_box(call()))) - written(&|| ())
}
