//! How deep a call's stack goes: the call runs on a painted stack, and the lowest byte that lost its paint tells.
use std::ffi::{c_int, c_void};
use std::mem::MaybeUninit;

const STACK_BYTES: usize = 1 << 20;
const ALIGNMENT: usize = 4_096;
const PAINT: u8 = 0xa5;

/// Room for glibc's and musl's `pthread_attr_t`, which have 56 bytes on 64-bit machines.
#[repr(C, align(16))]
struct Attributes([MaybeUninit<u8>; 128]);

extern "C" {
    fn pthread_attr_init(attributes: *mut Attributes) -> c_int;
    fn pthread_attr_setstack(attributes: *mut Attributes, low: *mut u8, len: usize) -> c_int;
    fn pthread_attr_destroy(attributes: *mut Attributes) -> c_int;
    fn pthread_create(
        thread: *mut usize,
        attributes: *const Attributes,
        run: extern "C" fn(*mut c_void) -> *mut c_void,
        argument: *mut c_void,
    ) -> c_int;
    fn pthread_join(thread: usize, result: *mut *mut c_void) -> c_int;
}

struct Job<'a> {
    call: &'a mut dyn FnMut(),
    /// An address of the frame from which the call is made.
    top: usize,
}

extern "C" fn run_job(job: *mut c_void) -> *mut c_void {
    // The job outlives the thread, which is joined before `depth` returns.
    let job = unsafe { &mut *job.cast::<Job>() };
    let here = 0u8;
    job.top = std::hint::black_box(&here) as *const u8 as usize;
    (job.call)();
    std::ptr::null_mut()
}

/// Bytes of stack that the call wrote, counted from its caller's frame down.
pub fn depth(mut call: impl FnMut()) -> usize {
    let mut memory = vec![PAINT; STACK_BYTES + ALIGNMENT];
    let offset = memory.as_ptr().align_offset(ALIGNMENT);
    let stack = &mut memory[offset..offset + STACK_BYTES];
    let mut job = Job { call: &mut call, top: 0 };
    let mut attributes = Attributes([MaybeUninit::uninit(); 128]);
    let mut thread = 0;
    unsafe {
        assert_eq!(pthread_attr_init(&mut attributes), 0);
        assert_eq!(pthread_attr_setstack(&mut attributes, stack.as_mut_ptr(), STACK_BYTES), 0);
        let job: *mut Job = &mut job;
        assert_eq!(pthread_create(&mut thread, &attributes, run_job, job.cast()), 0);
        assert_eq!(pthread_join(thread, std::ptr::null_mut()), 0);
        pthread_attr_destroy(&mut attributes);
    }
    let lowest = stack.iter().position(|&byte| byte != PAINT).expect("a stack that was used");
    job.top - (stack.as_ptr() as usize + lowest)
}
