//! How much stack a call takes.

use std::arch::asm;

/// Far more than any call takes.
const ROOM: usize = 1 << 20;

const PAINT: u64 = 0xA5C3_5A3C_96E1_691E;

/// The bytes of stack that a call takes, with the few of what starts it: it runs on painted memory,
/// and what lost its paint was used.
pub fn peak(mut call: &mut dyn FnMut()) -> usize {
    let mut stack = vec![PAINT; ROOM / size_of::<u64>()];
    let words = stack.as_mut_ptr_range();
    // The calling convention wants the top at a multiple of 16.
    let top = words.end as usize & !15;
    // All of `stack` is below it.
    unsafe { call_on(top, &mut call) };
    let unused = stack.iter().take_while(|&&word| word == PAINT).count();
    assert!(unused > 0, "a call takes more than {ROOM} bytes of stack");
    top - words.start as usize - unused * size_of::<u64>()
}

unsafe extern "C" fn start(call: *mut &mut dyn FnMut()) {
    (*call)();
}

/// The call with its stack growing down from `top`.
///
/// # Safety
/// Below `top` there is memory of its own that suffices for the call.
unsafe fn call_on(top: usize, call: *mut &mut dyn FnMut()) {
    asm!(
        // what is in r12 outlives a call
        "mov r12, rsp",
        "mov rsp, {top}",
        "call {start}",
        "mov rsp, r12",
        top = in(reg) top,
        start = sym start,
        out("r12") _,
        in("rdi") call,
        clobber_abi("C"),
    );
}
