//! How far down a call writes its stack.

use std::arch::asm;
use std::ffi::c_void;

/// The painted stack, in bytes.
pub const SIZE: usize = 8 << 20;

const PAINT: u64 = 0x5afe_57ac_c0de_f10d;

/// Runs the call on a painted stack and answers how many bytes from its top to the lowest that was written.
pub fn peak(mut call: &mut dyn FnMut()) -> usize {
    let mut region = vec![PAINT; SIZE / 8];
    let top = region.as_mut_ptr_range().end as usize & !15;
    // SAFETY: the region is longer than any call's need (the caller tests it), and outlives the call.
    unsafe { call_on(top, trampoline, (&raw mut call).cast()) };
    let untouched = region.iter().take_while(|&&word| word == PAINT).count();
    SIZE - 8 * untouched
}

extern "C" fn trampoline(call: *mut c_void) {
    // SAFETY: `peak` hands its own reference on.
    let call = unsafe { &mut *call.cast::<&mut dyn FnMut()>() };
    call();
}

/// Calls a function on another stack, which ends at `top`.
unsafe fn call_on(top: usize, function: extern "C" fn(*mut c_void), argument: *mut c_void) {
    asm!(
        "mov r12, rsp",
        "mov rsp, {top}",
        "call {function}",
        "mov rsp, r12",
        top = in(reg) top,
        function = in(reg) function,
        in("rdi") argument,
        out("r12") _,
        clobber_abi("C"),
    );
}
