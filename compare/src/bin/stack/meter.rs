//! The meter. It paints the stack below its own frame, calls a function itself, in assembly and with no
//! other function between, and then looks for the lowest word that has changed. It tells how far that is
//! below the stack pointer just before the call: so it counts the return address and everything that the
//! function and what it calls put there, the C library's `memcpy` and `memset` too, and nothing of the
//! caller. Arguments that are not in registers stand above, with the caller. Where the lowest frame of
//! all has space at its end that is never written, that is not seen.

#![allow(unsafe_code)]

use std::arch::asm;
use std::ptr::null_mut;

// No call may take more than this.
const MOST: usize = 32_768;

// So much is painted: two pages more. A call that goes past them all is noticed, since who takes more
// than a page at once, the library and Rust, touches every page of it.
const PAINTED: usize = MOST + 8_192;

// What it is painted with: neither an address nor a number that a call has any use for.
const PAINT: u64 = 0x9b5d_e3c7_a16f_4d2b;

/// A function of C's calling convention, whatever it takes.
pub type Function = unsafe extern "C" fn();

// Arguments as the calling convention has them: six in registers, the others on the stack.
type Arguments = [usize; 9];

extern "C" {
    // The C library's. A set of signals has 128 bytes.
    fn pthread_sigmask(how: i32, set: *const [u64; 16], before: *mut [u64; 16]) -> i32;
}

// Calls a function with the arguments that it takes, and tells how many bytes of the stack it took.
unsafe fn depth(function: Function, arguments: &Arguments) -> usize {
    let depth: usize;
    // SAFETY: the block does not say `nostack`, so that nothing below the stack pointer is in use, and
    // the stack pointer is aligned for a call. It paints from above: a stack that is too short for it
    // ends at its guard page. The stack pointer is put back, and all that a call may change is named.
    asm!(
        // The arguments on the stack.
        "sub rsp, 32",
        "mov rax, [r13 + 48]",
        "mov [rsp], rax",
        "mov rax, [r13 + 56]",
        "mov [rsp + 8], rax",
        "mov rax, [r13 + 64]",
        "mov [rsp + 16], rax",
        // The paint.
        "mov eax, {painted} / 8",
        "2:",
        "push r14",
        "dec eax",
        "jnz 2b",
        "add rsp, {painted}",
        // The arguments in registers, and the call.
        "mov rdi, [r13]",
        "mov rsi, [r13 + 8]",
        "mov rdx, [r13 + 16]",
        "mov rcx, [r13 + 24]",
        "mov r8, [r13 + 32]",
        "mov r9, [r13 + 40]",
        "call r12",
        // The lowest word that has changed: at the latest the return address.
        "lea rdi, [rsp - {painted}]",
        "3:",
        "cmp [rdi], r14",
        "jne 4f",
        "add rdi, 8",
        "jmp 3b",
        "4:",
        "mov rax, rsp",
        "sub rax, rdi",
        "add rsp, 32",
        painted = const PAINTED,
        in("r12") function,
        in("r13") arguments.as_ptr(),
        in("r14") PAINT,
        out("rax") depth,
        clobber_abi("C"),
    );
    depth
}

/// Calls a function, and tells how many bytes of the stack it took. Meanwhile no signal is taken, since
/// a handler would run on the painted stack.
///
/// # Safety
///
/// The function takes these arguments, all of them numbers or pointers, and does not unwind.
pub unsafe fn metered<const COUNT: usize>(function: Function, arguments: [usize; COUNT]) -> usize {
    const SIG_SETMASK: i32 = 2;
    let mut all = [0; 9];
    all[..COUNT].copy_from_slice(&arguments);
    let (every, mut before) = ([u64::MAX; 16], [0; 16]);
    // SAFETY: the sets have their size and live for the whole call; the rest is asked of the caller.
    assert_eq!(pthread_sigmask(SIG_SETMASK, &every, &mut before), 0);
    let depth = depth(function, &all);
    assert_eq!(pthread_sigmask(SIG_SETMASK, &before, null_mut()), 0);
    assert!(depth <= MOST, "{depth} bytes: more has to be painted");
    depth
}

/// What a function that does nothing took.
pub fn nothing() -> usize {
    extern "C" fn nothing() {}
    // SAFETY: it takes no arguments.
    unsafe { metered(nothing, []) }
}

#[cfg(test)]
mod tests {
    use std::hint::black_box;

    use super::{metered, nothing};

    // What a frame has besides its buffer, at most, in a build without optimization too.
    const BESIDES: usize = 300;

    extern "C" fn buffer<const BYTES: usize>() {
        black_box(&mut [1u8; BYTES]);
    }

    // What a function with so large a buffer took.
    fn with_buffer<const BYTES: usize>() -> usize {
        // SAFETY: it takes no arguments.
        unsafe { metered(buffer::<BYTES>, []) }
    }

    // A buffer of a thousand bytes in each of so many frames.
    fn frames(count: usize) {
        let mut buffer = [1u8; 1_000];
        if count > 1 {
            frames(count - 1);
        }
        black_box(&mut buffer);
    }

    #[test]
    fn a_function_takes_its_return_address() {
        assert_eq!(nothing(), 8);
    }

    #[test]
    fn a_buffer_is_measured() {
        assert!((100..100 + BESIDES).contains(&with_buffer::<100>()));
        assert!((5_000..5_000 + BESIDES).contains(&with_buffer::<5_000>()));
        assert!((30_000..30_000 + BESIDES).contains(&with_buffer::<30_000>()));
    }

    #[test]
    fn frames_add_up() {
        extern "C" fn ten_frames() {
            frames(10);
        }
        // SAFETY: it takes no arguments.
        let depth = unsafe { metered(ten_frames, []) };
        assert!((10_000..10_000 + 11 * BESIDES).contains(&depth), "{depth}");
    }

    #[test]
    #[should_panic(expected = "more has to be painted")]
    fn a_call_into_the_last_pages_is_noticed() {
        with_buffer::<36_000>();
    }

    #[test]
    #[should_panic(expected = "more has to be painted")]
    fn a_call_past_the_paint_is_noticed() {
        with_buffer::<200_000>();
    }
}
