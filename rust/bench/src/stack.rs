//! The stack that a digest of the library takes.

/// How far below the present end of the stack is looked.
const DEPTH: usize = 64 * 1024;

/// Bytes next to the present end that this module's own calls use.
const NEAR: usize = 256;

const PAINT: u8 = 0xc5;

/// The bytes of stack that a digest takes, by what it leaves of a painted stack.
#[cfg(any(target_arch = "x86_64", target_arch = "aarch64"))]
pub fn of_digest(bits: u64, message: &[u8]) -> Option<usize> {
    let mut out = [0; 64];
    // A thread's first page faults and the linker's work at a first call are no
    // part of a digest.
    bahmorist::digest(bits, &[0; 16], message, &mut out).expect("an admitted digest");
    let end = stack_end();
    // SAFETY: the bytes below the end of the stack belong to this thread, and
    // nothing lives there until the next call; the thread has far more than DEPTH
    // bytes of stack, and the system gives it pages as they are touched.
    let painted = |place: usize| (end - place) as *mut u8;
    for place in NEAR..DEPTH {
        unsafe { painted(place).write_volatile(PAINT) };
    }
    bahmorist::digest(bits, &[0; 16], message, &mut out).expect("an admitted digest");
    (NEAR..DEPTH)
        .rev()
        .find(|&place| unsafe { painted(place).read_volatile() } != PAINT)
}

#[cfg(not(any(target_arch = "x86_64", target_arch = "aarch64")))]
pub fn of_digest(_bits: u64, _message: &[u8]) -> Option<usize> {
    None
}

#[cfg(target_arch = "x86_64")]
#[inline(always)]
fn stack_end() -> usize {
    let end;
    // SAFETY: reads a register.
    unsafe { std::arch::asm!("mov {}, rsp", out(reg) end, options(nomem, nostack)) };
    end
}

#[cfg(target_arch = "aarch64")]
#[inline(always)]
fn stack_end() -> usize {
    let end;
    // SAFETY: reads a register.
    unsafe { std::arch::asm!("mov {}, sp", out(reg) end, options(nomem, nostack)) };
    end
}
