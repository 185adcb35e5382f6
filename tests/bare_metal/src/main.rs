//! Verifies a tag and digests "abc" with no library but `core` and the wrapper's archive:
//! no C library, no start files, and `memcpy` and `memset` of its own, as on bare metal.
//! It ends with status 0 where both come out right. The way in and the way out are
//! Linux's, so that it can be run.

#![no_std]
#![no_main]

use bahmorist::{digest_array, hmac_array, hmac_verify, Mode, Refusal};
use core::arch::{asm, global_asm};
use core::panic::PanicInfo;

/// The published digest of the empty message begins so.
const PUBLISHED: [u8; 4] = [0x44, 0x96, 0xcd, 0x09];

#[cfg(target_arch = "x86_64")]
global_asm!(".globl _start", "_start:", "call {work}", work = sym work);
#[cfg(target_arch = "aarch64")]
global_asm!(".globl _start", "_start:", "bl {work}", work = sym work);

extern "C" fn work() -> ! {
    end(match tried() {
        Ok(true) => 0,
        _ => 1,
    })
}

fn tried() -> Result<bool, Refusal> {
    let salt = [0; 16];
    let digest: [u8; 32] = digest_array(Mode::default(), &salt, b"")?;
    let mut tag: [u8; 32] = hmac_array(&salt, b"known to both nodes", b"join")?;
    hmac_verify(256, &salt, b"known to both nodes", b"join", &tag)?;
    tag[31] ^= 1;
    let forged = hmac_verify(256, &salt, b"known to both nodes", b"join", &tag);
    Ok(digest[..4] == PUBLISHED && forged == Err(Refusal::Tag))
}

fn end(status: u64) -> ! {
    // SAFETY: the system ends the program here, whatever the registers hold.
    unsafe {
        #[cfg(target_arch = "x86_64")]
        asm!("syscall", in("rax") 60, in("rdi") status, options(noreturn));
        #[cfg(target_arch = "aarch64")]
        asm!("svc 0", in("x8") 93, in("x0") status, options(noreturn));
    }
}

#[panic_handler]
fn panicked(_: &PanicInfo) -> ! {
    end(2)
}

/// A `core` that was made for a system names these two. Nothing unwinds here.
#[no_mangle]
extern "C" fn rust_eh_personality() {}

#[no_mangle]
extern "C" fn _Unwind_Resume() -> ! {
    end(3)
}

/// # Safety
///
/// As of C: both have so many bytes and don't overlap.
#[no_mangle]
unsafe extern "C" fn memcpy(to: *mut u8, from: *const u8, count: usize) -> *mut u8 {
    for place in 0..count {
        // Volatile, so that the loop does not become a call of the function it is in.
        to.add(place)
            .write_volatile(from.add(place).read_volatile());
    }
    to
}

/// # Safety
///
/// As of C: there are so many bytes.
#[no_mangle]
unsafe extern "C" fn memset(to: *mut u8, byte: i32, count: usize) -> *mut u8 {
    for place in 0..count {
        to.add(place).write_volatile(byte as u8);
    }
    to
}

/// # Safety
///
/// As of C: both have so many bytes.
#[no_mangle]
unsafe extern "C" fn memcmp(a: *const u8, b: *const u8, count: usize) -> i32 {
    for place in 0..count {
        let (x, y) = (a.add(place).read_volatile(), b.add(place).read_volatile());
        if x != y {
            return i32::from(x) - i32::from(y);
        }
    }
    0
}
