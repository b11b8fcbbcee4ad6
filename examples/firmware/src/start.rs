//! The start of a Cortex-M, and QEMU's semihosting: lines to its output, and the end of a run.
use core::fmt::{Result, Write};
use core::sync::atomic::{AtomicU32, Ordering};

unsafe extern "C" {
    static mut _data: u32;
    static _data_end: u32;
    static _data_from: u32;
    static mut _bss: u32;
    static _bss_end: u32;
    static _stack_top: u32;
    /// What a program does: its own.
    safe fn program();
}

#[repr(C)]
struct Vectors(*const u32, unsafe extern "C" fn() -> !, [unsafe extern "C" fn() -> !; 14]);

// SAFETY: nobody writes it.
unsafe impl Sync for Vectors {}

#[unsafe(link_section = ".vectors")]
#[used]
static VECTORS: Vectors = Vectors(&raw const _stack_top, reset, [fault; 14]);

unsafe extern "C" fn fault() -> ! {
    exit(102)
}

#[unsafe(no_mangle)]
unsafe extern "C" fn reset() -> ! {
    // SAFETY: the linker's script has these places, and nothing has run yet.
    unsafe {
        let (mut to, mut from) = (&raw mut _data, &raw const _data_from);
        while to.cast_const() < &raw const _data_end {
            to.write_volatile(from.read_volatile());
            (to, from) = (to.add(1), from.add(1));
        }
        let mut to = &raw mut _bss;
        while to.cast_const() < &raw const _bss_end {
            to.write_volatile(0);
            to = to.add(1);
        }
    }
    program();
    exit(0)
}

#[panic_handler]
fn stop(_: &core::panic::PanicInfo) -> ! {
    exit(101)
}

fn semihosting(operation: u32, argument: *const u32) -> u32 {
    let mut result = operation;
    // SAFETY: the debugger reads what the argument says, and gives a number.
    unsafe { core::arch::asm!("bkpt 0xab", inout("r0") result, in("r1") argument) };
    result
}

/// Ends the run with a status.
pub fn exit(status: u32) -> ! {
    semihosting(0x20, [0x2_0026, status].as_ptr());
    loop {}
}

/// The output of the run.
pub struct Console;

impl Write for Console {
    fn write_str(&mut self, text: &str) -> Result {
        static HANDLE: AtomicU32 = AtomicU32::new(0);
        if HANDLE.load(Ordering::Relaxed) == 0 {
            HANDLE.store(semihosting(1, [c":tt".as_ptr() as u32, 4, 3].as_ptr()), Ordering::Relaxed);
        }
        semihosting(5, [HANDLE.load(Ordering::Relaxed), text.as_ptr() as u32, text.len() as u32].as_ptr());
        Ok(())
    }
}
