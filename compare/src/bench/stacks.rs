//! How far down the stack a call goes: it is made on a stack of its own that
//! was painted before, and the paint is looked at after it.

use std::arch::asm;

use compare::players::memory::Guarded;
use compare::players::reference;

/// The bytes of that stack.
const STACK: usize = 4 << 20;

const PAINT: u8 = 0xa5;

/// The bytes of stack that `play`, the address of a call like the library's,
/// needs to play `list` into `out`.
///
/// # Errors
///
/// There is no memory for the stack.
pub fn deepest(play: usize, list: &[u8], out: &mut [u8]) -> Result<usize, String> {
    let list = (list.as_ptr() as usize, list.len());
    painted(play, [list.0, list.1, out.as_mut_ptr() as usize, out.len()])
}

/// The same of a call like the library's that only checks.
///
/// # Errors
///
/// There is no memory for the stack.
pub fn deepest_check(check: usize, list: &[u8], out_len: usize) -> Result<usize, String> {
    painted(check, [list.as_ptr() as usize, list.len(), out_len, 0])
}

/// The Rust's player in the form of the library's.
pub extern "C" fn rust_play(list: *const u8, list_len: usize, out: *mut u8, out_len: usize) -> i64 {
    // SAFETY: `deepest` lends both.
    let (list, out) = unsafe {
        (
            std::slice::from_raw_parts(list, list_len),
            std::slice::from_raw_parts_mut(out, out_len),
        )
    };
    reference::play(list, out)
}

/// The Rust's check in the form of the library's.
pub extern "C" fn rust_refused_at(list: *const u8, list_len: usize, out_len: usize) -> u64 {
    // SAFETY: `deepest_check` lends it.
    let list = unsafe { std::slice::from_raw_parts(list, list_len) };
    reference::refused_at(list, out_len)
}

/// Calls `call` with these arguments on a painted stack, and answers how much
/// of it was written, the return address included.
fn painted(call: usize, arguments: [usize; 4]) -> Result<usize, String> {
    let mut memory = Guarded::new(STACK)?;
    let stack = memory.all();
    stack.fill(PAINT);
    // A page's end, so aligned as a call has to find it.
    let top = stack.as_mut_ptr_range().end;
    let [first, second, third, fourth] = arguments;
    // SAFETY: the call finds the arguments that it takes, in the registers
    // that C passes them in, and a stack that belongs to nobody else; r12 is
    // kept by every call and holds the old stack meanwhile.
    unsafe {
        asm!(
            "xchg r12, rsp",
            "call rax",
            "mov rsp, r12",
            inout("r12") top => _,
            inout("rax") call => _,
            inout("rdi") first => _,
            inout("rsi") second => _,
            inout("rdx") third => _,
            inout("rcx") fourth => _,
            clobber_abi("C"),
        );
    }
    let stack = memory.all();
    let untouched = stack.iter().position(|byte| *byte != PAINT);
    Ok(stack.len() - untouched.unwrap_or(stack.len()))
}
