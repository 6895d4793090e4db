//! `slh_verify_many`, whose items have pointers.
use crate::calls::{input, output};
use slh::slh_c::many::{Signed, slh_verify_many as verify_many};

const DONE: u32 = 0;
/// So many items are read at a time, since nothing here allocates memory: a multiple of the eight that are hashed side by
/// side.
const AT_ONCE: usize = 16;
const NOTHING: Signed = Signed { pk: &[], msg: &[], ctx: &[], sig: &[] };

/// `slh_signed` of the header.
#[repr(C)]
pub struct Item {
    pk: *const u8,
    pk_len: u64,
    msg: *const u8,
    msg_len: u64,
    ctx: *const u8,
    ctx_len: u64,
    sig: *const u8,
    sig_len: u64,
}

impl Item {
    /// # Safety
    /// The caller has the duties of the header.
    unsafe fn read<'a>(&self) -> Signed<'a> {
        // Safety: the caller's duty.
        unsafe {
            Signed {
                pk: input(self.pk, self.pk_len as usize),
                msg: input(self.msg, self.msg_len as usize),
                ctx: input(self.ctx, self.ctx_len as usize),
                sig: input(self.sig, self.sig_len as usize),
            }
        }
    }
}

/// Verifies as many items as there is room for at once.
///
/// # Safety
/// The caller has the duties of the header.
unsafe fn verify_part(set: u32, part: &[Item], verdicts: &mut [u32]) -> u32 {
    let mut read = [NOTHING; AT_ONCE];
    for (to, item) in read.iter_mut().zip(part) {
        // Safety: the caller's duty.
        *to = unsafe { item.read() };
    }
    verify_many(set, &read[..part.len()], verdicts)
}

/// Verifies many signatures, each under its own key and context.
#[unsafe(no_mangle)]
pub unsafe extern "C" fn slh_verify_many(
    set: u32,
    items: *const Item,
    items_len: usize,
    verdicts: *mut u32,
    verdicts_len: usize,
) -> u32 {
    // Safety: the caller's duty.
    let (items, verdicts) = unsafe { (input(items, items_len), output(verdicts, verdicts_len)) };
    if items.len() != verdicts.len() {
        // Refused, by another wrong number of items, which need not be read.
        return verify_many(set, &[NOTHING][..usize::from(verdicts.is_empty())], verdicts);
    }
    let mut result = verify_many(set, &[], &mut []);
    for (part, verdicts) in items.chunks(AT_ONCE).zip(verdicts.chunks_mut(AT_ONCE)) {
        // Safety: the caller's duty.
        let first = unsafe { verify_part(set, part, verdicts) };
        if result == DONE {
            result = first;
        }
    }
    result
}
