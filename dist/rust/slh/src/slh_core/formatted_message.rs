// Made by tools/plain_rust.py from crates/slh_core/src/formatted_message.rt.
//! M', what is signed of a message in a form and under a context (FIPS 205, section 10.2).

use crate::slh_core::message_digest::MessageDigest;

/// The most bytes of a context: one byte of M' has their number (FIPS 205, Algorithm 22, line 8).
pub(crate) const MOST_CONTEXT_LEN: usize = u8::MAX as usize;

/// The first two bytes of M': its form, and the length of the context. `None` for a context of over 255
/// bytes, which has no M'.
fn head_of(form: u8, ctx: &[u8]) -> Option<[u8; 2]> {
    if ctx.len() > MOST_CONTEXT_LEN {
        return None;
    }
    Some([form, ctx.len() as u8])
}

/// The first two bytes of M' in the pure form, 0 and the length of the context (FIPS 205, Algorithm 22,
/// line 8); the context and the message follow them. `None` for a context of over 255 bytes.
pub(crate) fn pure_head(ctx: &[u8]) -> Option<[u8; 2]> {
    head_of(0, ctx)
}

/// M' under a context of at most 255 bytes. Neither message nor context is copied; a digest is.
pub struct FormattedMessage<'a> {
    head: [u8; 2],
    ctx: &'a [u8],
    content: Content<'a>,
}

/// What follows the context in M'.
enum Content<'a> {
    /// The message.
    Message(&'a [u8]),
    /// The object identifier of the pre-hash function, and the message's digest.
    Digest([u8; 11], MessageDigest),
}

impl<'a> FormattedMessage<'a> {
    /// M' in the pure form (Algorithm 22, line 8). `None` for a context of over 255 bytes.
    pub(crate) fn of_message(msg: &'a [u8], ctx: &'a [u8]) -> Option<FormattedMessage<'a>> {
        let head = pure_head(ctx)?;
        let content = Content::Message(msg);
        Some(FormattedMessage { head, ctx, content })
    }

    /// M' in the pre-hash form, of a digest: 1 and the length of the context, the context, the function's object
    /// identifier and the digest (Algorithm 23). `None` for a context of over 255 bytes.
    pub fn of_digest(digest: &MessageDigest, ctx: &'a [u8]) -> Option<FormattedMessage<'a>> {
        let head = head_of(1, ctx)?;
        let content = Content::Digest(digest.function().oid(), digest.copy());
        Some(FormattedMessage { head, ctx, content })
    }

    /// The first two bytes.
    fn head(&self) -> &[u8] {
        &self.head
    }

    /// The context.
    fn ctx(&self) -> &[u8] {
        self.ctx
    }

    /// The object identifier of the pre-hash function; none in the pure form.
    fn oid(&self) -> &[u8] {
        match &self.content {
            Content::Message(_) => &[],
            Content::Digest(oid, _) => oid,
        }
    }

    /// The message, or its digest in the pre-hash form.
    fn message(&self) -> &[u8] {
        match &self.content {
            Content::Message(msg) => msg,
            Content::Digest(_, digest) => digest.bytes(),
        }
    }

    /// The parts which, put end to end, are M'.
    pub fn parts(&self) -> [&[u8]; 4] {
        [self.head(), self.ctx(), self.oid(), self.message()]
    }
}
