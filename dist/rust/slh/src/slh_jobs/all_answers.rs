// Made by tools/plain_rust.py from crates/slh_jobs/src/all_answers.rt.
//! The nodes that the answers of all jobs give for the trees, whatever their bytes are (ours).

use crate::slh_jobs::answer_bytes::AnswerBytes;
use crate::slh_jobs::levels::Levels;
use crate::slh_jobs::signing::Signing;
use crate::slh_jobs::tag::{AnswerTags, tags_of_answers};
use crate::slh_core::SecretKey;
use crate::slh_few::SigningContext;
use crate::slh_subtrees::JobTree;

/// The answers of all jobs of a signature, as they are handed in.
pub(crate) struct AllAnswers<'a> {
    pub(crate) signing: Signing<'a>,
    pub(crate) xmss: AnswerBytes<'a>,
    pub(crate) fors: AnswerBytes<'a>,
    pub(crate) tags: AnswerTags,
}

impl<'a> AllAnswers<'a> {
    /// The answers of the signature by this key, whose context is `signer`, that `start` begins. `None` if `start` does
    /// not have its tag under this key.
    pub(crate) fn new(
        levels: &Levels,
        sk: &'a SecretKey,
        signer: &'a SigningContext<'a>,
        start: &'a [u8],
        answers: &'a [u8],
    ) -> Option<AllAnswers<'a>> {
        let signing = Signing::new(levels, sk, signer, start)?;
        let xmss = AnswerBytes { shape: levels.xmss_shape(), bytes: answers };
        let xmss_len = levels.xmss_jobs() as usize * xmss.shape.answer_len();
        let fors = AnswerBytes { shape: levels.fors_shape(), bytes: &answers[xmss_len..] };
        let tags = tags_of_answers(levels, sk, start);
        Some(AllAnswers { signing, xmss, fors, tags })
    }

    /// The answers of the trees of a tree's kind.
    pub(crate) fn of_kind(&self, tree: JobTree) -> &AnswerBytes<'a> {
        match tree {
            JobTree::Xmss(_) => &self.xmss,
            JobTree::Fors(_) => &self.fors,
        }
    }

    /// The number of a tree's first answer among those of the trees of its kind.
    pub(crate) fn first(&self, tree: JobTree) -> u32 {
        self.signing.levels.first_of_kind(tree)
    }

    /// The bytes after the path, in the answer of the range of a tree's signing leaf.
    pub(crate) fn rest(&self, tree: JobTree) -> &'a [u8] {
        let given = self.of_kind(tree);
        let range = self.signing.trees.leaf(tree) >> given.shape.below();
        given.rest((self.first(tree) + range) as usize)
    }
}
