// Made by tools/plain_rust.py from crates/slh_jobs/src/jobs.rt.
//! The jobs of a signature, and the places of their answers (ours).

use crate::slh_jobs::levels::Levels;
use crate::slh_jobs::shape::Shape;
use crate::slh_few::key_checkpoints_len;
use crate::slh_subtrees::{JobTree, ranges_of};

impl Levels {
    /// How the XMSS trees are cut.
    pub(crate) fn xmss_shape(&self) -> Shape {
        let set = self.set;
        Shape {
            n: set.n(),
            height: set.hp(),
            levels: self.xmss,
            own: (set.hp() - self.xmss) as usize * set.n() + key_checkpoints_len(set),
        }
    }

    /// How the FORS trees are cut.
    pub(crate) fn fors_shape(&self) -> Shape {
        let set = self.set;
        Shape {
            n: set.n(),
            height: set.a(),
            levels: self.fors,
            own: (set.a() - self.fors) as usize * set.n() + set.n(),
        }
    }

    /// How a tree is cut.
    pub(crate) fn shape(&self, tree: JobTree) -> Shape {
        match tree {
            JobTree::Xmss(_) => self.xmss_shape(),
            JobTree::Fors(_) => self.fors_shape(),
        }
    }

    /// The first job of a tree, counted from that of the first tree of its kind.
    pub(crate) fn first_of_kind(&self, tree: JobTree) -> u32 {
        match tree {
            JobTree::Xmss(layer) => ranges_of(u32::from(layer), ranges(self.xmss)),
            JobTree::Fors(number) => ranges_of(number, ranges(self.fors)),
        }
    }

    /// The first job of a tree.
    pub(crate) fn first_job(&self, tree: JobTree) -> u32 {
        match tree {
            JobTree::Xmss(_) => self.first_of_kind(tree),
            JobTree::Fors(_) => self.xmss_jobs() + self.first_of_kind(tree),
        }
    }

    /// The tree of a job, and the range of it.
    pub(crate) fn tree_and_range(&self, job: u32) -> (JobTree, u32) {
        let xmss_jobs = self.xmss_jobs();
        if job < xmss_jobs {
            let each = ranges(self.xmss);
            (JobTree::Xmss((job / each) as u8), job % each)
        } else {
            let rest = job - xmss_jobs;
            let each = ranges(self.fors);
            (JobTree::Fors(rest / each), rest % each)
        }
    }

    /// The number of jobs of the XMSS trees.
    pub(crate) fn xmss_jobs(&self) -> u32 {
        ranges_of(self.set.d(), ranges(self.xmss))
    }

    /// The number of jobs of the FORS trees.
    pub(crate) fn fors_jobs(&self) -> u32 {
        ranges_of(self.set.k(), ranges(self.fors))
    }
}

/// The number of ranges of a tree that is cut by this many levels.
pub(crate) fn ranges(levels: u32) -> u32 {
    1 << levels
}

/// The law that levels are a cutting: job n is job n of `slh_subtrees`, if the trees are cut by these levels. It does
/// nothing: the law is its contract.
pub fn levels_are_a_cutting() {}

/// The number of jobs of a signature: first the ranges of the XMSS trees, from layer 0 on, and then those of the FORS
/// trees.
pub fn sign_jobs(levels: &Levels) -> u32 {
    levels.xmss_jobs() + levels.fors_jobs()
}

/// The place of a job's answer among the answers of all jobs, end to end, in bytes.
pub fn answer_start(levels: &Levels, job: u32) -> usize {
    let xmss = levels.xmss_jobs();
    let xmss_len = levels.xmss_shape().answer_len();
    if job < xmss {
        job as usize * xmss_len
    } else {
        xmss as usize * xmss_len + (job - xmss) as usize * levels.fors_shape().answer_len()
    }
}

/// The length of the answer of a job, in bytes.
pub fn answer_len(levels: &Levels, job: u32) -> usize {
    if job < levels.xmss_jobs() { levels.xmss_shape().answer_len() } else { levels.fors_shape().answer_len() }
}

/// The length of the answers of all jobs, in bytes.
pub fn answers_len(levels: &Levels) -> usize {
    levels.xmss_jobs() as usize * levels.xmss_shape().answer_len()
        + levels.fors_jobs() as usize * levels.fors_shape().answer_len()
}
