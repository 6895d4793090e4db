//! One signature by several threads, over the library's jobs.

use alloc::{vec, vec::Vec};
use std::{mem, sync::Mutex, thread};

use crate::{
    Error, Function, Options, ParameterSet, SecretKey, Signature, Signer,
    call::done,
    options::{Content, slice},
    secrets::{Secrets, are_same},
    sys::{self, call},
};

/// FORS trees are not cut: each is one job.
const FORS_LEVELS: u32 = 0;

/// Several threads that compute each signature under a key. [`SecretKey::workers`] makes them.
///
/// A signature is divided into jobs (docs/LIBRARY.md, "Threads of your own"), which the threads do; they end
/// before the call returns. No more threads start than there are jobs. With the same randomizer, or with none, the
/// signature is byte for byte that of [`SecretKey`] in one thread. A key that [`check`](SecretKey::check) finds invalid
/// is refused as `AnswersDisagree`.
#[derive(Clone, Copy, Debug)]
pub struct Workers<'a, P: ParameterSet> {
    secret: &'a SecretKey<P>,
    count: usize,
    is_twice: bool, // asked for by the deprecated word
}

impl<'a, P: ParameterSet> Workers<'a, P> {
    pub(crate) fn new(secret: &'a SecretKey<P>, count: usize) -> Self {
        Workers { secret, count, is_twice: false }
    }

    /// The same workers, which do each job two times, even with [`Options::once`].
    #[deprecated(note = "two computations are the default: leave it out")]
    pub fn twice(self) -> Self {
        Workers { is_twice: true, ..self }
    }

    fn signed(&self, content: Content<'_>, options: Options<'_>) -> Result<Signature<P>, Error> {
        let run = |start: &[u8], job, answer: &mut [u8]| sign_job(self.secret, start, job, answer);
        let signature = self.signed_by(content, options, run)?;
        self.secret.released(signature, content, options)
    }

    /// The signature by jobs that `run` does, before it is verified.
    fn signed_by(&self, content: Content<'_>, options: Options<'_>, run: impl Run) -> Result<Signature<P>, Error> {
        let (plan, randomizer) = (Plan::of::<P>()?, options.randomizer.drawn::<P>()?);
        let (mut start, mut first) = (vec![0; plan.start_len], Secrets::zeros(plan.answers_len));
        let mut second = (self.is_twice || !options.is_once()).then(|| Secrets::zeros(plan.answers_len));
        done(self.write_start(content, options.context, slice(&randomizer), &mut start))
            .map_err(|error| content.with_lengths(options.context, error))?;
        let mut tasks = shares::<P>(plan.jobs, first.bytes_mut())?;
        if let Some(second) = &mut second {
            tasks.extend(shares::<P>(plan.jobs, second.bytes_mut())?);
        }
        let count = self.count.min(plan.jobs as usize);
        answer(count, tasks, |job, answer| run(&start, job, answer))?;
        if second.is_some_and(|second| !are_same(second.bytes(), first.bytes())) {
            return Err(Error::Fault);
        }
        join(self.secret, &start, first.bytes())
    }

    fn write_start(&self, content: Content<'_>, context: &[u8], random: &[u8], start: &mut [u8]) -> u32 {
        let (set, sk) = (P::NUMBER, self.secret.slice());
        match content {
            Content::Pure(message) => call!(slh_sign_start(set; sk, message, context, random; start)),
            Content::PreHash(function, message) => {
                call!(slh_hash_sign_start(set, function as u32; sk, message, context, random; start))
            }
            Content::Digest(..) => unreachable!("workers sign no digests"),
        }
    }
}

/// A function that does a job of the signature of a start: it writes the answer.
trait Run: Fn(&[u8], u32, &mut [u8]) -> Result<(), Error> + Sync {}

impl<F: Fn(&[u8], u32, &mut [u8]) -> Result<(), Error> + Sync> Run for F {}

/// Has that many threads, this one among them, do all jobs, each of which has the room for its answer.
fn answer(
    count: usize,
    tasks: Vec<(u32, &mut [u8])>,
    run: impl Fn(u32, &mut [u8]) -> Result<(), Error> + Sync,
) -> Result<(), Error> {
    let queue = Mutex::new(tasks.into_iter());
    let next = || queue.lock().expect("no thread panics while it takes a job").next();
    let work = || {
        while let Some((job, answer)) = next() {
            run(job, answer)?;
        }
        Ok(())
    };
    thread::scope(|scope| {
        let others: Vec<_> = (1..count).map(|_| scope.spawn(work)).collect();
        others.into_iter().fold(work(), |all, other| all.and(other.join().expect("no job panics")))
    })
}

impl<P: ParameterSet> Signer<P> for Workers<'_, P> {
    fn sign_with(&self, message: &[u8], options: Options<'_>) -> Result<Signature<P>, Error> {
        self.signed(Content::Pure(message), options)
    }

    fn hash_sign(&self, function: Function, message: &[u8], options: Options<'_>) -> Result<Signature<P>, Error> {
        self.signed(Content::PreHash(function, message), options)
    }
}

/// How many jobs a signature has, and the lengths of its start and its answers in bytes.
struct Plan {
    jobs: u32,
    start_len: usize,
    answers_len: usize,
}

impl Plan {
    fn of<P: ParameterSet>() -> Result<Plan, Error> {
        let mut plan = Plan { jobs: 0, start_len: 0, answers_len: 0 };
        let (jobs, start, answers) = (&mut plan.jobs, &mut plan.start_len, &mut plan.answers_len);
        done(sys::sign_jobs(P::NUMBER, [P::XMSS_LEVELS, FORS_LEVELS], jobs, start, answers))?;
        Ok(plan)
    }
}

/// Where the answer of a job begins, and its length in bytes.
fn answer_place<P: ParameterSet>(job: u32) -> Result<(usize, usize), Error> {
    let (mut at, mut len) = (0, 0);
    done(sys::answer_place(P::NUMBER, [P::XMSS_LEVELS, FORS_LEVELS], job, &mut at, &mut len))?;
    Ok((at, len))
}

/// Each job with the part of the answers that is its own. The parts stand end to end.
fn shares<P: ParameterSet>(jobs: u32, answers: &mut [u8]) -> Result<Vec<(u32, &mut [u8])>, Error> {
    let place = |job| answer_place::<P>(job).map(|(at, len)| (at, len, job));
    let mut places = (0..jobs).map(place).collect::<Result<Vec<_>, _>>()?;
    places.sort_unstable();
    let mut rest = answers;
    let share = |(_, len, job)| {
        let (own, others) = mem::take(&mut rest).split_at_mut(len);
        rest = others;
        (job, own)
    };
    Ok(places.into_iter().map(share).collect())
}

fn sign_job<P: ParameterSet>(secret: &SecretKey<P>, start: &[u8], job: u32, answer: &mut [u8]) -> Result<(), Error> {
    done(sys::sign_job(P::NUMBER, [P::XMSS_LEVELS, FORS_LEVELS], secret.slice(), start, job, answer))
}

fn join<P: ParameterSet>(secret: &SecretKey<P>, start: &[u8], answers: &[u8]) -> Result<Signature<P>, Error> {
    let (sk, levels) = (secret.slice(), P::XMSS_LEVELS);
    Signature::written(|out| call!(slh_sign_join(P::NUMBER, levels, FORS_LEVELS; sk, start, answers; out)))
}

#[cfg(test)]
mod tests {
    use std::sync::atomic::{AtomicUsize, Ordering};

    use super::*;
    use crate::{Randomizer, SlhDsaSha2_128f};

    type Secret = SecretKey<SlhDsaSha2_128f>;

    const MESSAGE: &[u8] = b"letter";

    /// The signature by jobs of the deterministic variant. `act` is given each answer after its job.
    fn signed(
        workers: &Workers<'_, SlhDsaSha2_128f>,
        once: bool,
        act: impl Fn(u32, &mut [u8]) + Sync,
    ) -> Result<Signature<SlhDsaSha2_128f>, Error> {
        let options = Options { randomizer: Randomizer::Deterministic, once, ..Options::default() };
        workers.signed_by(Content::Pure(MESSAGE), options, |start, job, answer| {
            sign_job(workers.secret, start, job, answer)?;
            act(job, answer);
            Ok(())
        })
    }

    /// One bit of one answer is flipped after its job: in its node, its tag, what follows, and its last byte.
    #[test]
    fn a_fault_in_one_run_of_a_job_is_found() {
        let secret = Secret::generate().unwrap();
        for (job, wrong_run) in [0, 21, 22, 54].into_iter().flat_map(|job| [(job, 0), (job, 1)]) {
            for (place, count) in [0, 16, 32, usize::MAX].into_iter().flat_map(|place| [(place, 0), (place, 3)]) {
                let runs = AtomicUsize::new(0);
                let flip = |done, answer: &mut [u8]| {
                    if done == job && runs.fetch_add(1, Ordering::Relaxed) == wrong_run {
                        answer[place.min(answer.len() - 1)] ^= 1;
                    }
                };
                let result = signed(&secret.workers(count), false, flip);
                assert!(matches!(result, Err(Error::Fault)), "{job} {wrong_run} {place} {count}: {result:?}");
                assert_eq!(runs.into_inner(), 2);
            }
        }
    }

    #[test]
    #[allow(deprecated)]
    fn without_a_fault_two_runs_sign_the_same() {
        let secret = Secret::generate().unwrap();
        for count in [0, 1, 3] {
            let workers = secret.workers(count);
            let jobs = AtomicUsize::new(0);
            let counted = |_, _: &mut [u8]| _ = jobs.fetch_add(1, Ordering::Relaxed);
            let runs = |workers: &Workers<'_, _>, once| {
                let before = jobs.load(Ordering::Relaxed);
                (signed(workers, once, counted).unwrap(), jobs.load(Ordering::Relaxed) - before)
            };
            let (once, count) = runs(&workers, true);
            assert_eq!(count, 55);
            assert_eq!(runs(&workers, false), (once.clone(), 2 * 55));
            assert_eq!(runs(&workers.twice(), true), (once, 2 * 55));
        }
    }
}
