// One signature by several goroutines, over the library's jobs.

package slh

import (
	"crypto/subtle"
	"sync"
)

// xmssLevels returns the levels by which the XMSS trees of a signature are cut: those that docs/BENCHMARKS.md has for
// four workers, whatever their number. FORS trees are not cut: each is one job.
func (set Set) xmssLevels() uint32 {
	switch set {
	case SHA2_128s, SHA2_192s:
		return 4
	case SHA2_256s:
		return 3
	case SHA2_256f:
		return 1
	default:
		return 0
	}
}

// A signing is one signature as jobs. Each is done once for each room for the answers of all jobs.
type signing struct {
	set        Set
	levels     uint32
	key, start []byte
	jobs       uint32
	answers    [][]byte
}

// newSigning plans the signature of a key of these bytes, by jobs that are done so many times. The answers have to be
// erased.
func newSigning(set Set, key []byte, runs int) (*signing, error) {
	it := &signing{set: set, levels: set.xmssLevels(), key: key}
	startLen, answersLen, result := it.plan()
	if err := done(result); err != nil {
		return nil, err
	}
	it.start = make([]byte, startLen)
	for run := 0; run < runs; run++ {
		it.answers = append(it.answers, make([]byte, answersLen))
	}
	return it, nil
}

// erase overwrites the answers, which are as secret as the key.
func (it *signing) erase() {
	for _, answers := range it.answers {
		erase(answers)
	}
}

// signJobs returns the signature that a start begins, which a call writes. That many goroutines do its jobs, or as many
// as there are jobs (docs/LIBRARY.md, "Threads of your own"). A key whose root is not the one that its
// seeds give signs nothing: AnswersDisagree.
func (secret *SecretKey) signJobs(key []byte, options Options, begin writing) ([]byte, error) {
	it, err := newSigning(secret.set, key, options.runs())
	if err != nil {
		return nil, err
	}
	defer it.erase()
	if err := done(uninterrupted(func() uint32 { return begin(it.start) })); err != nil {
		return nil, err
	}
	if err := it.answer(options.Workers); err != nil {
		return nil, err
	}
	first := it.answers[0]
	for _, other := range it.answers[1:] {
		if subtle.ConstantTimeCompare(first, other) != 1 {
			return nil, ErrFault
		}
	}
	return secret.written(func(sig []byte) uint32 { return it.join(first, sig) })
}

// A task is a job and the room for its answer.
type task struct {
	job    uint32
	answer []byte
}

// tasks returns all jobs for each room for answers.
func (it *signing) tasks() ([]task, error) {
	var all []task
	for _, answers := range it.answers {
		for job := uint32(0); job < it.jobs; job++ {
			first, count, result := it.place(job)
			if err := done(result); err != nil {
				return nil, err
			}
			all = append(all, task{job, answers[first : first+count]})
		}
	}
	return all, nil
}

// answer has goroutines do all tasks, and returns the first error.
func (it *signing) answer(workers int) error {
	tasks, err := it.tasks()
	if err != nil {
		return err
	}
	queue := make(chan task, len(tasks))
	for _, next := range tasks {
		queue <- next
	}
	close(queue)
	if workers > int(it.jobs) {
		workers = int(it.jobs)
	}
	errs := make([]error, workers)
	var running sync.WaitGroup
	for worker := range errs {
		running.Add(1)
		go func(err *error) {
			defer running.Done()
			for next := range queue {
				if *err == nil {
					*err = runTask(it, next)
				}
			}
		}(&errs[worker])
	}
	running.Wait()
	for _, err := range errs {
		if err != nil {
			return err
		}
	}
	return nil
}

// runTask is run. A test puts one with faults in its place.
var runTask = (*signing).run

// run does a job.
func (it *signing) run(next task) error {
	return done(uninterrupted(func() uint32 { return it.do(next.job, next.answer) }))
}
