// The program sign_queue signs each file that standard input names, one a line, by one process a processor, and counts
// for Prometheus.
//
// usage: sign_queue KEY PORT [PROCESSES] < QUEUE
//
//	sign_queue --self-test KEY
//
// KEY is a secret key file of the program slh. The signature of FILE goes into a new file FILE.sig, once it was
// computed two times and verified. A scraper reads the counters from http://127.0.0.1:PORT/metrics:
// slh_signatures_total, slh_failures_total and slh_signing_seconds_total. QUEUE may be a pipe that never ends. At its
// end the program ends, with status 1 if something failed. If a process is lost, its file is named as a failure, and
// the others go on. SIGTERM and Ctrl-C end the program once the files that it took from the queue are signed. The
// others stay in the queue: no name is read before it is needed.
//
// --self-test runs the self-test of the key's set, by the code that signs. The status is 0 if it passes. It does not look
// at the rest of the program's file.
package main

import (
	"bufio"
	"errors"
	"fmt"
	"io"
	"log"
	"net"
	"net/http"
	"os"
	"os/exec"
	"os/signal"
	"path/filepath"
	"runtime"
	"strconv"
	"strings"
	"sync"
	"sync/atomic"
	"syscall"
	"time"

	"pipitscreen.example/slh"
)

// mostName is the most bytes of a name: Linux takes no longer path.
const mostName = 4096

var signatures, failures, nanoseconds atomic.Int64

// metrics writes the counters in Prometheus' text format.
func metrics(to http.ResponseWriter, _ *http.Request) {
	to.Header().Set("Content-Type", "text/plain; version=0.0.4; charset=utf-8")
	counter := func(name, help, value string) {
		fmt.Fprintf(to, "# HELP %s %s\n# TYPE %s counter\n%s %s\n", name, help, name, name, value)
	}
	counter("slh_signatures_total", "Files that were signed.", fmt.Sprint(signatures.Load()))
	counter("slh_failures_total", "Files that could not be read, signed or written.", fmt.Sprint(failures.Load()))
	counter("slh_signing_seconds_total", "Seconds in signing, of all processes.",
		fmt.Sprintf("%.6f", time.Duration(nanoseconds.Load()).Seconds()))
}

// read reads a file to be signed. A pipe is refused, and not waited for.
func read(path string) ([]byte, error) {
	file, err := os.OpenFile(path, os.O_RDONLY|syscall.O_NONBLOCK, 0)
	if err != nil {
		return nil, err
	}
	defer file.Close()
	seen, err := file.Stat()
	if err != nil {
		return nil, err
	}
	if !seen.Mode().IsRegular() {
		return nil, errors.New(path + " is no file")
	}
	return io.ReadAll(file)
}

// writeKept writes a new file, which the disk then has.
func writeKept(path string, data []byte) error {
	file, err := os.OpenFile(path, os.O_WRONLY|os.O_CREATE|os.O_EXCL, 0o666)
	if err != nil {
		return err
	}
	_, err = file.Write(data)
	if err == nil {
		err = file.Sync()
	}
	if closing := file.Close(); err == nil {
		err = closing
	}
	if err != nil {
		os.Remove(path)
	}
	return err
}

// syncFolderOf has the disk keep the names of a file's folder.
func syncFolderOf(path string) error {
	folder, err := os.Open(filepath.Dir(path))
	if err != nil {
		return err
	}
	defer folder.Close()
	return folder.Sync()
}

// sign signs a file. The signature and its name are on the disk when it returns nil, and else there is none.
func sign(secret *slh.SecretKey, path string) error {
	message, err := read(path)
	if err != nil {
		return err
	}
	signature, err := secret.Sign(nil, message, slh.Options{Verify: true})
	if err != nil {
		return err
	}
	if err := writeKept(path+".sig", signature); err != nil {
		return err
	}
	if err := syncFolderOf(path); err != nil {
		os.Remove(path + ".sig")
		return err
	}
	return nil
}

// work is what each process does: it answers each path of standard input with a line, which is empty if it was signed.
func work(key string) error {
	secret, err := slh.ReadSecretKeyFile(key)
	if err != nil {
		return err
	}
	defer secret.Erase()
	signal.Ignore(syscall.SIGTERM, os.Interrupt) // one to all processes of this program is for the first one
	paths := bufio.NewReader(os.Stdin)
	for {
		path, err := paths.ReadString('\n')
		if err != nil {
			return nil // the queue ended
		}
		why := ""
		if err := sign(secret, strings.TrimSuffix(path, "\n")); err != nil {
			why = strconv.Quote(err.Error())
		}
		if _, err := fmt.Println(why); err != nil {
			return err
		}
	}
}

// worker is a process that signs.
type worker struct {
	*exec.Cmd
	paths   io.WriteCloser
	answers *bufio.Reader
}

func started(key string) (*worker, error) {
	it := &worker{Cmd: exec.Command("/proc/self/exe", key)}
	it.Env, it.Stderr = append(os.Environ(), "SIGN_QUEUE_WORKER=1", "GOMAXPROCS=1"), os.Stderr
	paths, err := it.StdinPipe()
	if err != nil {
		return nil, err
	}
	answers, err := it.StdoutPipe()
	if err != nil {
		return nil, err
	}
	it.paths, it.answers = paths, bufio.NewReader(answers)
	return it, it.Start()
}

// fail names a file that is not signed.
func fail(path, why string) {
	failures.Add(1)
	log.Printf("%s: %s", path, why)
}

// answer has the process sign a file. It returns why that failed, or that the process is lost.
func (it *worker) answer(path string) (string, error) {
	if _, err := fmt.Fprintln(it.paths, path); err != nil {
		return "", err
	}
	why, err := it.answers.ReadString('\n')
	if err != nil || why == "\n" {
		return "", err
	}
	return strconv.Unquote(strings.TrimSuffix(why, "\n"))
}

// run has the process sign files while there are some, and ends it. If it is lost, its file is a failure.
func (it *worker) run(paths <-chan string) error {
	for path := range paths {
		began := time.Now()
		why, err := it.answer(path)
		nanoseconds.Add(int64(time.Since(began)))
		switch {
		case err != nil:
			fail(path, "the process that signs it was lost: "+err.Error())
			return err
		case why != "":
			fail(path, why)
		default:
			signatures.Add(1)
		}
	}
	it.paths.Close()
	return it.Wait()
}

// toldToEnd returns a file that can be read once SIGTERM or Ctrl-C came.
func toldToEnd() (*os.File, error) {
	signals := make(chan os.Signal, 1)
	signal.Notify(signals, syscall.SIGTERM, os.Interrupt)
	told, telling, err := os.Pipe()
	go func() { <-signals; telling.Close() }()
	return told, err
}

// isTold waits until there is a byte of the queue to read, or the program is told to end, and returns whether it is. A
// name that has begun is read on while its bytes are there.
func isTold(told *os.File, hasBegun bool) (bool, error) {
	number := int(told.Fd())
	for {
		var ready syscall.FdSet
		ready.Bits[0] = 1 | 1<<number
		_, err := syscall.Select(number+1, &ready, nil, nil, nil)
		if err != syscall.EINTR {
			return ready.Bits[0]&(1<<number) != 0 && !(hasBegun && ready.Bits[0]&1 != 0), err
		}
	}
}

var errStopped = errors.New("it was stopped: the names that it took from the queue are done")

// nextName reads a line of standard input, and no byte behind it. The error is io.EOF at the end of the queue.
func nextName(told *os.File) (string, error) {
	var name []byte
	one := make([]byte, 1)
	for {
		stopped, err := isTold(told, len(name) > 0)
		if stopped && err == nil {
			err = errStopped
		} else if err == nil {
			_, err = io.ReadFull(os.Stdin, one)
		}
		switch {
		case err == io.EOF && len(name) > 0:
			return string(name), nil
		case err != nil && len(name) > 0:
			fail(string(name), "a part of a name is not taken")
			fallthrough
		case err != nil:
			return "", err
		case one[0] == '\n':
			return string(name), nil
		}
		name = append(name, one[0])
	}
}

// startAll starts the processes that sign the files of a channel. The channel that it returns is closed once all have
// ended. Then the other result says whether one was lost.
func startAll(key string, processes int, paths <-chan string) (<-chan struct{}, *atomic.Bool) {
	var wait sync.WaitGroup
	ended, lost := make(chan struct{}), new(atomic.Bool)
	for i := 0; i < processes; i++ {
		it, err := started(key)
		if err != nil {
			log.Fatal(err)
		}
		wait.Add(1)
		go func() {
			defer wait.Done()
			if err := it.run(paths); err != nil {
				log.Print("a process was lost: ", err)
				lost.Store(true)
			}
		}()
	}
	go func() { wait.Wait(); close(ended) }()
	return ended, lost
}

// signAll has each file of the queue signed. It returns whether a process was lost, or the queue.
func signAll(key string, processes int, told *os.File) bool {
	paths := make(chan string)
	ended, lost := startAll(key, processes, paths)
	path, err := nextName(told)
	for ; err == nil; path, err = nextName(told) {
		if len(path) > mostName {
			fail(path[:mostName], "a longer name is not taken")
			continue
		}
		select {
		case paths <- path:
		case <-ended:
			fail(path, "no process is left")
			return true
		}
	}
	close(paths)
	<-ended
	if err != io.EOF {
		log.Print(err)
	}
	return lost.Load() || (err != io.EOF && err != errStopped)
}

// checked ends the program unless the file has a secret key that signs.
func checked(key string) {
	secret, err := slh.ReadSecretKeyFile(key)
	if err == nil {
		err = secret.Check()
		secret.Erase()
	}
	if err != nil {
		log.Print(err)
		os.Exit(2)
	}
}

// selfTest returns the error of the self-test of a key's set.
func selfTest(key string) error {
	secret, err := slh.ReadSecretKeyFile(key)
	if err != nil {
		return err
	}
	defer secret.Erase()
	return secret.Set().SelfTest()
}

func main() {
	log.SetFlags(0)
	if len(os.Args) == 3 && os.Args[1] == "--self-test" {
		if err := selfTest(os.Args[2]); err != nil {
			log.Print(err)
			os.Exit(2)
		}
		return
	}
	if os.Getenv("SIGN_QUEUE_WORKER") != "" {
		if err := work(os.Args[1]); err != nil {
			log.Fatal(err)
		}
		return
	}
	processes := runtime.NumCPU()
	if len(os.Args) == 4 {
		processes, _ = strconv.Atoi(os.Args[3])
	}
	if len(os.Args) < 3 || len(os.Args) > 4 || processes < 1 {
		log.Print("usage: sign_queue KEY PORT [PROCESSES] < QUEUE, or sign_queue --self-test KEY")
		os.Exit(2)
	}
	checked(os.Args[1])
	listener, err := net.Listen("tcp", "127.0.0.1:"+os.Args[2])
	if err != nil {
		log.Print(err)
		os.Exit(2)
	}
	told, err := toldToEnd()
	if err != nil {
		log.Fatal(err)
	}
	http.HandleFunc("/metrics", metrics)
	go http.Serve(listener, nil)
	lost := signAll(os.Args[1], processes, told)
	fmt.Printf("%d signed, %d failed\n", signatures.Load(), failures.Load())
	if lost || failures.Load() > 0 {
		os.Exit(1)
	}
}
