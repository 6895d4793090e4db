"""Changes one bit of the first signature of `slh sign --twice` while the program makes the second one. It needs Linux,
where a process may write to the memory of its children."""
import random
import signal
import subprocess
import time

FAULT, WANTED = (b"", 2, b"slh: 38 Fault\n"), 3


def flip(pid, signature, place, bit):
    """Changes a bit at a place of each copy of the signature that a stopped process holds. The answer is whether it has
    one."""
    has_one = False
    with open(f"/proc/{pid}/maps") as maps, open(f"/proc/{pid}/mem", "r+b", buffering=0) as memory:
        for line in maps:
            span, rights = line.split()[:2]
            first, last = (int(it, 16) for it in span.split("-"))
            if not rights.startswith("rw") or "[v" in line:
                continue
            memory.seek(first)
            at = memory.read(last - first).find(signature)
            if at >= 0:
                has_one = True
                memory.seek(first + at + place)
                byte = memory.read(1)[0]
                memory.seek(first + at + place)
                memory.write(bytes([byte ^ bit]))
    return has_one


def disturbed(command, signature, pause, third):
    """Runs a command, stops it after a pause, flips a drawn bit of a third of the signature, and lets it end: what it
    wrote, its status and its error; and the factor by which the next pause should be longer, since the signature was
    not there yet, or shorter, since the command had ended."""
    place = random.randrange(len(signature) * third // WANTED, len(signature) * (third + 1) // WANTED)
    with subprocess.Popen(command, stdout=subprocess.PIPE, stderr=subprocess.PIPE) as child:
        time.sleep(pause)
        child.send_signal(signal.SIGSTOP)
        try:
            factor = 1 if flip(child.pid, signature, place, 1 << random.randrange(8)) else 1.15
        except OSError:
            factor = 0.85
        finally:
            child.send_signal(signal.SIGCONT)
        out, err = child.communicate()
    return (out, child.returncode, err), factor


def refused_and_wrong(once, command, tries=60):
    """How many of some disturbed runs of a command were refused as a fault, up to WANTED, and how many wrote anything
    but the signature of an undisturbed run, ONCE."""
    begin = time.monotonic()
    signature = subprocess.run(once, stdout=subprocess.PIPE, check=True).stdout
    pause, refused, wrong = 1.2 * (time.monotonic() - begin), 0, 0
    while tries and refused < WANTED:
        ended, factor = disturbed(command, signature, pause, refused)
        refused += ended == FAULT
        wrong += ended not in (FAULT, (signature, 0, b""))
        tries, pause = tries - 1, pause * factor
    return refused, wrong
