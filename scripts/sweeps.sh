#!/bin/sh
# Refuses growths of memory and starts of threads, one after another: a run whose k-th growth is refused ends with M1, or goes on as if nothing had happened (an arena
# whose chunk is refused asks for a smaller one); one whose k-th start is refused, for whatever cause, ends with M2, or goes on where it is that of a reduction. Both have status 3, and nothing on standard output.
# k goes from 1 to the first run of which nothing is left to refuse. The programs have loops that workers make.
# Where the tests of dpl_run_tests are built, as rt ci leaves them, its test growths::a_growth_refused goes through the same: a sum and a fault, by an open gate and by one that refuses all.
# usage: scripts/sweeps.sh [EXECUTABLE [TESTS]]. Needs python3 and a C compiler.
set -eu
top=$(cd "$(dirname "$0")/.." && pwd)
work=$(mktemp -d)
trap 'rm -rf "$work"' EXIT
cat > "$work/refuse.c" <<'C'
// Stands before the C library: refuses the growth, or the start of a thread, that the environment names, and says so on descriptor 9.
#define _GNU_SOURCE
#include <dlfcn.h>
#include <errno.h>
#include <pthread.h>
#include <stdatomic.h>
#include <stdlib.h>
#include <unistd.h>

extern void *__libc_malloc(size_t);
extern void *__libc_realloc(void *, size_t);
static atomic_ulong growths, starts;
static _Thread_local int within;

static int refused(atomic_ulong *so_far, const char *name) {
    const char *wanted = getenv(name);
    unsigned long now = atomic_fetch_add(so_far, 1) + 1;
    if (!wanted || strtoul(wanted, 0, 10) != now) return 0;
    return write(9, "r", 1) == 1;
}

void *malloc(size_t size) {
    if (!within && refused(&growths, "REFUSED_GROWTH")) { errno = ENOMEM; return 0; }
    return __libc_malloc(size);
}

void *realloc(void *old, size_t size) {
    if (!within && refused(&growths, "REFUSED_GROWTH")) { errno = ENOMEM; return 0; }
    return __libc_realloc(old, size);
}

int pthread_create(pthread_t *thread, const pthread_attr_t *attributes, void *(*run)(void *), void *argument) {
    static int (*next)(pthread_t *, const pthread_attr_t *, void *(*)(void *), void *);
    if (refused(&starts, "REFUSED_START")) return EAGAIN;
    within = 1;
    if (!next) next = (int (*)(pthread_t *, const pthread_attr_t *, void *(*)(void *), void *)) dlsym(RTLD_NEXT, "pthread_create");
    int answer = next(thread, attributes, run, argument);
    within = 0;
    return answer;
}
C
cc -O2 -shared -fPIC -o "$work/refuse.so" "$work/refuse.c" -ldl
# The program itself, and not the script that unpacks it: growths of a shell are none of its.
gunzip -c "$top/built/dpl.gz" > "$work/dpl"
chmod +x "$work/dpl"
python3 - "$work/refuse.so" "${1:-$work/dpl}" "${2:-$top/crates/dpl_run_tests/out/dpl_run_tests_tests}" <<'PYTHON'
import os, subprocess, sys

shim, dpl, tests = sys.argv[1:4]
SQUARES = "const D = {1..40000} dmapped new blockDist(boundingBox={1..40000}); var A: [D] int; forall i in D do A[i] = i*i; writeln(+ reduce A); writeln(A);"
FAULTS = "const D = {1..40000} dmapped new blockDist(boundingBox={1..40000});\nvar A: [D] int;\nforall i in D do\n  A[i] = 12 / ((i-15000)*(i-35000));"
SUMS = "const D = {1..3, 1..12000} dmapped new cyclicDist(startIdx=(1, 1)); var A: [D] int; var B: [D] int; var s = 0; forall (i, j) in D with (+ reduce s) { A[i, j] = i * j; s += j; } B = A * 2 + 1; writeln(s, B[3, 12000]);"
RANGES = "var A: [0..119999] bool; var p = 1; forall i in 0..119999 by 3 with (max reduce p) { if i % 2 == 0 then A[i] = true; p reduce= i; } A = !A; writeln(p, A[0], A[3]);"
# With how many locales, and how many starts are those of a reduction, of which the caller folds the part where no thread can be made.
ROWS = [("squares", SQUARES, 4, 4), ("faults", FAULTS, 3, 0), ("sums and a whole array", SUMS, 4, 0), ("a range, truth values", RANGES, 64, 0)]


def ran(words, text, refusing):
    reads, writes = os.pipe()
    def child():
        os.dup2(writes, 9)
    done = subprocess.run(words, input=text.encode(), capture_output=True, preexec_fn=child, pass_fds=(writes, 9), env=dict(os.environ, LD_PRELOAD=shim, **refusing))
    os.close(writes)
    was_refused = os.read(reads, 1) == b"r"
    os.close(reads)
    return was_refused, done


def run(text, locales, maps, refusing):
    return ran([dpl, "--locales", str(locales), "--maps", maps], text, refusing)


bad = 0
for name, text, locales, folds in ROWS:
    for maps in ("asis", "block", "cyclic"):
        _, whole = run(text, locales, maps, {})
        for kind, told in (("REFUSED_GROWTH", (b"dpl: M1\n", b"dpl: M2\n")), ("REFUSED_START", (b"dpl: M2\n",))):
            k, went_on, starts, was_refused = 0, 0, 0, True
            while was_refused:
                k += 1
                was_refused, done = run(text, locales, maps, {kind: str(k)})
                may_go_on = not was_refused or kind == "REFUSED_GROWTH" or went_on < folds
                if (done.returncode, done.stdout) == (whole.returncode, whole.stdout) and may_go_on:
                    went_on += was_refused
                elif done.returncode == 3 and done.stdout == b"" and done.stderr in told:
                    starts += done.stderr == b"dpl: M2\n"
                else:
                    bad += 1
                    print("%s, %s, %s %d: status %d, %r, %r" % (name, maps, kind, k, done.returncode, done.stdout[:60], done.stderr[-60:]))
            print("%s, %d locales, %s: %s 1 to %d, of which %d went on and %d were M2, and then status %d" % (name, locales, maps, kind, k - 1, went_on, starts, whole.returncode))
for kind in ("REFUSED_GROWTH", "REFUSED_START"):
    k, was_refused = 0, os.path.exists(tests)
    while was_refused:
        k += 1
        was_refused, done = ran([tests, "growths::a_growth_refused"], "", {kind: str(k)})
        if done.returncode:
            bad += 1
            print("a_growth_refused, %s %d: status %d, %r" % (kind, k, done.returncode, done.stderr[-120:]))
    print("a_growth_refused: %s 1 to %d" % (kind, k - 1) if k else "a_growth_refused: the tests of dpl_run_tests aren't built")
sys.exit(1 if bad else 0)
PYTHON
