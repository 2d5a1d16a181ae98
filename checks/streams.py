#!/usr/bin/env python3
"""Tries the two programs on what only a machine can do to them: input in pieces, reads and writes that fail, a full disk, arguments.

    tools/build list_to_text text_to_list
    python3 checks/streams.py

What the programs compute is proved, and run by programs_check; which bytes a read hands over and a write takes is not. A small C library
stands between a program and the system for the reads that fail and the writes that take one byte: it needs gcc. The full disk is a file
system of 64 KB in a namespace of its own: it needs unshare and the right to mount there. What this machine lacks is named and left out. The
script read_slot of docs/TECHNICIAN.md is tried as it stands there.

The programs are for x86-64. On another processor they are run by qemu-x86_64-static, with Debian's packages libc6-dev-amd64-cross
and gcc-x86-64-linux-gnu. The last line is 'N passed, 0 failed'.
"""
import os
import pathlib
import platform
import re
import subprocess
import sys
import tempfile

TOP = pathlib.Path(__file__).resolve().parent.parent
BIN = TOP / "target" / "bin"
EXAMPLES = TOP / "examples"
REFUSED = b"refused=12\n"
COMPLAINT = b"the output could not be written whole\n"
ADVICE = b"arguments are not read: the input is standard input, as after <\n"
NATIVE = platform.machine() == "x86_64"

# read fails from the call READ_FAILS on (1 is the first), or hands over READ_MOST bytes at most; write takes WRITE_MOST bytes at most, or fails.
SHIM = r"""
#define _GNU_SOURCE
#include <dlfcn.h>
#include <errno.h>
#include <stdlib.h>
#include <unistd.h>

static long setting(const char *name, long other) { const char *text = getenv(name); return text ? atol(text) : other; }

ssize_t read(int fd, void *to, size_t size) {
    static long calls;
    ssize_t (*real)(int, void *, size_t) = (ssize_t (*)(int, void *, size_t))dlsym(RTLD_NEXT, "read");
    long most = setting("READ_MOST", 1 << 30);
    if (fd == 0 && ++calls >= setting("READ_FAILS", 1 << 30)) { errno = EIO; return -1; }
    return real(fd, to, size < (size_t)most ? size : (size_t)most);
}

ssize_t write(int fd, const void *from, size_t size) {
    static long calls;
    ssize_t (*real)(int, const void *, size_t) = (ssize_t (*)(int, const void *, size_t))dlsym(RTLD_NEXT, "write");
    long most = setting("WRITE_MOST", 1 << 30);
    if (fd == 1 && ++calls >= setting("WRITE_FAILS", 1 << 30)) { errno = ENOSPC; return -1; }
    return real(fd, from, size < (size_t)most ? size : (size_t)most);
}
"""

passed = failed = 0


def held(name, found, expected):
    global passed, failed
    if found == expected:
        passed += 1
    else:
        failed += 1
        print(f"{name}: found {repr(found)[:200]}, expected {repr(expected)[:200]}")


def run(program, data, *words, shim=None, **settings):
    """Its output and what it says on standard error, given these arguments; with the library in between where one is given."""
    preload = {} if shim is None else {"LD_PRELOAD": shim} if NATIVE else {"QEMU_SET_ENV": f"LD_PRELOAD={shim}"}
    env = dict(os.environ, **{name: str(value) for name, value in (settings | preload).items()})
    done = subprocess.run([BIN / program, *words], input=data, capture_output=True, env=env, timeout=60)
    return done.stdout, done.stderr


def from_stream(program, stream):
    done = subprocess.run([BIN / program], stdin=stream, capture_output=True, timeout=60)
    return done.stdout, done.stderr


def in_pieces(program, data, size):
    """The input through a pipe, so many bytes at a time."""
    child = subprocess.Popen([BIN / program], stdin=subprocess.PIPE, stdout=subprocess.PIPE, bufsize=0)
    for at in range(0, len(data), size):
        child.stdin.write(data[at:at + size])
    child.stdin.close()
    return child.stdout.read()


def into(program, data, path):
    """What it says on standard error where its output goes to a file that takes nothing."""
    with open(path, "wb") as output:
        return subprocess.run([BIN / program], input=data, stdout=output, stderr=subprocess.PIPE, timeout=60).stderr


def closed(program, closing):
    """The shell closes a stream before the program starts."""
    return subprocess.run(["sh", "-c", f"exec {BIN / program} {closing}"], stdin=subprocess.DEVNULL, capture_output=True, timeout=60)


def try_program(program, data, expected, shim):
    for size in (1, 7, 4096):
        held(f"{program}, pieces of {size}", in_pieces(program, data, size), expected)
    held(f"{program}, empty", run(program, b""), (REFUSED, b""))
    with open(EXAMPLES / "sound.list", "rb") as stream:
        held(f"{program}, a file", from_stream(program, stream)[1], b"")
    folder = os.open(TOP, os.O_RDONLY)
    held(f"{program}, a folder", from_stream(program, folder), (REFUSED, b""))
    os.close(folder)
    held(f"{program}, input closed", closed(program, "<&-").stdout, REFUSED)
    held(f"{program}, output closed", closed(program, ">&-").stderr, COMPLAINT)
    if os.path.exists("/dev/full"):
        held(f"{program}, output full", into(program, data, "/dev/full"), COMPLAINT)
    for size in (65536, 65537, 200000):
        held(f"{program}, {size} bytes of nothing", run(program, bytes(size)), (REFUSED, b""))
    held(f"{program}, an argument", run(program, data, "examples/sound.list"), (expected, ADVICE))
    held(f"{program}, arguments", run(program, b"", "a", "b", "c"), (REFUSED, ADVICE))
    if shim is None:
        return
    for most, calls in ((len(data), (1, 2)), (1, (1, 2, 3, len(data), len(data) + 1))):
        for call in calls:
            held(f"{program}, reads of {most}, read {call} fails", run(program, data, shim=shim, READ_MOST=most, READ_FAILS=call), (REFUSED, b""))
    held(f"{program}, reads of one byte", run(program, data, shim=shim, READ_MOST=1), (expected, b""))
    for most in (1, 3, 100):
        held(f"{program}, writes of {most}", run(program, data, shim=shim, WRITE_MOST=most), (expected, b""))
    held(f"{program}, the second write fails", run(program, data, shim=shim, WRITE_MOST=10, WRITE_FAILS=2), (expected[:10], COMPLAINT))


LINES = b"lanes=1\nmode=plain\nfirst=none\n"


def try_limits():
    """65,536 bytes are read, and of 65,537 none is left out: each longer input is one that the limit alone refuses, cut to 65,536 or to
    any other length it would have another number."""
    text = LINES + b"0\n" * 32753
    body = 65536 - len(LINES + b"count=0\nbytes=65482\n\n")
    file = LINES + b"count=0\nbytes=%d\n\n" % body + bytes(body)
    for program, data, number in (("text_to_list", text, 7), ("list_to_text", file, 11)):
        held(f"{program}, 65,536 bytes", (len(data), run(program, data)), (65536, (b"refused=%d\n" % number, b"")))
        held(f"{program}, 65,537 bytes", run(program, data + b"0"), (REFUSED, b""))
        held(f"{program}, 65,537 bytes in pieces", in_pieces(program, data + b"0", 4096), REFUSED)


def built_shim(folder):
    """The library between a program and the system, or None where there is no gcc."""
    source, library = folder / "shim.c", folder / "shim.so"
    source.write_text(SHIM)
    try:
        subprocess.run(["gcc" if NATIVE else "x86_64-linux-gnu-gcc", "-shared", "-fPIC", "-o", library, source, "-ldl"], check=True)
    except (OSError, subprocess.CalledProcessError):
        print("no gcc: failing reads and short writes are left out")
        return None
    return library


# On a file system of 64 KB in the folder $1, $2 bytes of it taken: runs the command $3, which leaves its output and what it says in two files.
ON_A_SMALL_DISK = """mount -t tmpfs -o size=64k none "$1" && cd "$1" && : > written && : > said && head -c "$2" /dev/zero > taken || exit 99
eval "$3"
status=$?
cat said >&2
cat written
exit $status
"""


def on_a_disk(folder, room, command):
    """The status, the output and what is said on standard error, all from a disk with so much room; None where there can be no such disk."""
    words = ["unshare", "--map-root-user", "--mount", "sh", "-c", ON_A_SMALL_DISK, "sh", folder, str(65536 - room), command]
    try:
        done = subprocess.run(words, capture_output=True, timeout=60)
    except OSError:
        return None
    return None if done.returncode == 99 or b"unshare" in done.stderr else (done.returncode, done.stdout, done.stderr)


def script_of_the_page(folder):
    """read_slot, as docs/TECHNICIAN.md has it, for the programs where they are."""
    page = (TOP / "docs" / "TECHNICIAN.md").read_text()
    lines = re.search(r"as `read_slot`:\n\n((?:    .*\n)+)", page)[1]
    script = folder / "read_slot"
    script.write_text(re.sub("^    ", "", lines, flags=re.M).replace("target/bin", str(BIN)))
    return script


def try_script(script, folder):
    pages = folder / "pages"

    def read_slot(file):
        done = subprocess.run(["sh", script, EXAMPLES / file, pages], capture_output=True, timeout=60)
        return done.returncode, done.stdout, done.stderr

    held("read_slot, a sound list", read_slot("sound.list"), (0, b"", b""))
    held("read_slot, its pages", pages.read_bytes(), run("list_to_text", (EXAMPLES / "sound.list").read_bytes())[0])
    refusal = folder / "refusal.list"
    refusal.write_bytes(REFUSED)
    held("read_slot, a file that is itself a line of refusal", read_slot(refusal), (1, REFUSED, b""))
    for file in sorted(EXAMPLES.glob("refused_*.list")):
        number = int(file.name.split("_")[1])
        held(f"read_slot, {file.name}", read_slot(file.name), (1, b"refused=%d\n" % number, b""))


def try_full_disk(folder, script, packed, whole):
    """A list of 4,096 pages, onto a disk that has no room for all of it: what is left there, what is said, and that the script of the page
    sees it. And a list file that was cut so is refused."""
    disk, file = folder / "disk", folder / "packed"
    disk.mkdir()
    file.write_bytes(packed)
    if on_a_disk(disk, 0, "") is None:
        print("no small file system can be mounted here: a full disk is left out")
        return
    program = f"{BIN / 'list_to_text'} < {file}"
    for room in (0, 4096, 24576):
        held(f"a disk with room for {room}, both streams on it", on_a_disk(disk, room, f"{program} > written 2> said"), (0, whole[:room], b""))
        held(f"a disk with room for {room}, standard error closed", on_a_disk(disk, room, f"{program} > written 2>&-"), (0, whole[:room], b""))
        held(f"a disk with room for {room}, standard error elsewhere", on_a_disk(disk, room, f"{program} > written"), (0, whole[:room], COMPLAINT))
        status, _, _ = on_a_disk(disk, room, f"sh {script} {file} written 2> said")
        held(f"a disk with room for {room}, read_slot", status, 2)
    for room in (0, 4096, 16384):
        _, cut, _ = on_a_disk(disk, room, f"{BIN / 'text_to_list'} < {folder / 'text'} > written 2> said")
        held(f"a disk with room for {room}, a list file", (cut, run("list_to_text", cut)[0]), (packed[:room], REFUSED))
    held("a disk with room enough, read_slot", on_a_disk(disk, 45056, f"sh {script} {file} written 2> said")[:2], (0, whole))


def emulated(folder):
    """The two programs as files that run here: as they are, or by way of the emulator."""
    if NATIVE:
        return BIN
    os.environ["QEMU_LD_PREFIX"] = "/usr/x86_64-linux-gnu"
    for program in ("list_to_text", "text_to_list"):
        (folder / program).write_text(f'#!/bin/sh\nexec qemu-x86_64-static {BIN / program} "$@"\n')
        (folder / program).chmod(0o755)
    return folder


def main():
    global BIN
    file, text = (EXAMPLES / "sound.list").read_bytes(), (EXAMPLES / "sound.text").read_bytes()
    values = b"".join(line + b"\n" for line in text.split(b"\n")[3:-1])
    largest = b"lanes=1\nmode=plain\nfirst=none\n" + b"4294967295\n" * 4096
    with tempfile.TemporaryDirectory() as name:
        folder = pathlib.Path(name)
        BIN = emulated(folder)
        shim = built_shim(folder)
        try_program("list_to_text", file, values, shim)
        try_program("text_to_list", text, file, shim)
        try_limits()
        packed = in_pieces("text_to_list", largest, 1000)
        held("4,096 values of ten digits, packed", len(packed), 16566)
        held("and printed", in_pieces("list_to_text", packed, 1000), b"4294967295\n" * 4096)
        if shim is not None:
            held("and printed by short writes", run("list_to_text", packed, shim=shim, WRITE_MOST=1000), (b"4294967295\n" * 4096, b""))
        script = script_of_the_page(folder)
        try_script(script, folder)
        (folder / "text").write_bytes(largest)
        try_full_disk(folder, script, packed, b"4294967295\n" * 4096)
    print(f"{passed} passed, {failed} failed")
    sys.exit(1 if failed else 0)


if __name__ == "__main__":
    main()
