"""Builds and runs x86-64 programs of C, Rust and the archives of this repository, on x86-64 and on Arm. For tools/host, bench/bench and others.

On x86-64 the machine's own cc and cargo are used. On Arm, Debian has a C compiler and a Rust for x86-64, and the kit an emulator with a loader and a C
library. A Rust main does not start under the kit's; so a program's main is C, and cargo's tests run under Debian's emulator and C library.
"""

import hashlib
import os
import platform
import shutil
import subprocess
import sys

ROOT = os.path.dirname(os.path.dirname(os.path.abspath(__file__)))
TARGET = "x86_64-unknown-linux-gnu"
NATIVE = platform.machine().lower() in ("x86_64", "amd64")
FOR_C = ["gcc-x86-64-linux-gnu", "libc6-dev-amd64-cross"]
FOR_RUST = ["rustc-web", "libstd-rust-web-dev:amd64", "libc6:amd64", "qemu-user"]


class Failure(Exception):
    """What went wrong; `tail` has the last lines that a command printed, where they went to a log."""
    tail = ()


LOG = None


def log_to(path):
    """From now on what commands print goes to this file."""
    global LOG
    os.makedirs(os.path.dirname(path), exist_ok=True)
    LOG = open(path, "wb", buffering=0)


def call(words, **more):
    """Runs a command; what it prints goes to standard error, or to the log."""
    if not LOG:
        done = subprocess.run(words, stdout=sys.stderr, **more)
    else:
        LOG.write(("$ %s\n" % " ".join(words)).encode())
        start = LOG.tell()
        done = subprocess.run(words, stdout=LOG, stderr=subprocess.STDOUT, **more)
        LOG.seek(0, os.SEEK_END)
    if done.returncode:
        why = Failure("%s ended with %d" % (" ".join(words[:3] + ["..."] * (len(words) > 3)) if LOG else " ".join(words), done.returncode))
        if LOG:
            with open(LOG.name, "rb") as f:
                f.seek(start)
                why.tail = f.read().decode(errors="replace").splitlines()[-20:]
        raise why


# ---- what is installed

def compiler():
    """The C compiler for x86-64, or None."""
    return shutil.which("cc" if NATIVE else "x86_64-linux-gnu-gcc")


def rustc():
    """A Rust compiler that has the library for x86-64 Linux, or None."""
    for words in filter(None, (os.environ.get("RUSTC"), shutil.which("rustc"), "/usr/bin/rustc")):
        if os.access(words, os.X_OK):
            told = subprocess.run([words, "--print", "target-libdir", "--target", TARGET], capture_output=True, text=True)
            folder = told.stdout.strip()
            if told.returncode == 0 and os.path.isdir(folder) and any(name.startswith("libstd-") for name in os.listdir(folder)):
                return words
    return None


def cargo():
    return shutil.which("cargo") or shutil.which(os.path.expanduser("~/.cargo/bin/cargo"))


def emulator():
    """Debian's emulator, which can load plugins, or None."""
    return shutil.which("qemu-x86_64")


def missing(rust=True):
    """What is not there of what C programs need, or C and Rust programs."""
    wanted = [("a C compiler for x86-64", compiler())]
    if rust:
        wanted += [("a rustc with the library for %s" % TARGET, rustc()), ("cargo", cargo())]
    if rust and not NATIVE:
        wanted += [("qemu-x86_64", emulator()), ("the C library for x86-64", os.path.exists("/lib64/ld-linux-x86-64.so.2"))]
    return [name for name, found in wanted if not found]


def install(rust=True):
    """Installs Debian's packages on Arm, for C programs alone or for both. On x86-64 the machine's own compilers are asked for."""
    if not missing(rust):
        return
    if NATIVE:
        raise Failure("missing: %s" % ", ".join(missing(rust)))
    packages = FOR_C + (FOR_RUST if rust else [])
    if not shutil.which("apt-get") or os.geteuid() != 0:
        raise Failure("missing: %s. On Debian, as root: dpkg --add-architecture amd64; apt-get update; apt-get install %s"
                      % (", ".join(missing(rust)), " ".join(packages)))
    call(["dpkg", "--add-architecture", "amd64"])
    call(["apt-get", "update", "-q"])
    wanted = packages + ([] if cargo() or not rust else ["cargo-web"])
    call(["apt-get", "install", "-y", "-q", "--no-install-recommends"] + wanted, env=dict(os.environ, DEBIAN_FRONTEND="noninteractive"))
    if missing(rust):
        raise Failure("still missing: %s" % ", ".join(missing(rust)))


# ---- building

def archive(name, folder=None, anew=False):
    """lib<name>.a in a folder, or else as `rt lib` makes it of the crate <name>_c: it is taken where it stands, and made again where it does not, or with
    `anew`."""
    if folder:
        path = os.path.join(os.path.abspath(folder), "lib%s.a" % name)
    else:
        path = own_archive(name)
        if anew or not stands(name):
            make_archive(name)
    if not os.path.isfile(path):
        raise Failure("no %s" % path)
    return path


def own_archive(name):
    return os.path.join(ROOT, "target", "staticlib", "lib%s.a" % name)


# The first word of a note on an archive that must be made again, where a digest of what it was made of stands else.
AGAIN = "again"


def make_archive(name):
    """Runs `rt lib` in the crate <name>_c, and leaves a note beside the archive: the digest of what it was made of, and its own. While it runs, and where
    a source changed meanwhile, the note says that it must be made again."""
    path, crate = own_archive(name), name + "_c"
    folder = os.path.join(ROOT, "crates", crate)
    made = os.path.join(folder, "out", "lib%s.a" % crate)
    if not shutil.which("rt"):
        raise Failure("there is no rt to make %s anew" % path if os.path.isfile(path) else "no %s, and no rt to make it" % path)
    before = stamp(name)
    os.makedirs(os.path.dirname(path), exist_ok=True)
    note(path, AGAIN)
    call(["rt", "lib", crate], cwd=folder)
    if not os.path.isfile(made):
        raise Failure("rt lib %s made no %s" % (crate, made))
    shutil.copyfile(made, path)
    if stamp(name) == before:
        note(path, before, digest_of(path))
    else:
        note(path, AGAIN, digest_of(path))
        print("warning: a source changed while rt lib %s ran; the next run makes the archive again" % crate, file=sys.stderr, flush=True)


def note(path, *words):
    with open(path + ".stamp", "w") as out:
        out.write("".join(word + "\n" for word in words))


def noted(path):
    """The words of the note beside an archive, if it is about that one. A note without a digest is about any: a run of rt did not end."""
    if not os.path.isfile(path + ".stamp"):
        return None
    with open(path + ".stamp") as f:
        words = f.read().split()
    return words if words == [AGAIN] or words[1:] == [digest_of(path)] else None


def stands(name):
    """In words, why lib<name>.a need not be made; None where it must be.

    One that was made here has a note, and stands while all that it was made of is as it was then, the kit too. One that was made by hand has none,
    and stands while it is newer than its sources and their folders. Without rt each stands."""
    path = own_archive(name)
    if not os.path.isfile(path):
        return None
    if not shutil.which("rt"):
        return "there is no rt"
    words = noted(path)
    if words:
        return "nothing changed since it was made" if words[0] == stamp(name) else None
    newest = max(map(os.path.getmtime, made_of(name) + [folder for folder, _ in folders_of(name)]))
    return "newer than its sources" if newest < os.path.getmtime(path) else None


def crates_under(name):
    """The crates of this repository that a crate stands on, and itself. Other names in crates.txt are the kit's."""
    with open(os.path.join(ROOT, "crates.txt")) as f:
        rows = [line.split(":", 1) for line in f if line.strip() and not line.startswith("#")]
    needs = {row[0].split()[0]: row[1].split() for row in rows}
    if name not in needs:
        raise Failure("crates.txt has no crate %s" % name)
    found, todo = set(), [name]
    while todo:
        one = todo.pop()
        if one in needs and one not in found:
            found.add(one)
            todo += needs[one]
    return sorted(found)


def folders_of(name):
    """The folders of the crates that an archive stands on, each with the names of its files."""
    for crate in crates_under(name + "_c"):
        for part in ("src", "specs", "proofs"):
            for folder, _, names in os.walk(os.path.join(ROOT, "crates", crate, part)):
                yield folder, names


def made_of(name):
    """The files that an archive is made of: crates.txt, and all of the crates that it stands on."""
    return sorted([os.path.join(ROOT, "crates.txt")] + [os.path.join(folder, one) for folder, names in folders_of(name) for one in names])


def stamp(name):
    """A digest of what an archive is made of: the kit and the files."""
    digest = hashlib.sha256(("%s\n" % rt_version()).encode())
    for file in made_of(name):
        digest.update(("%s %s\n" % (os.path.relpath(file, ROOT), digest_of(file))).encode())
    return digest.hexdigest()


def digest_of(path):
    with open(path, "rb") as f:
        return hashlib.sha256(f.read()).hexdigest()


def call_cargo(words, folder, out, env):
    """Runs cargo on a crate, for x86-64."""
    own = {"RUSTC": rustc(), "CARGO_NET_OFFLINE": "true", "CARGO_TARGET_DIR": out}
    if not NATIVE:
        name = "CARGO_TARGET_%s_" % TARGET.upper().replace("-", "_")
        own.update({name + "LINKER": compiler(), name + "RUNNER": emulator(), "RUSTDOC": os.path.join(os.path.dirname(rustc()), "rustdoc")})
    call([cargo(), *words, "--target", TARGET, "--manifest-path", os.path.join(folder, "Cargo.toml")], env=dict(os.environ, **own, **(env or {})))


def test_rust(folder, out, env=None):
    """Runs the tests of a crate, those in its documentation too."""
    call_cargo(["test", "--quiet"], folder, out, env)


def build_rust(folder, out, env=None):
    """Builds a crate of type staticlib for release and gives its archive."""
    call_cargo(["build", "--release", "--quiet"], folder, out, env)
    name = "lib%s.a" % os.path.basename(folder).replace("-", "_")
    return os.path.join(out, TARGET, "release", name)


def build_c(sources, archives, program, flags=()):
    """Compiles C and links it with archives."""
    os.makedirs(os.path.dirname(program), exist_ok=True)
    call([compiler(), "-std=c99", "-O2", "-Wall", "-Wextra", "-I", os.path.join(ROOT, "include"), *flags, *sources, *archives, "-o", program,
          "-lpthread", "-ldl", "-lm"])
    return program


# ---- running

def kit():
    """The folder with the kit's tools for this machine, or None."""
    home = os.environ.get("RATTLE_HOME")
    if not home:
        found = shutil.which("rt")
        home = found and os.path.dirname(os.path.dirname(os.path.realpath(found)))
    folder = home and os.path.join(home, "on", platform.machine(), "toolchain")
    return folder if folder and os.path.isdir(folder) else None


def rt_version():
    """The kit's one-line identity, or None where there is no kit."""
    if not shutil.which("rt"):
        return None
    told = subprocess.run(["rt", "version"], capture_output=True, text=True)
    return told.stdout.strip() if told.returncode == 0 else None


def kit_warning():
    """Warns on standard error where the kit is not the one that the file KIT-ID names. The line, or None."""
    file, found = os.path.join(ROOT, "KIT-ID"), rt_version()
    if not os.path.isfile(file) or not found:
        return None
    with open(file) as f:
        pinned = f.read().strip()
    if found == pinned:
        return None
    line = "warning: rt version says `%s`; the proofs here were checked with `%s` (KIT-ID)" % (found, pinned)
    print(line, file=sys.stderr, flush=True)
    return line


def running(program, options=None):
    """The words that run a program here. With options it runs under Debian's emulator, which takes them."""
    if NATIVE and options is None:
        return [program]
    folder = kit()
    if not folder:
        raise Failure("the program is for x86-64: on this machine the kit's emulator runs it, and there is no kit (rt) on the PATH")
    words = [os.path.join(folder, "bin", "qemu-x86_64")] if options is None else [emulator(), *options]
    return words + [os.path.join(folder, "lib", "ld-linux-x86-64.so.2"), "--library-path", os.path.join(folder, "lib"), program]
