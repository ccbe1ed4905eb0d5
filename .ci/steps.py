"""Steps that build and test the users of the C library: the player, C, Rust and Python. `.ci/library` runs them with the archives that it
builds from the proofs, and `./test` with the shipped ones. Nothing is downloaded.

A step returns how many tests passed, or `None` for one. It raises `Failure`, or `Skipped` if a tool that it needs is not installed. A step that
takes longer than 20 minutes, or than its attribute `minutes`, fails: a test of it may hang."""
import glob
import hashlib
import os
import re
import shutil
import signal
import subprocess
import sys
import tempfile
import time

from repository import ROOT, content, paths, recorded

SHIPPED = "bindings/rust/prebuilt"
# The name of this machine and system in that folder.
HERE = f"{os.uname().machine.replace('arm64', 'aarch64')}-{'macos' if os.uname().sysname == 'Darwin' else 'linux'}"
PLAYER = f"{SHIPPED}/x86_64-linux/nw"
OUT = f"{ROOT}/bindings/out"
C = f"{ROOT}/bindings/c"
QUICKSTART, RECORDED = "bindings/rust/examples/quickstart.prints", "bindings/c/scenario.sha256"
PLUGIN = """
#[unsafe(no_mangle)]
pub extern "C" fn plugin() -> usize {
    let committee = narwhal_store::Committee::equal(&[narwhal_store::PublicKey([1; 32])]).unwrap();
    narwhal_store::Store::new(&committee, narwhal_store::Limits::default()).unwrap().events()
}
"""
# Variables that change what a step runs: seeds, assertions of Python, the linked library, the tests that cargo picks, and the like.
WEAKENING = re.compile(r"SEEDS?$|(?:PYTHON(?!DONTWRITEBYTECODE|UNBUFFERED)|NW_|RUST_|CARGO_|LD_)|RUST(?:FLAGS|DOCFLAGS|C|DOC)|DIE_AT_SYNC$|LOST_PAGES$|DOCS_RS$")
HOME = "CARGO_HOME"
STRICT = ["-Wall", "-Wextra", "-pedantic", "-Werror"]
# The names of the steps and tests that were skipped.
LEFT_OUT = []
PATH = os.pathsep.join((os.environ["PATH"], os.path.expanduser("~/.cargo/bin")))


class Failure(Exception):
    pass


class Skipped(Exception):
    pass


class Step:
    """The present step: its minutes, and the second at which they end."""

    minutes = 20
    end = time.monotonic() + 60 * minutes

    @classmethod
    def begin(cls, step):
        cls.minutes = getattr(step, "minutes", 20)
        cls.end = time.monotonic() + 60 * cls.minutes


class Linked:
    """The library that the steps link: the shipped one, or that in a folder."""

    folder = None

    @classmethod
    def archive(cls):
        return f"{cls.folder}/libnw_c.a" if cls.folder else f"{ROOT}/{SHIPPED}/{HERE}/libnw.a"


def need(*tools):
    """Skips the step unless these programs are installed."""
    if missing := [tool for tool in tools if not shutil.which(tool, path=PATH)]:
        raise Skipped(f"{' and '.join(missing)} is not installed")


def need_linux():
    """Skips the step on other systems."""
    if not HERE.endswith("-linux"):
        raise Skipped("it is for Linux")


def run(words, folder=ROOT, is_shipped=False, executable=None, **more):
    """The output of a command, which links the chosen library, or else the shipped one. `more` is for its environment. Raises `Failure`
    unless its exit status is 0, or if it does not end within the time of its step. Then all processes of the command are killed."""
    env = {**os.environ, "PATH": PATH, "CARGO_NET_OFFLINE": "true", "CARGO_TERM_COLOR": "never", **more}
    if Linked.folder and not is_shipped:
        env["NW_LIB_DIR"] = Linked.folder
    how = {"cwd": folder, "env": env, "executable": executable, "stdin": subprocess.DEVNULL, "text": True, "start_new_session": True}
    with subprocess.Popen(words, stdout=subprocess.PIPE, stderr=subprocess.STDOUT, **how) as ran:
        try:
            said = ran.communicate(timeout=max(0, Step.end - time.monotonic()))[0]
        except BaseException as why:
            os.killpg(ran.pid, signal.SIGKILL)
            if not isinstance(why, subprocess.TimeoutExpired):
                raise
            said = ran.communicate()[0]
            raise Failure(f"its {Step.minutes} minutes ended during {' '.join(words)}\n{said}") from None
    if ran.returncode:
        raise Failure(f"status {ran.returncode} of {' '.join(words)}\n{said}")
    return said


def expect(found, expected, what):
    if found != expected:
        raise Failure(f"{what}\n-- found\n{found}\n-- expected\n{expected}")


def declared():
    """The functions that nw.h declares, without those that it defines."""
    return sorted(set(re.findall(r"^(?:NW_USE )?(?:int32_t|void) (\w+)\(", content("bindings/c/nw.h"), re.M)))


def exports(path, *flags):
    """The global symbols that the archive defines. With the flag -D, those that the shared object exports."""
    return set(re.findall(r" [A-TV-Z] (\w+)$", run(["nm", "-g", *flags, path]), re.M))


def cargo(*words, **how):
    need("cargo", "cc")
    return run(["cargo", *words], f"{ROOT}/bindings/rust", **how)


def player():
    """the shipped player plays the worked scripts as written, and draws the picture of the documents"""
    if HERE != "x86_64-linux":
        raise Skipped(f"no player is shipped for {HERE}")
    said = run([sys.executable, ".ci/scripts", "--program", PLAYER])
    return int(re.search(r"^scripts: (\d+) played as written$", said, re.M)[1])


def languages():
    """nw.h and nw_alloc.h compile as C and as C++"""
    need("cc", "c++")
    for name in ("nw.h", "nw_alloc.h"):
        run(["cc", "-std=c99", *STRICT, "-fsyntax-only", "-x", "c", f"{C}/{name}"])
        run(["c++", "-std=c++11", *STRICT, "-fsyntax-only", "-x", "c++", f"{C}/{name}"])


def c_example():
    """the C example prints its expected output"""
    need("cc")
    run(["cc", "-std=c99", "-O2", "-g", *STRICT, f"{C}/example.c", f"{C}/alloc.c", Linked.archive(), "-o", f"{OUT}/example"])
    expect(run([f"{OUT}/example"]), content("bindings/c/example.prints"), "the output")


def threads():
    """four threads in C share a store, which one of them restarts, and their sessions settle"""
    need("cc")
    run(["cc", "-std=c99", "-pthread", "-O2", "-g", *STRICT, f"{C}/threads.c", f"{C}/alloc.c", Linked.archive(), "-o", f"{OUT}/threads"])
    for calls in ("10", "1000", "16000"):
        expect(run([f"{OUT}/threads", calls]), content("bindings/c/threads.prints"), f"the output with {calls} calls")


def recorded_calls():
    """random calls of the C library print what was recorded, also if allocations fail"""
    need("cc")
    expect_recorded(scenario(OUT, "cc", Linked.archive()))


def scenario(room, compiler, *linked, before=(), **env):
    """What bindings/c/scenario.c prints if this compiler links these files. The words of `before` run the program."""
    run([compiler, "-std=c99", "-O2", "-I", C, f"{C}/scenario.c", *linked, "-o", f"{room}/scenario.exe"])
    return run(["sh", "-c", f"{' '.join([*before, './scenario.exe'])} 12000 1000 <{ROOT}/bindings/rust/examples/data/corpus.txt"], room, **env)


def expect_recorded(said):
    """Fails unless the scenario printed what was recorded, with enough steps and failures."""
    taken, failures = len(re.findall(r"^call \d+ 0 ", said, re.M)), re.search(r"^(\d+) allocations failed$", said, re.M)
    if taken < 10000 or not failures or int(failures[1]) < 100:
        raise Failure(f"{taken} calls of the scenario were taken only, or fewer than 100 of its allocations failed")
    expect(hashlib.sha256(said.encode()).hexdigest() + "\n", content(RECORDED), f"the SHA-256 of the scenario's output, in {RECORDED}")


def around_the_archive():
    """alloc.c, the prototypes of nw.h and bindings/c/install do what they say"""
    need("cc", "c++", "readelf")
    run([f"{C}/tests/check", Linked.archive()])


def under_valgrind():
    """valgrind finds no leak and no invalid access in the C example and in the threads"""
    need("cc", "valgrind")
    for words in (["example"], ["threads", "100"]):
        run(["valgrind", "-q", "--leak-check=full", "--show-leak-kinds=all", "--error-exitcode=9", f"{OUT}/{words[0]}", *words[1:]])


def installed():
    """the installed C library is found by pkg-config, and the C example runs with its archive and its shared object"""
    need_linux()
    need("cc", "ar", "pkg-config")
    with tempfile.TemporaryDirectory() as room:
        run([f"{C}/install", room, Linked.archive()])
        flags = run(["env", f"PKG_CONFIG_PATH={room}/lib/pkgconfig", "pkg-config", "--cflags", "--libs", "nw"]).split()
        shutil.copy(f"{C}/example.c", room)
        run(["cc", "-std=c99", "example.c", *flags, "-o", "shared"], room)
        run(["cc", "-std=c99", "example.c", *flags[:-1], "-l:libnw.a", "-o", "static"], room)
        for name in ("shared", "static"):
            expect(run(["env", f"LD_LIBRARY_PATH={room}/lib", f"{room}/{name}"]), content("bindings/c/example.prints"), f"the output of {name}")
        expect(sorted(exports(f"{room}/lib/libnw.so", "-D")), declared(), "the exports of the shared object")


def formatted():
    """cargo fmt finds nothing to change"""
    cargo("fmt", "--all", "--check")


def linted():
    """cargo clippy finds nothing"""
    cargo("clippy", "--workspace", "--all-targets", "--quiet", "--", "-D", "warnings")


def counted(said):
    """How many tests of each program of cargo test passed. Raises `Failure` if one failed or was left out."""
    found = re.findall(r"^ +(?:Running (?:unittests )?(\S+) \(|Doc-tests (\S+))|^test result: (ok|FAILED)\. (\d+) passed; \d+ failed; (\d+) ignored; \d+ measured; (\d+)", said, re.M)
    name, passed = None, {}
    for program, documented, result, count, ignored, filtered in found:
        if not result:
            name = program or documented
        elif (result, ignored, filtered) != ("ok", "0", "0"):
            raise Failure(f"{name} leaves tests out\n{said}")
        else:
            passed[name] = passed.get(name, 0) + int(count)
    return passed


def tested_as(passed, wanted):
    """How many tests passed. Raises `Failure` if they are fewer than these numbers of .ci/counts, or of other programs."""
    for name, least in wanted.items():
        if passed.get(name, 0) < least:
            raise Failure(f"{passed.get(name, 0)} tests of {name} passed, and .ci/counts has {least}: {passed}")
    if unknown := passed.keys() - wanted.keys():
        raise Failure(f".ci/counts does not have the tests of {', '.join(sorted(unknown))}: {passed}")
    return sum(passed.values())


def tested():
    """the Rust crate's tests, its doc tests and 200 seeds of its simulator pass, and none is missing"""
    if not shutil.which("chromium"):
        LEFT_OUT.append("the_page_draws_the_blocks (chromium is not installed)")
    return tested_as(counted(cargo("test", "--release")), recorded("cargo"))


tested.minutes = 60


def tested_fast():
    """the Rust crate's short tests pass, and none is missing"""
    wanted = {name: least for name, least in recorded("cargo").items() if re.match(r"src/|tests/(?:archive|layer|readme)\.", name)}
    names = [word for name in wanted if name.startswith("tests/") for word in ("--test", name[6:-3])]
    return tested_as(counted(cargo("test", "--release", "--lib", *names)), wanted)


def watched():
    """in a debug build of the Rust crate no handle is used by two calls at once, and locks are taken in one order"""
    cargo("test", "--quiet", "--config", "profile.test.opt-level=0", "--lib", "--test", "hammer", "--test", "layer", "--test", "shared")


def plugin():
    """a shared object that links the Rust crate exports only its own function"""
    need_linux()
    built = cargo("build", "--release", "--quiet", "--message-format=json")
    crate = re.search(r'"([^"]*/libnarwhal_store\.rlib)"', built)[1]
    with open(f"{OUT}/plugin.rs", "w") as file:
        file.write(PLUGIN)
    source, made = f"{OUT}/plugin.rs", f"{OUT}/plugin.so"
    run(["rustc", "--edition=2024", "-O", "--crate-type=cdylib", "--extern", f"narwhal_store={crate}", source, "-o", made])
    expect(exports(made, "-D"), {"plugin"}, "the exports")


def example(name, *words, **how):
    return cargo("run", "--release", "--quiet", "--example", name, *words, **how)


def examples():
    """the Rust crate's examples print their expected output"""
    for path in paths("bindings/rust/examples/*.prints"):
        name = os.path.basename(path).removesuffix(".prints")
        expect(example(name), content(path), f"the output of {name}")


def quickstart():
    """the quickstart prints its expected output"""
    expect(example("quickstart"), content(QUICKSTART), "the output")


def packaged():
    """the package of the Rust crate has less than 2 MB and builds outside the repository, and its quickstart prints its expected output"""
    with tempfile.TemporaryDirectory() as room:
        # The folder that cargo builds to check the package is in its target folder.
        cargo("package", "--allow-dirty", "--target-dir", f"{room}/target", is_shipped=True)
        [package] = glob.glob(f"{room}/target/package/*.crate")
        if os.path.getsize(package) >= 2_000_000:
            raise Failure(f"the package has {os.path.getsize(package)} bytes")
        shutil.unpack_archive(package, room, "gztar")
        [folder] = glob.glob(f"{room}/narwhal-store-*")
        if unwanted := glob.glob(f"{folder}/prebuilt/*/nw*"):
            raise Failure(f"the package has the player: {unwanted}")
        said = run(["cargo", "run", "--release", "--quiet", "--example", "quickstart"], folder, is_shipped=True)
    expect(said, content(QUICKSTART), "the output")


def durable():
    """a validator that is killed, loses power or a copy of its log never votes twice for a slot, and does if it forgets or syncs late"""
    said = example("durable")
    sent = re.search(r"^(\d+) votes sent for (\d+) slots$", said, re.M)
    if not sent or int(sent[1]) < 500 or int(sent[2]) < 100:
        raise Failure(f"durable sent too few votes\n{said}")
    if not re.search(r", [1-9]\d* power failures", said):
        raise Failure(said)
    for mode in ("forget", "late-sync", "old-replay", "one-copy", "old-copies"):
        try:
            said = example("durable", "--", mode)
        except Failure as why:
            said = str(why)
        if "a slot got two votes" not in said:
            raise Failure(f"the counter-check {mode} of durable did not fail as it must\n{said}")


def python():
    """nw.py gives its expected answers"""
    need("cc")
    run(["bindings/python/make"])
    run([sys.executable, "-E", "try.py"], f"{ROOT}/bindings/python")


def run_all(name, steps):
    """Runs the steps. Prints a line for each, and its output if it fails. The last line is `NAME: N passed, M failed`, and it names the
    skipped steps. Returns the exit status."""
    os.makedirs(OUT, exist_ok=True)
    for variable in os.environ.keys() - {HOME}:
        if WEAKENING.match(variable):
            del os.environ[variable]
    passed, failed = 0, 0
    for step in steps:
        Step.begin(step)
        try:
            count = step()
            passed += 1 if count is None else count
            print(f"passed: {step.__doc__}{'' if count is None else f': {count} tests'}", flush=True)
        except Skipped as why:
            LEFT_OUT.append(f"{step.__name__} ({why})")
            print(f"skipped: {step.__doc__}: {why}", flush=True)
        except (Failure, OSError) as why:
            failed += 1
            print(f"FAILED: {step.__doc__}: {why}", flush=True)
    left_out = f"; skipped: {', '.join(LEFT_OUT)}" if LEFT_OUT else ""
    print(f"{name}: {passed} passed, {failed} failed{left_out}")
    return 0 if passed and not failed else 1
