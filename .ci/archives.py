"""The archives of crates/nw_c: how each is made from the proofs.

`build` lets the toolchain make an archive for Linux, with a clang that also keeps the LLVM module that the toolchain made of the proofs.
`make` edits the text of this module, and compiles it for other targets with the same clang and the same words. Nothing is proved again.
First it compiles the module for Linux in the same way, and raises `Failure` unless the bytes are those that the toolchain made."""
import os
import re
import shutil
import tempfile

from repository import ROOT, kit, rattle
from steps import C, SHIPPED, Failure, run

PROVED = f"{ROOT}/crates/nw_c/out"
# The folder of the archive and of the module for each machine.
FOLDERS = {"x86_64": PROVED, "aarch64": f"{PROVED}/aarch64"}
# A clang that keeps the words and the input of its last run. It must have clang's name, since clang looks for libraries beside itself.
WATCHED = """#!/bin/bash
for word; do case $word in *.bc | *.ll) [ ! -f "$word" ] || cp "$word" {room}/module ;; esac; done
printf '%s\\n' "$@" >{room}/words
exec -a "$0" {clang} "$@"
"""
# What an archive may need from the program that links it.
NEEDED = ["memcpy", "memmove", "memset", "nw_mem_alloc", "nw_mem_dealloc", "nw_mem_realloc"]
# What macOS also has for memory of zeros.
ZEROS = {"aarch64": "bzero", "x86_64": "__bzero"}


def own_target(text, target):
    """The target, with its own layout of data."""
    return replaced(r"^target datalayout = .*\ntarget triple = .*$", f'target triple = "{target.triple}"', text, 1)


def own_allocator(text, _):
    """The allocation functions have the names of nw_alloc.h, as bindings/c/rename gives them."""
    text = replaced(r"^(declare .*)@rattle_((?:re|de)?alloc)\(", r"\1@nw_mem_\2(", text, 3)
    return replaced(r"@rattle_((?:re|de)?alloc)\b", r"@nw_mem_\1", text)


def own_processor(text, _):
    """The processor is one of the target."""
    return replaced('"target-cpu"="x86-64-v2"', '"target-cpu"="generic-rv64"', text)


def extended_results(text, _):
    """The result of an export has 32 bits, and fills its register with its sign, as callers expect on RISC-V."""
    return replaced(r"^(define (?!internal|private).*?)\bi32 @nw_", r"\1signext i32 @nw_", text)


def results_in_memory(text, _):
    """The allocation functions return their struct of 16 bytes in memory, as on Windows."""
    for it in ("nw_mem_alloc", "nw_mem_realloc"):
        [found] = re.finditer(rf"^declare .*?(\{{[^}}]*\}}) @{it}\(([^)]*)\).*$", text, re.M)
        struct, kinds = found[1], [word.split()[0] for word in found[2].split(", ")]
        given = ", ".join(f"{kind} %a{number}" for number, kind in enumerate(kinds))
        text = re.sub(rf"^uselistorder ptr @{it}, .*\n", "", text, flags=re.M)
        text = text.replace(found[0], "").replace(f"@{it}(", f"@{it}_in_memory(")
        text += f"""
define internal {struct} @{it}_in_memory({given}) nounwind {{
  %room = alloca {struct}, align 8
  call void @{it}(ptr sret({struct}) align 8 %room, {given})
  %result = load {struct}, ptr %room, align 8
  ret {struct} %result
}}
declare void @{it}(ptr sret({struct}) align 8, {", ".join(kinds)}) nounwind
"""
    return text


def replaced(old, new, text, times=None):
    """The text with this pattern replaced. Raises `Failure` unless it occurs, and as many times as given."""
    text, count = re.subn(old, new, text, flags=re.M)
    if not count or times not in (None, count):
        raise Failure(f"{old} occurs {count} times in the module")
    return text


class Target:
    """What an archive is compiled for: the machine whose module it is made from, clang's name of the target, clang's words for it, the
    format of the archive, the edits of the module's text, and what C puts before a name."""

    def __init__(self, name, machine, triple, words, form="gnu", edits=()):
        self.machine, self.triple, self.words, self.form = machine, triple, words, form
        self.edits, self.prefix = (own_target, own_allocator, *edits), "_" if form == "darwin" else ""
        self.made, self.shipped = f"{PROVED}/{name}/libnw_c.a", f"{ROOT}/{SHIPPED}/{name}/libnw.a"
        self.needs = [self.prefix + it for it in (*NEEDED, *([ZEROS[machine]] if self.prefix else []))]


# The archives that the toolchain makes.
LINUX = {
    "x86_64": Target("x86_64-linux", "x86_64", "x86_64-unknown-linux-gnu", ["-march=x86-64", "-fPIC"]),
    "aarch64": Target("aarch64-linux", "aarch64", "aarch64-unknown-linux-gnu", ["-march=armv8-a", "-fPIC"]),
}
for _machine, _folder in FOLDERS.items():
    LINUX[_machine].made = f"{_folder}/libnw_c.a"
# The archives that are compiled from the same modules.
ELSEWHERE = {
    "aarch64-macos": Target("aarch64-macos", "aarch64", "arm64-apple-macosx11.0.0", ["-fPIC"], "darwin"),
    "x86_64-macos": Target("x86_64-macos", "x86_64", "x86_64-apple-macosx10.12.0", ["-march=x86-64", "-fPIC"], "darwin"),
    "x86_64-windows": Target("x86_64-windows", "x86_64", "x86_64-pc-windows-gnu", ["-march=x86-64"], "coff", [results_in_memory]),
    "riscv64-linux": Target(
        "riscv64-linux", "x86_64", "riscv64-unknown-linux-gnu", ["-march=rv64gc", "-mabi=lp64d", "-mno-relax", "-fPIC"],
        edits=[own_processor, extended_results],
    ),
}  # fmt: skip


def bytes_of(path):
    with open(path, "rb") as file:
        return file.read()


def clang(*words, name="clang", folder=ROOT):
    """The output of the toolchain's clang, or of another program of LLVM that is in the same file."""
    path = f"{kit()}/toolchain/bin/clang"
    return run([path if name == "clang" else name, *words], folder, executable=path)


def compiler():
    """The name and version of the toolchain's clang."""
    return "clang-" + re.search(r"clang version (\S+)", clang("--version"))[1]


def build(machine):
    """Lets the toolchain make the archive for this machine from the proofs. Keeps the module that clang compiled, and clang's words."""
    folder, tools = FOLDERS[machine], f"{kit()}/toolchain"
    os.makedirs(folder, exist_ok=True)
    # What `rt lib` proved need not be proved again.
    if os.path.isdir(f"{PROVED}/incremental") and not os.path.isdir(f"{PROVED}/proved"):
        shutil.copytree(f"{PROVED}/incremental", f"{PROVED}/proved")
    with tempfile.TemporaryDirectory() as room:
        os.mkdir(f"{room}/bin")
        for name, path in (("lib", "lib"), ("bin/ld.lld", "bin/clang"), ("bin/llvm-ar", "bin/clang")):
            os.symlink(f"{tools}/{path}", f"{room}/{name}")
        with open(f"{room}/bin/clang", "w") as file:
            file.write(WATCHED.format(room=room, clang=f"{tools}/bin/clang"))
        os.chmod(f"{room}/bin/clang", 0o755)
        words = rattle("build", "nw_c", "--jobs", "2", "--target", LINUX[machine].triple, "-o", f"{folder}/libnw_c.a")
        words[words.index("--toolchain") + 1] = room
        run(words, f"{ROOT}/crates/nw_c")
        for name in ("module", "words"):
            shutil.copyfile(f"{room}/{name}", f"{folder}/{name}")
    run([f"{C}/rename", f"{folder}/libnw_c.a"])


def text_of(machine, room):
    """The text of the kept module for this machine. It has no numbers with fractions, so it needs no conventions for them."""
    path = f"{FOLDERS[machine]}/module"
    if bytes_of(path).startswith(b"BC"):
        flags = ["-S", "-emit-llvm", "-Xclang", "-emit-llvm-uselists", "-Xclang", "-disable-llvm-passes", "-O3"]
        clang("--no-default-config", "-x", "ir", path, *flags, "-o", f"{room}/printed.ll")
        path = f"{room}/printed.ll"
    # Clang prints these lines, and does not read them.
    text = re.sub(r"^uselistorder ptr asm .*\n", "", bytes_of(path).decode(), flags=re.M)
    if re.search(r"\b(half|float|double|fp128)\b", re.sub(r'c?"[^"]*"', "", text)):
        raise Failure(f"the module for {machine} has numbers with fractions")
    return text


def compiled(target, text, room):
    """The archive for the target. LLVM verifies its machine code."""
    for edit in target.edits:
        text = edit(text, target)
    with open(f"{room}/nw.ll", "w") as file:
        file.write(text)
    with open(f"{FOLDERS[target.machine]}/words") as file:
        words = [word for word in file.read().splitlines() if not re.match(r"--(target|sysroot)=|-march=|-fPIC$", word)]
    words[words.index("ir") + 1], words[words.index("-o") + 1] = "nw.ll", "nw_c.o"
    own = [f"--target={target.triple}", f"--sysroot={kit()}/toolchain", *target.words, "-mllvm", "-verify-machineinstrs"]
    clang(*own, *words, folder=room)
    if os.path.exists(f"{room}/libnw_c.a"):
        os.remove(f"{room}/libnw_c.a")
    clang(f"--format={target.form}", "rcsD", "libnw_c.a", "nw_c.o", name="llvm-ar", folder=room)
    return bytes_of(f"{room}/libnw_c.a")


def make(machine, names):
    """Makes the archives for these targets of `ELSEWHERE`, whose module is the kept one for this machine."""
    with tempfile.TemporaryDirectory() as room:
        text = text_of(machine, room)
        if compiled(LINUX[machine], text, room) != bytes_of(LINUX[machine].made):
            raise Failure(f"the kept module for {machine} does not make the archive that the toolchain made")
        for target in map(ELSEWHERE.get, names):
            os.makedirs(os.path.dirname(target.made), exist_ok=True)
            with open(target.made, "wb") as file:
                file.write(compiled(target, text, room))


def by_machine(names):
    """These targets of `ELSEWHERE`, for each machine whose module they are made from."""
    return {machine: found for machine in LINUX if (found := [name for name in names if ELSEWHERE[name].machine == machine])}
