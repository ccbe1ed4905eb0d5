"""Steps of `.ci/library` that check the archives for other systems, and run them by emulation. See `steps` for what a step is."""
import glob
import os
import re
import tempfile

from archives import ELSEWHERE, LINUX, clang
from repository import content, kit
from steps import C, STRICT, Failure, Skipped, cargo, declared, expect, expect_recorded, need, run, scenario

# Headers of a C library, as far as nw.h and alloc.c need them.
HEADERS = {
    "stdbool.h": "#define bool _Bool\n#define true 1\n#define false 0\n",
    "stddef.h": "typedef __SIZE_TYPE__ size_t;\n#define NULL ((void *)0)\n",
    "stdint.h": "".join(f"typedef __{it}_TYPE__ {it.lower()}_t;\n" for it in ("INT32", "INT64", "UINT8", "UINT16", "UINT32", "UINT64")),
    "stdlib.h": "#include <stddef.h>\nvoid *malloc(size_t);\nvoid *realloc(void *, size_t);\nvoid free(void *);\n",
}
# A jump through the word number {0} of the table nw_places.
JUMPS = {
    "x86_64": "jmp *nw_places+8*{0}(%rip)",
    "aarch64": "adrp x16, nw_places+8*{0}\nldr x16, [x16, :lo12:nw_places+8*{0}]\nbr x16",
}


def archives(*targets):
    """The archives for these targets, those that were made and those that are shipped, each with its target."""
    return [(target, path) for target in targets for path in (target.made, target.shipped) if os.path.exists(path)]


def symbols():
    """each archive defines exactly the functions of nw.h, and needs only those of memory (`needs` of a target)"""
    for target, path in (found := archives(*LINUX.values(), *ELSEWHERE.values())):
        said = clang("-g", path, name="llvm-nm")
        expect(sorted(re.findall(r" [A-TV-Z] (\S+)$", said, re.M)), [target.prefix + it for it in declared()], f"the functions of {path}")
        if more := set(re.findall(r" U (\S+)$", said, re.M)) - set(target.needs):
            raise Failure(f"{path} also needs {', '.join(sorted(more))}")
    return len(found)


def uses_of_x18(path):
    """How many instructions of the archive for arm64 use the register x18."""
    said = clang("-d", "--no-show-raw-insn", path, name="llvm-objdump")
    return len(re.findall(r"^ +[0-9a-f]+:.*\b[xw]18\b", said, re.M))


def registers():
    """the archives for arm64 macOS do not use the register x18, which macOS keeps for itself, while the one for Linux does"""
    for _, path in archives(ELSEWHERE["aarch64-macos"]):
        expect(uses_of_x18(path), 0, f"the uses of x18 in {path}")
    if not uses_of_x18(LINUX["aarch64"].made):
        raise Failure("the archive for aarch64 Linux uses no x18, so this step does not find what it looks for")


def layouts():
    """for each target nw.h has the same structs as on x86-64 Linux, and alloc.c compiles"""
    with tempfile.TemporaryDirectory() as room:
        write_headers(room)
        found = {name: layout(target, room) for name, target in (LINUX | ELSEWHERE).items()}
    if len(found["x86_64"]) < 20:
        raise Failure(f"clang shows too few structs of nw.h: {found}")
    for name in found:
        expect(found[name], found["x86_64"], f"the structs of nw.h for {name}")
    return len(found)


def write_headers(room):
    for name, text in HEADERS.items():
        with open(f"{room}/{name}", "w") as file:
            file.write(text)


def layout(target, room):
    """The layouts of the structs of nw.h and nw_alloc.h for this target."""
    flags = ["--no-default-config", f"--target={target.triple}", "-std=c99", *STRICT, "-nostdinc", "-isystem", room, "-I", C]
    clang(*flags, "-c", f"{C}/alloc.c", "-o", f"{room}/alloc.o")
    shown = [word for flag in ("complete", "simple") for word in ("-Xclang", f"-fdump-record-layouts-{flag}")]
    said = clang(*flags, "-fsyntax-only", *shown, "-include", "nw.h", "-include", "nw_alloc.h", "-x", "c", "/dev/null")
    return re.findall(r"^Type: [^\n]*/(nw\w*\.h:\d+:\d+)\)\n+Layout: (.*?)>$", said, re.M | re.S)


def answers_as_here(compiler, linked, *before, **env):
    """Fails unless the programs of this compiler print what is expected, if it links these files. The words of `before` run a program."""
    need(compiler, *before)
    with tempfile.TemporaryDirectory() as room:
        for name, words in (("example", []), ("threads", ["1000"])):
            flags = ["-std=c99", "-O2", "-static", "-pthread", "-I", C]
            run([compiler, *flags, f"{C}/{name}.c", f"{C}/alloc.c", *linked, "-o", f"{room}/{name}.exe"])
            expect(run([*before, f"{room}/{name}.exe", *words], **env), content(f"bindings/c/{name}.prints"), f"the output of {name}")
        expect_recorded(scenario(room, compiler, "-static", *linked, before=before, **env))


def on_arm():
    """on aarch64, under qemu, the C example, threads and random calls answer as on x86-64, also if allocations fail"""
    answers_as_here("aarch64-linux-gnu-gcc", [LINUX["aarch64"].made], "qemu-aarch64")


def with_musl():
    """with musl, the C example, threads and random calls answer as with libc, also if allocations fail"""
    answers_as_here("musl-gcc", [LINUX["x86_64"].made])


def on_riscv():
    """on riscv64, under qemu, the C example, threads and random calls answer as on x86-64, also if allocations fail"""
    answers_as_here("riscv64-linux-gnu-gcc", [ELSEWHERE["riscv64-linux"].made], "qemu-riscv64")


def on_windows():
    """with the archive for Windows, under wine, the C example, threads and random calls answer as on Linux, also if allocations fail"""
    compiler, linked = "x86_64-w64-mingw32-gcc", [ELSEWHERE["x86_64-windows"].made]
    need(compiler, "wine")
    # Wine may still be writing to its folder at the end.
    with tempfile.TemporaryDirectory(ignore_cleanup_errors=True) as room:
        own = {"WINEPREFIX": room, "WINEDEBUG": "-all"}
        run(["wine", "wineboot", "--init"], **own)  # It prints what it makes.
        answers_as_here(compiler, linked, "wine", **own)


def mapped(name, compiler, *before):
    """Links the archive for macOS to a shared library, and lets programs of Linux call it."""
    target = ELSEWHERE[name]
    with tempfile.TemporaryDirectory() as room:
        flags = ["-arch", target.triple.partition("-")[0], "-platform_version", "macos", "11.0", "11.0", "-dylib", "-no_fixup_chains"]
        clang(*flags, "-undefined", "dynamic_lookup", "-all_load", target.made, "-o", f"{room}/libnw.dylib", name="ld64.lld")
        with open(f"{room}/jumps.S", "w") as file:
            file.write(jumps(target.machine))
        answers_as_here(compiler, [f"{C}/tests/macho.c", f"{room}/jumps.S"], *before, NW_DYLIB=f"{room}/libnw.dylib")


def jumps(machine):
    """The functions of nw.h, in the assembly of this machine: each jumps through the table that bindings/c/tests/macho.c fills."""
    names = declared()
    code = "".join(f".globl {name}\n{name}:\n{JUMPS[machine].format(number)}\n" for number, name in enumerate(names))
    table = f".globl nw_places, nw_count, nw_names\nnw_places: .zero {8 * len(names)}\nnw_count: .quad {len(names)}\nnw_names:\n"
    table += "".join(f".quad name_{name}\n" for name in names) + "".join(f'name_{name}: .asciz "{name}"\n' for name in names)
    return f'.text\n{code}.data\n.p2align 3\n{table}.section .note.GNU-stack,"",%progbits\n'


def installed_on_macos():
    """bindings/c/install makes a shared library for macOS, linked by LLVM's linker, which exports the functions of nw.h only"""
    target, programs = ELSEWHERE["aarch64-macos"], f"{kit()}/toolchain/bin/clang"
    with tempfile.TemporaryDirectory() as room:
        write_headers(room)
        os.symlink(programs, f"{room}/ld64.lld")
        cc = f'exec {programs} --no-default-config --target={target.triple} -nostdinc -isystem {room} -B {room} "$@"'
        cc += ' $(case "$*" in *dynamiclib*) echo -fuse-ld=lld -nostdlib -Wl,-undefined,dynamic_lookup ;; esac)'
        ar, uname = f'exec -a llvm-ar {programs} --format=darwin "$@"', "[ $1 = -s ] && echo Darwin || echo arm64"
        for name, line in (("ar", ar), ("cc", cc), ("uname", uname)):
            with open(f"{room}/{name}", "w") as file:
                file.write(f"#!/bin/bash\n{line}\n")
            os.chmod(f"{room}/{name}", 0o755)
        run([f"{C}/install", f"{room}/nw", target.made], PATH=f"{room}:{os.environ['PATH']}")
        library = f"{room}/nw/lib/libnw.dylib"
        said = clang("--defined-only", "--extern-only", library, name="llvm-nm")
        expect(sorted(re.findall(r" [A-TV-Z] _(\w+)$", said, re.M)), declared(), "the exports of the shared library")
        named = re.search(rf"^{room}/nw/lib/libnw\.\d+\.dylib$", clang("--macho", "--dylib-id", library, name="llvm-objdump"), re.M)
        if not named or not os.path.exists(named[0]):
            raise Failure(f"{library} has another install name")


def on_arm_macos():
    """with the archive for arm64 macOS, mapped into programs of Linux under qemu, the C programs answer as on x86-64 Linux"""
    mapped("aarch64-macos", "aarch64-linux-gnu-gcc", "qemu-aarch64")


def on_x86_macos():
    """with the archive for x86-64 macOS, mapped into programs of Linux, the C programs answer as on x86-64 Linux"""
    mapped("x86_64-macos", "cc")


def checked():
    """cargo check accepts the Rust crate for each other target whose std is installed"""
    need("cargo")
    names = re.findall(r'^    \("([\w-]+)", "prebuilt/', content("bindings/rust/build.rs"), re.M)
    installed = [name for name in names if glob.glob(f"{run(['rustc', '--print', 'target-libdir', '--target', name]).strip()}/libstd-*")]
    if len(installed) < 2:
        raise Skipped(f"of {', '.join(names)}, only {' '.join(installed)} has its std installed")
    for name in installed:
        cargo("check", "--quiet", "--target", name)
    return len(installed)
