#!/usr/bin/env python3
"""Makes what the page in docs/page has of the repository; without --write, compares that with what is there, byte for byte.

usage: tools/page.py [--write | --selftest]

- macmem.wasm is the library macmem_c as a WebAssembly module. `rattle build` proves the library and gives clang an LLVM module for x86-64.
  That module is kept, put to wasm64, compiled as Rattle compiles for wasm64, and linked with a heap (tools/page_heap.c). Of the library's
  functions the module has those that docs/page/macmem.js names.
- macmem-wasm.js has the same bytes in base64, for a page that is opened from a disk, where a page may read no files.
- examples.js has the scripts and forks of examples.

What is not known to mean the same on wasm64 is refused: functions of a processor, assembler, what C passes in memory. `rt ci` leaves the built
libraries that this needs. With --selftest lines of modules are tried, of which some are to be refused. The last line is 'N passed, M failed', of files or lines.
"""
import base64
import json
import os
import re
import shutil
import subprocess
import sys
import tempfile

TOP = os.path.dirname(os.path.dirname(os.path.abspath(__file__)))
LIBRARY, PAGE, EXAMPLES = "macmem_c", f"{TOP}/docs/page", f"{TOP}/examples"
HEAP = f"{TOP}/tools/page_heap.c"
FORKS = ["Document.rsrc", "Note.bin", "OtherForm.rsrc"]

TARGET = ["--target=wasm64-unknown-unknown", "-mcpu=lime1", "--no-default-config", "-fno-crash-diagnostics", "-ffunction-sections", "-fdata-sections"]
# With these `rattle build` compiles for wasm64 itself.
AS_RATTLE = ["-Werror", "-O3", *(word for flag in ("expand-div-rem-bits=64", "expand-fp-convert-bits=64", "trap-unreachable", "disable-machine-licm",
                                                    "disable-postra-machine-licm", "sink-common-insts=false") for word in ("-mllvm", f"-{flag}"))]
LAYOUT = "e-m:e-p:64:64-p10:8:8-p20:8:8-i64:64-i128:128-n32:64-S128-ni:1:10:20"

# What a module may call: LLVM's own functions that mean the same on each processor, and the heap.
KNOWN = re.compile(r"llvm\.(memset|memmove|memcpy|memcmp|trap|cttz|ctlz|ctpop|bswap|assume|lifetime\.\w+|[su](add|sub|mul)\.(with\.overflow|sat)|[su](min|max)"
                   r"|fshl|fshr|arithmetic\.fence|expect|abs)(\.\w+)*|rattle_(alloc|realloc|dealloc)|memcmp|memcpy|memmove|memset")
# What has another meaning on another processor, or none.
STRANGE = re.compile(r"\b(asm (sideeffect |alignstack |inteldialect |unwind )*\"|module asm|ifunc|va_arg|sret\(|byval\(|inalloca\(|thread_local|x86_(?:fp80|mmx|amx)|addrspace\()")
FOR_X86 = re.compile(r' ?("(probe-stack|stack-probe-size|target-cpu|target-features|tune-cpu|frame-pointer)"="[^"]*"|sanitize_address)')
EXPORT = re.compile(r'^define (?!internal |private )([^@\n]*)@(\w+)\((.*)\) (#\d+ )?\{$', re.M)

BAD = ["declare i32 @llvm.x86.sse42.crc32.32.8(i32, i8)", "declare <4 x i32> @llvm.aarch64.neon.addp.v4i32(<4 x i32>, <4 x i32>)", "declare i32 @open(ptr, i32)",
       'call void asm sideeffect "nop", ""()', 'module asm "nop"', "define void @f(ptr sret(%S) %a0) {", "define void @f(ptr byval(%S) %a0) {",
       "%1 = va_arg ptr %0, i32", "@0 = thread_local global i32 0", "%1 = fadd x86_fp80 %0, %0", "%1 = load i8, ptr addrspace(1) %0"]
GOOD = ["declare void @llvm.memset.p0.i64(ptr, i8, i64, i1 immarg) #3", "declare i64 @llvm.cttz.i64(i64, i1 immarg) #6", "declare { i64, i64 } @rattle_alloc(i64, i64)",
        "declare { i32, i1 } @llvm.uadd.with.overflow.i32(i32, i32)", 'attributes #0 = { nounwind "probe-stack"="inline-asm" }',
        'target triple = "x86_64-unknown-linux-gnu"', '@0 = private constant [3 x i8] c"asm"']

WRAPPER = """
define {result}@{name}({parameters}) "wasm-export-name"="{name}" nounwind {{
  %trapped = call zeroext i1 @__rattle_enter()
  br i1 %trapped, label %refused, label %entered
refused:
  call void @__rattle_trap()
  unreachable
entered:
  {gets}call {kind} @"of {name}"({passed})
  call void @__rattle_leave()
  ret {kind} {gives}
}}
"""
LATCH = """
declare zeroext i1 @__rattle_enter() nounwind
declare void @__rattle_leave() nounwind
declare void @__rattle_trap() nounwind
"""


def stop(why):
    sys.exit(f"tools/page.py: {why}")


def run(*words, **more):
    done = subprocess.run(words, stdout=subprocess.PIPE, stderr=subprocess.STDOUT, text=True, **more)
    if done.returncode:
        stop(f"{words[0]} failed:\n{done.stdout}")


def lines_of_crates():
    """The libraries that each crate's line names."""
    with open(f"{TOP}/crates.txt", encoding="utf-8") as it:
        lines = [line.partition("#")[0].partition(":") for line in it]
    return {head.split()[0]: uses.split() for head, _, uses in lines if head.strip()}


def libraries(kit):
    """The words that name each library that macmem_c stands on, as it was built."""
    uses, below = lines_of_crates(), [LIBRARY]
    words = [f"--extern=std={kit}/rlibs/std.rlib", "-L", f"dependency={kit}/rlibs"]
    for name in below:
        below += [it for it in uses[name] if it in uses and it not in below]
    built = {it: f"{TOP}/crates/{it}/out/rlib" for it in below[1:]}
    for it in uses[LIBRARY]:
        words += ["--extern", f"{it}={built.get(it, kit + '/rlibs')}/{it}.rlib"]
    for it in built.values():
        words += ["-L", f"dependency={it}"]
    return words


def x86_module(kit, room):
    """Proves and builds the library; returns the module that clang is given."""
    os.makedirs(f"{room}/tools/bin")
    os.symlink(f"{kit}/toolchain/lib", f"{room}/tools/lib")
    for name in os.listdir(f"{kit}/toolchain/bin"):
        keep = f'for x in "$@"; do case "$x" in *.bc) cp "$x" {room}/module.bc ;; esac; done\n' if name == "clang" else ""
        with open(f"{room}/tools/bin/{name}", "w", encoding="utf-8") as it:
            it.write(f'#!/usr/bin/env bash\n{keep}exec {kit}/toolchain/bin/{name} "$@"\n')
        os.chmod(f"{room}/tools/bin/{name}", 0o755)
    folder = f"{TOP}/crates/{LIBRARY}"
    os.makedirs(f"{folder}/out/incremental", exist_ok=True)
    run(f"{kit}/bin/rattle", "build", "--crate-name", LIBRARY, "src/lib.rt", *libraries(kit), "--antt-project", f"{kit}/rattle/logic/antt-project.json",
        "--logic-built", f"{kit}/logic_built", "--jobs", os.environ.get("RT_JOBS", "1"), "--links", f"{LIBRARY}=", "--crate-type", "staticlib",
        "--toolchain", f"{room}/tools", "--backend", "llvm", "--incremental", "out/incremental", "-o", f"{room}/library.a", cwd=folder)
    return f"{room}/module.bc"


def exports():
    """The functions of the library that the page calls."""
    with open(f"{PAGE}/macmem.js", encoding="utf-8") as it:
        return set(re.findall(r"'(macmem_\w+)'", it.read()))


def exported(found, wanted):
    """The head of a function that C could call, as one of the module alone; and the export that calls it, if the page does."""
    result, name, parameters, group = found.groups()
    if name not in wanted:
        return f"define internal {found[0][len('define '):]}", ""
    wanted.remove(name)
    kind = result.split()[-1]
    passed = ", ".join(f"{it.split()[0]} {it.split()[-1]}" for it in parameters.split(", ") if it)
    gets, gives = ("", "") if kind == "void" else ("%given = ", "%given")
    wrapper = WRAPPER.format(result=result, name=name, parameters=parameters, gets=gets, kind=kind, passed=passed, gives=gives)
    return f'define internal {result}@"of {name}"({parameters}) noinline {group or ""}{{', wrapper


def unknown_in(text):
    """What a module has that isn't known to mean the same on wasm64."""
    strange = {found[1] for found in STRANGE.finditer(text)}
    called = set(re.findall(r"^declare [^@\n]*@([\w.]+)\(", text, re.M))
    return sorted(strange) + sorted(name for name in called if not KNOWN.fullmatch(name))


def put_to_wasm64(text):
    """A module in LLVM's text for x86-64, for wasm64. As in a module of Rattle's own, an export refuses to run after a call that trapped."""
    unknown = unknown_in(text)
    if unknown:
        stop(f"not known on wasm64: {' '.join(unknown)}")
    text, layouts = re.subn(r'^target datalayout = ".*"$', f'target datalayout = "{LAYOUT}"', text, flags=re.M)
    text, triples = re.subn(r'^target triple = ".*"$', 'target triple = "wasm64-unknown-unknown"', text, flags=re.M)
    if (layouts, triples) != (1, 1):
        stop("the module names no layout and processor")
    text = re.sub(r"^(attributes #\d+ = )\{ *\}$", r"\1{ nounwind }", FOR_X86.sub("", text), flags=re.M)
    wanted, wrappers = exports(), []

    def head(found):
        line, wrapper = exported(found, wanted)
        wrappers.append(wrapper)
        return line

    text = EXPORT.sub(head, text)
    if wanted:
        stop(f"the library has no {' '.join(sorted(wanted))}")
    return text + "".join(wrappers) + LATCH


def module(kit, room, bitcode):
    """The WebAssembly module of a module for x86-64."""
    clang = f"{kit}/toolchain/bin/clang"
    run(clang, "--no-default-config", "-S", "-emit-llvm", "-Xclang", "-disable-llvm-passes", "-x", "ir", bitcode, "-o", f"{room}/x86.ll")
    with open(f"{room}/x86.ll", encoding="utf-8") as it:
        text = put_to_wasm64(it.read())
    with open(f"{room}/wasm.ll", "w", encoding="utf-8") as it:
        it.write(text)
    run(clang, *TARGET, *AS_RATTLE, "-c", "-x", "ir", f"{room}/wasm.ll", "-o", f"{room}/module.o")
    run(clang, *TARGET, "-ffreestanding", "-nostdinc", "-O2", "-Wall", "-Wextra", "-Werror", "-c", HEAP, "-o", f"{room}/heap.o")
    run(f"{kit}/toolchain/bin/llvm-ar", "rcs", "--format=gnu", f"{room}/all.a", f"{room}/module.o", f"{room}/heap.o")
    run(f"{kit}/bin/rattle-link", "--target", "wasm64-unknown-unknown", "--toolchain", f"{kit}/toolchain", "-o", f"{room}/module.wasm", f"{room}/all.a")
    with open(f"{room}/module.wasm", "rb") as it:
        return it.read()


def examples():
    """The examples as the page has them: scripts, each with the size that its first line names, and forks."""
    scripts = []
    for name in sorted(it for it in os.listdir(EXAMPLES) if it.endswith(".script")):
        with open(f"{EXAMPLES}/{name}", encoding="utf-8") as it:
            text = it.read()
        size = re.match(r"# In (\d+) bytes", text)
        scripts.append({"name": name, "size": int(size[1]) if size else 1024, "text": text})
    forks = []
    for name in FORKS:
        with open(f"{EXAMPLES}/{name}", "rb") as it:
            forks.append({"name": name, "base64": base64.b64encode(it.read()).decode()})
    return {"scripts": scripts, "forks": forks}


def made(wasm):
    """Each file that is made, with its bytes."""
    text = base64.b64encode(wasm).decode()
    return {
        "macmem.wasm": wasm,
        "macmem-wasm.js": f"// macmem.wasm in base64; tools/page.py writes this file.\nconst MACMEM_WASM = '{text}';\n".encode(),
        "examples.js": f"// The examples; tools/page.py writes this file.\nconst EXAMPLES = {json.dumps(examples(), indent=1)};\n".encode(),
    }


def kept(name):
    """A file of the page as it is there, if it is."""
    try:
        with open(f"{PAGE}/{name}", "rb") as it:
            return it.read()
    except FileNotFoundError:
        return None


def settle(files, writes):
    """Writes the files, or compares them."""
    failed = 0
    for name, data in files.items():
        if writes:
            with open(f"{PAGE}/{name}", "wb") as it:
                it.write(data)
        elif kept(name) != data:
            failed += 1
            print(f"docs/page/{name} is not what tools/page.py makes")
    print(f"{len(files) - failed} passed, {failed} failed")
    return 1 if failed else 0


def selftest():
    """Tries lines that are to be refused, and lines that aren't."""
    refused = [text for text in BAD if unknown_in(text)]
    taken = [text for text in GOOD if not unknown_in(text)]
    wrong = sorted({*BAD} - {*refused} | {*GOOD} - {*taken})
    for text in wrong:
        print(f"judged wrongly: {text}")
    print(f"{len(refused) + len(taken)} passed, {len(wrong)} failed")
    return 1 if wrong else 0


def main(words):
    if words == ["--selftest"]:
        return selftest()
    if words not in ([], ["--write"]):
        sys.exit(__doc__.strip())
    rt = shutil.which("rt")
    if not rt:
        print("skipped: there is no rt on the path")
        return 0
    kit = os.path.dirname(os.path.dirname(os.path.realpath(rt)))
    with tempfile.TemporaryDirectory(prefix="macmem-page-") as room:
        return settle(made(module(kit, room, x86_module(kit, room))), words == ["--write"])


if __name__ == "__main__":
    sys.exit(main(sys.argv[1:]))
