#!/usr/bin/env python3
"""Makes LLVM's text of a module for x86-64, as rattle gives it, one for wasm64.

    page/to_wasm.py NATIVE.ll WASM.ll

What rattle gives for the two differs in three things: the lines of the target, the attributes of functions, and a check
of the stack at the start of each function that takes room on it, which is added here as rattle adds it. The linker lays
the stack below all else, so an address below 16 is outside of it. Where the text has anything else of a target, or a
function that heap.c lacks, it says what and ends with status 1.
"""
import re
import sys

TARGET = {
    "datalayout": ("e-m:e-p270:32:32-p271:32:32-p272:64:64-i64:64-i128:128-f80:128-n8:16:32:64-S128",
                   "e-m:e-p:64:64-p10:8:8-p20:8:8-i64:64-i128:128-n32:64-S128-ni:1:10:20"),
    "triple": ("x86_64-unknown-linux-gnu", "wasm64-unknown-unknown"),
}
NATIVE_CPU = re.compile(r'"target-cpu"="x86-64(-v2)?"$')
CPU = '"no-builtin-bcmp" "no-builtin-memcmp" "no-builtin-strlen" "target-cpu"="lime1"'
# The attributes of functions that mean the same for both targets.
COMMON = re.compile(r'(nounwind|noinline|alwaysinline|inlinehint|cold|noreturn|nobuiltin|nocallback|nofree|nosync|speculatable|willreturn|'
                    r'memory\([^)]*\)|"probe-stack"="inline-asm"|"stack-probe-size"="\d+"|"frame-pointer"="\w+")$')
HEAP = {"rattle_alloc", "rattle_realloc", "rattle_dealloc"}
CHECK = """\
  %stack.frame = call ptr @llvm.frameaddress.p0(i32 0)
  %stack.address = ptrtoaddr ptr %stack.frame to i64
  %stack.low = icmp slt i64 %stack.address, 16
  br i1 %stack.low, label %stack.trap, label %stack.ok

stack.ok:
""".splitlines()
TRAP = """\

stack.trap:
  call void @llvm.trap()
  unreachable
""".splitlines()
CALLED = {"llvm.frameaddress.p0": "declare ptr @llvm.frameaddress.p0(i32 immarg)", "llvm.trap": "declare void @llvm.trap()"}


class Differs(Exception):
    """What this text has that the one for which this was written hadn't."""


def with_target(line):
    """A line of the target."""
    for name, (native, wasm) in TARGET.items():
        if line == 'target %s = "%s"' % (name, native):
            return 'target %s = "%s"' % (name, wasm)
    raise Differs(line)


def with_attributes(line):
    """A line of attributes."""
    head, body = re.match(r"(attributes #\d+ = )\{ (.*) \}$", line).groups()
    words = re.findall(r'(?:[^\s"(]|"[^"]*"|\([^)]*\))+', body)
    for word in words:
        if not COMMON.match(word) and not NATIVE_CPU.match(word):
            raise Differs("the attribute " + word)
    return head + "{ " + " ".join(CPU if NATIVE_CPU.match(word) else word for word in words) + " }"


def with_check(lines):
    """The lines of a function, with a check where it takes room on the stack."""
    last = max((at for at, line in enumerate(lines) if " = alloca " in line), default=None)
    if last is None:
        return lines
    if "" in lines[:last]:
        raise Differs("room on the stack that isn't taken in the first block of a function: " + lines[0])
    if any(" = phi " in line for line in lines):
        raise Differs("a phi, which would have to name the blocks of the check: " + lines[0])
    return lines[:last + 1] + CHECK + lines[last + 1:-1] + TRAP + lines[-1:]


def functions_checked(lines):
    """The lines, with a check in each function."""
    function = []
    for line in lines:
        if function or line.startswith("define "):
            function.append(line)
        else:
            yield line
        if function and line == "}":
            yield from with_check(function)
            function = []


def turned(text):
    """The text for wasm64."""
    declared = set(re.findall(r'^declare .*?@"?([\w.]+)"?\(', text, re.M))
    foreign = {name for name in declared if not name.startswith("llvm.")} - HEAP
    if foreign:
        raise Differs("functions that heap.c lacks: " + ", ".join(sorted(foreign)))
    turns = {"target": with_target, "attributes": with_attributes}
    made = [turns.get(line.split(" ")[0], str)(line) for line in functions_checked(text.split("\n"))]
    made += [line for name, line in CALLED.items() if name not in declared]
    return "\n".join(made) + "\n"


def main(words):
    with open(words[0], encoding="utf-8") as file:
        text = file.read()
    try:
        made = turned(text)
        found = re.search(r".*(\bx86|\basm ).*", made)
        if found:
            raise Differs("code of x86-64: " + found[0])
    except Differs as what:
        print("to_wasm.py: what rattle gives to clang has now: %s" % what, file=sys.stderr)
        return 1
    with open(words[1], "w", encoding="utf-8") as file:
        file.write(made)
    return 0


if __name__ == "__main__":
    sys.exit(main(sys.argv[1:]))
