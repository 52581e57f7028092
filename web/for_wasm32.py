#!/usr/bin/env python3
"""Turns the text of an LLVM module for x86-64 into one that clang may compile for wasm32, or says what stands in the way.

usage: python3 web/for_wasm32.py MODULE.ll > OTHER.ll

The module counts with pointers of 8 bytes, and on wasm32 they have 4. That is harmless as long as a pointer stands at the place that the module says,
and no more of that place is read as a pointer. So a place for one keeps its 8 bytes, and a number and a pointer that are read as one value are read
one by one; and the module is refused where a pointer is made of a number or the other way round, or where another value that is read, written or
stepped over whole would have its parts at other places.
"""

import re
import sys

SIZES = {"float": 4, "double": 8}
UNFIT = re.compile(r"\b(ptrtoint|ptrtoaddr|inttoptr|addrspacecast|va_arg)\b")
# The type that is read, written or stepped over, right after these words.
TYPED = re.compile(r"= load (?:volatile )?|^  store (?:volatile )?|\bgetelementptr (?:inbounds |nuw |nusw )*|= alloca |^@[^ ]+ = .*?\b(?:constant|global) ")
TOKEN = re.compile(r"\s*(<\{|\}>|[\[\]{}<>,]|\d+ x|i\d+|ptr|float|double)")
# A number and a pointer that are read as one, as an optional reference is.
PAIR = re.compile(r"  (%[^ ]+) = load \{ (i1|i8|i16|i32|i64), ptr \}, ptr (%[^ ]+), align 8$")


class Unknown(Exception):
    pass


def round_up(at, align):
    return (at + align - 1) // align * align


def parts(text, pointer):
    """Returns, of the type at the start of the text, its size, its alignment and where its parts begin, with pointers of so many bytes."""
    tokens = []

    def take(*wanted):
        found = TOKEN.match(text, tokens[-1] if tokens else 0)
        if not found or wanted and found[1] not in wanted:
            raise Unknown
        tokens.append(found.end())
        return found[1]

    def next_is(word):
        found = TOKEN.match(text, tokens[-1] if tokens else 0)
        return bool(found) and found[1] == word

    def one():
        word = take()
        if word == "ptr":
            return pointer, pointer, [0]
        if word in SIZES:
            return SIZES[word], SIZES[word], [0]
        if re.fullmatch(r"i\d+", word):
            size = 1 << max((int(word[1:]) + 7) // 8 - 1, 0).bit_length()
            return size, min(size, 16), [0]
        if word in ("[", "<"):
            number = int(take().split()[0])
            size, align, inside = one()
            take("]" if word == "[" else ">")
            return number * size, align if word == "[" else number * size, [k * size + at for k in range(min(number, 2)) for at in inside]
        if word in ("{", "<{"):
            end, largest, found = 0, 1, []
            close = "}" if word == "{" else "}>"
            while not next_is(close):
                size, align, inside = one()
                align = align if word == "{" else 1
                start = round_up(end, align)
                found += [start + at for at in inside]
                end, largest = start + size, max(largest, align)
                if next_is(","):
                    take(",")
            take(close)
            return round_up(end, largest), largest, found
        raise Unknown

    return one()


def stands_as_before(line, at):
    """Returns whether the type at this place of the line has its parts where x86-64 has them."""
    text = line[at:]
    if text.startswith("ptr") and "getelementptr" not in line[:at]:
        return not line.startswith("@")
    try:
        (size, _, before), (other, _, after) = parts(text, 8), parts(text, 4)
    except Unknown:
        return False
    # What is only read or written may end sooner; what is stepped over, or has a place of its own, may not.
    is_whole = "getelementptr" in line[:at] or "alloca" in line[:at] or line.startswith("@")
    return before == after and (size == other or not is_whole)


def apart(line):
    """Returns the line; for a pair that is read as one, lines that read its parts from the places that x86-64 gives them."""
    pair = PAIR.match(line)
    if not pair:
        return line
    value, number, place = pair.groups()
    kind = f"{{ {number}, ptr }}"
    return (
        f"  {value}.number = load {number}, ptr {place}, align 8\n"
        f"  {value}.place = getelementptr i8, ptr {place}, i64 8\n"
        f"  {value}.pointer = load ptr, ptr {value}.place, align 8\n"
        f"  {value}.half = insertvalue {kind} poison, {number} {value}.number, 0\n"
        f"  {value} = insertvalue {kind} {value}.half, ptr {value}.pointer, 1\n"
    )


def main(file):
    bad = []
    with open(file, encoding="utf-8") as module:
        for number, line in enumerate(module, 1):
            # clang would take each function to be for a processor that WebAssembly has not.
            line = re.sub(r' "(target-cpu|probe-stack|stack-probe-size)"="[^"]*"', "", line)
            line = re.sub(r"= alloca ptr,", "= alloca i64,", line)
            for each in apart(line).splitlines(keepends=True):
                code = re.sub(r'c?"[^"]*"', '""', each)
                found = [it.end() for it in TYPED.finditer(code)]
                if UNFIT.search(code) or not all(stands_as_before(code, at) for at in found):
                    bad.append(f"{file}:{number}: {each.strip()}")
                sys.stdout.write(each)
    print(*bad[:20], sep="\n", file=sys.stderr)
    return 1 if bad else 0


if __name__ == "__main__":
    sys.exit(main(sys.argv[1]))
