#!/usr/bin/env python3
"""Holds the C header and the Rust declarations to the functions that crates/sisalshed_c exports, and these to crates/sisalshed.

    python3 checks/declarations.py

What each exported function and each struct of the source is in C and in Rust is worked out here, and must stand in include/sisalshed.h and
host/rust/src/c.rs, with the same names in the same order, and nothing else of that kind beside it. The numbers of the header's enum are held
to crates/answers/src/lib.rt. Each exported function has the name, the parameters, the answer and the clauses of a public function of
crates/sisalshed, whose structs it answers with, and each of those is exported. The last line is 'N passed, M failed'.
"""
import pathlib
import re
import sys

TOP = pathlib.Path(__file__).resolve().parent.parent
LIBRARY = (TOP / "crates/sisalshed/src/lib.rt").read_text()
EXPORTS = (TOP / "crates/sisalshed_c/src/lib.rt").read_text()
REFUSALS = (TOP / "crates/answers/src/lib.rt").read_text()
HEADER = (TOP / "include/sisalshed.h").read_text()
RUST = (TOP / "host/rust/src/c.rs").read_text()

NUMBERS = {"u8": "uint8_t", "u32": "uint32_t", "usize": "size_t"}
STRUCTS = {"CAnswer": ("sisalshed_answer", "Answer"), "CHeader": ("sisalshed_header_answer", "Header"), "CBody": ("sisalshed_body_answer", "Body")}


def words(text):
    """The text with one blank for any white space, and none inside brackets."""
    text = re.sub(r"\s+", " ", text).strip()
    return re.sub(r" ?([(){};,*]) ?", r"\1", text).replace(",)", ")").replace(",}", "}")


def without_comments(text):
    return re.sub(r"//[^\n]*", "", re.sub(r"/\*.*?\*/", "", text, flags=re.S))


def fields(text):
    return re.findall(r"(\w+): ([^,]+)", text)


def in_c(name, kind):
    """A parameter of the source as one or two parameters in C."""
    slice_of = re.fullmatch(r"&(mut )?\[(\w+)\]", kind)
    if slice_of is None:
        return [f"{NUMBERS[kind]} {name}"]
    const = "" if slice_of[1] else "const "
    return [f"{const}{NUMBERS[slice_of[2]]} *{name}", f"size_t {name}_length"]


def in_rust(name, kind):
    slice_of = re.fullmatch(r"&(mut )?\[(\w+)\]", kind)
    if slice_of is None:
        return [f"{name}: {kind}"]
    return [f"{name}: *{'mut' if slice_of[1] else 'const'} {slice_of[2]}", f"{name}_length: usize"]


def functions():
    """Name, parameters and answer of each exported function."""
    for name, given, answer in re.findall(r'#\[unsafe\(no_mangle\)\]\s*pub extern "C" fn (\w+)\((.*?)\) -> (\w+)', EXPORTS, re.S):
        yield name, fields(given), answer


def structs():
    for name, inside in re.findall(r"#\[repr\(C\)\]\s*(?:#\[[^\]]*\]\s*)*pub struct (\w+) \{(.*?)\}", LIBRARY, re.S):
        yield name, fields(inside.replace("pub ", ""))


def heads(text):
    """What stands between the name of a public function and its body: parameters, answer and clauses."""
    return {name: words(head) for name, head in re.findall(r'^pub (?:extern "C" )?fn (\w+)(\(.*?)^\{$', text, re.S | re.M)}


def main():
    passed = failed = 0

    def check(name, holds):
        nonlocal passed, failed
        passed, failed = passed + holds, failed + (not holds)
        if not holds:
            print(f"not there: {name}")

    header, rust = words(without_comments(HEADER)), words(without_comments(RUST))
    exported = list(functions())
    for name, given, answer in exported:
        c = words(f"struct {STRUCTS[answer][0]} {name}({', '.join(part for field in given for part in in_c(*field))});")
        check(f"C: {c}", c in header)
        r = words(f"pub fn {name}({', '.join(part for field in given for part in in_rust(*field))}) -> {STRUCTS[answer][1]};")
        check(f"Rust: {r}", r in rust)
    for name, inside in structs():
        in_header, in_crate = STRUCTS[name]
        c = words(f"struct {in_header} {{ {' '.join(f'{NUMBERS[kind]} {field};' for field, kind in inside)} }};")
        check(f"C: {c}", c in header)
        r = words(f"#[repr(C)] pub struct {in_crate} {{ {', '.join(f'pub {field}: {kind}' for field, kind in inside)} }}")
        check(f"Rust: {r}", r in rust)
    check("the structs that cross, and no other", sorted(name for name, _ in structs()) == sorted(STRUCTS))
    names = sorted(name for name, _, _ in exported)
    check("C: no other function", sorted(re.findall(r"struct \w+ (sisalshed_\w+)\(", header)) == names)
    check("Rust: no other function", sorted(re.findall(r"pub fn (\w+)\(", rust)) == names)

    here, there = heads(EXPORTS), heads(LIBRARY)
    for name in sorted({*here, *there, *names}):
        check(f"sisalshed_c: {name}, exported as crates/sisalshed has it", name in names and name in here and here[name] == there.get(name))

    # 0 stands for what is not refused
    refusals = REFUSALS[REFUSALS.index("pub enum Refusal {"):].split("\n}")[0]
    said = [("Accepted", "0"), *re.findall(r"(?m)^    (\w+) = (\d+),$", refusals)]
    for name, number in said:
        constant = "SISALSHED" + re.sub(r"([A-Z])", r"_\1", name).upper()
        check(f"C: {constant} = {number}", re.search(rf"\b{constant} = {number}\b", header) is not None)
    check("C: no other number", len(said) == 13 == len(re.findall(r"= \d+", header[header.index("enum sisalshed_refusal"):].split("}")[0])))
    print(f"{passed} passed, {failed} failed")
    return 1 if failed else 0


sys.exit(main())
