#!/usr/bin/env python3
"""Lists the public functions of every library, and where it is proved that they ask nothing of a caller and leave no choice.

    python3 checks/public.py

A library is a crate with src/lib.rt. For a function f there are two lines in proofs/Determined.antt of its crate, each over the contract
that the prover reads off the source: `f_asks_nothing : AsksNothing ..`, what f requires holds of all arguments, and `f_determined : ..`, two
answers that the contract of f allows for one input are equal, and so is what f leaves in the memory that it was lent. Which of the claims the
second has to be, and of what, goes by what the function is lent and answers (`claim`). Functions that cannot have it, for want of anything that a
contract could say, are named below, and docs/PROMISES.md says why. The last line is 'N passed, 0 failed'.
"""
import pathlib
import re
import sys

TOP = pathlib.Path(__file__).resolve().parent.parent
# docs/PROMISES.md, "What no contract says": what is read, and what is written to a stream
NOT_DETERMINED = {("streams", name) for name in ("read_full", "read_input", "write_output", "warn_of_arguments")}
NOT_DETERMINED |= {("tables", "for_each_line"), ("tables", "on_first")}
PUBLIC = re.compile(r'^ *pub (?:(?:unsafe|const) )*(?:extern "C" )?fn (\w+)(?:<.*?>)?\(', re.M)
IMPL = re.compile(r"^impl(?:<.*?>)? (?:\w+ for )?(\w+)", re.M)
CONTRACT = re.compile(r"^use Rattle\.(\w+)\.proofs\.((?:\w+\.)*\w+)\.(Reads|Kinds) as (\w+)$", re.M)
ASKS_NOTHING = re.compile(r"^(\w+)_asks_nothing : (AsksNothing) (\w+)_kinds\.ps \3\.Pre()$", re.M)
# The same of a function over any type, a handle, a reader, a writer, an item, and over what runs on each item, where that borrows nothing
# itself: written out, or in a module of such functions. Of what it is given there are two premises more, and no others: an item is converted
# to one number, and what runs may always be called.
GHOSTS = r"(?: \(copy : IsCopy T\)| \(\w+ : \w*Ghosts T\.Denot(?: ℕ)?\)| \(\w+ : \w*Ghosts T (?:A )?F\)| \([\w' ]+ : Dict\))*"
ANY_TYPE = r"\(T(?: A)?(?: F)? : RattleType\) \(laws : Laws T\)(?: \(laws'+ : Laws [AF]\))*" + GHOSTS
FREE = r" \(free : T\.lives ≡ \[\]\)(?: \(free'+ : [AF]\.lives ≡ \[\]\))*"
PREMISE = r"(?: \(number : T\.Denot → ℕ\) \(gives : Converts g\.converts number\)| \(always : \(run : F\.Denot\) → always_mut h run\)| \(always : \(call : F\.Denot\) → always_once k call\))?"
OF_ANY = r"(\w+)_asks_nothing : %s(AsksNothing) \((\w+)_kinds\.ps T (?:A )?(?:F )?laws[\w' ]*\) \(\3\.Pre T (?:A )?(?:F )?laws[\w' ]*\)()$"
ASKS_NOTHING_OF_ANY = re.compile("^" + OF_ANY % (ANY_TYPE + r" → T\.lives ≡ \[\]\s+→ "), re.M)
ASKS_NOTHING_IN_MODULE = re.compile("^  " + OF_ANY % "", re.M)
DETERMINED_IN_MODULE = re.compile(
    r"^  (\w+)_determined : (\w*Determined) \((\w+)_kinds\.ps T laws[\w' ]*\) \(\3_kinds\.r T laws[\w' ]*\) \(\3\.Post T laws[\w' ]*\)(.*)$", re.M)
MODULE = re.compile(r"^module _ " + ANY_TYPE + FREE + PREMISE + r" where\n((?:  .*\n|\n)+)", re.M)
DETERMINED = re.compile(r"^(\w+)_determined : (\w*Determined) (\w+)_kinds\.ps \3_kinds\.r \3\.Post(.*)$", re.M)


def functions(crate):
    """The file, the module (of methods of one name their types) and the name of each public function, and what the prover has to be told of it."""
    for source in sorted((crate / "src").glob("**/*.rt")):
        text = source.read_text()
        names = PUBLIC.findall(text)
        for found in PUBLIC.finditer(text):
            head = re.split(r"\{|^ *ensures|^ *requires", text[found.end():], maxsplit=1, flags=re.M)[0]
            module = IMPL.findall(text[:found.start()])[-1] if names.count(found[1]) > 1 else source.stem
            yield source.relative_to(TOP), module, found[1], claim(head)


def claim(head):
    """The claim that leaves a function no choice, from its parameters and its answer; none where it answers nothing and is lent nothing to write."""
    parameters, _, answer = head.partition(")")
    lent = [i for i, parameter in enumerate(parameters.split(",")) if "&mut" in parameter]
    if len(lent) > 1:
        return "a claim over two lent buffers"
    if lent:
        return "Determined (λ κs e. e" + ".1" * lent[0] + ".0.now)"
    if "-> &" in answer:
        return "SeenDetermined (λ κs z. z.now)"
    if "-> [u32; 8]" in answer:
        return "RowDetermined (λ κs z. z)"
    return "AnswerDetermined" if "->" in answer else None


def proved(crate):
    """The functions of the crate that have the one line, and those that have the other, with its claim: by name, and by module and name."""
    table, modules = crate / "proofs" / "Determined.antt", crate / "proofs" / "Lib.antt"
    if not table.exists() or not re.search(r"^(?:pub )?mod Determined$", modules.read_text(), re.M):
        return {}, {}
    text = table.read_text()
    contracts = {(alias, part): path for package, path, part, alias in CONTRACT.findall(text) if package == crate.name}

    def lines(*shapes):
        """The functions that have such a line, over their own contract. A line has the function's name, or its module's and its own."""
        found = {}
        for line, said, alias, of in (of_shape for shape, where in shapes for of_shape in shape.findall(where)):
            path = contracts.get((alias, "Reads"), "")
            names = {path.split(".")[-1], "_".join(path.split(".")[-2:])}
            if path == contracts.get((f"{alias}_kinds", "Kinds")) and line in names:
                of_name = names if line != path.split(".")[-1] else {path.split(".")[-1]}
                found |= {name: said + of for name in of_name}
        return found

    modules_of_any = "".join(MODULE.findall(text))
    return lines((ASKS_NOTHING, text), (ASKS_NOTHING_OF_ANY, text), (ASKS_NOTHING_IN_MODULE, modules_of_any)), lines((DETERMINED, text), (DETERMINED_IN_MODULE, modules_of_any))


def main():
    passed = failed = 0
    for crate in sorted(path.parent.parent for path in (TOP / "crates").glob("*/src/lib.rt")):
        free, determined = proved(crate)
        public = list(functions(crate))
        for source, module, name, owed in public:
            twice = sum(other[2] == name for other in public) > 1
            line = f"{module}_{name}" if twice else name
            exception = (crate.name, name) in NOT_DETERMINED or (crate.name, f"{module}::{name}") in NOT_DETERMINED
            asks = "asks nothing" if line in free else "MAY ASK SOMETHING"
            settled = owed is not None and determined.get(line) == owed
            answers = "exception" if exception else "determined" if settled else "NOT DETERMINED"
            good = line in free and (exception or settled)
            print(f"{source}: {name}: {asks}, {answers}")
            passed, failed = passed + good, failed + (not good)
    print(f"{passed} passed, {failed} failed")
    sys.exit(1 if failed else 0)


if __name__ == "__main__":
    main()
