#!/usr/bin/env python3
"""Lists every public call with the clauses of its contract, as docs/internals/CALLS.md has them.

    tools/calls.py > docs/internals/CALLS.md
    tools/calls.py --open        the calls whose contract leaves an answer without its cause, or what they change unsaid

A call is public where its crate exports it. Crates of nothing but tests are left out, and calls that only a test can use, since
their error is that a test fails.
"""
import pathlib
import re
import sys

HEAD = """# Every public call

Each function that a crate exports, with its contract word for word, as `tools/calls.py` reads it off the sources: `needs` is the condition under which a caller may call it, and all else is what it promises to return, when it rejects, and what it leaves of what it was given to change. A clause has a name where the contract gives it one. Each call returns under its condition, with no undefined behaviour, no overflow and no index out of bounds, which the check proves of every function.

What a call answers in addition to its value: None or an error, whose cause is among its promises, or `memory`, out of memory, the only one without a cause, which may come from any call that allocates. `by the trait` is there if the contract is that of the trait's method. Promises on what is left of a value that the call may change speak of `.new`, and of what it was before as `.old`; those on it alone are in the last column, with what the answer says of it.

"""

FUNCTION = re.compile(r"\bpub (?:const )?fn ([a-z_0-9]+)|(?<![\w:.] )\bfn ([a-z_0-9]+)")
CLAUSE = re.compile(r"\b(requires|ensures)\b(?:\s+([a-z_0-9]+))?\s*\{")
WHOLE = re.compile(r"\b(IfOk|OnOk|IfSome|OnSome)\s+(\(Q\.\w+ \w+\.\w+\)|result(?:\.now)?)")


def closing(text, start, pair="{}"):
    """The place behind the bracket that closes the one at start."""
    depth = 0
    for place in range(start, len(text)):
        if text[place] == pair[0]:
            depth += 1
        elif text[place] == pair[1]:
            depth -= 1
            if depth == 0:
                return place + 1
    raise ValueError("no closing bracket")


def plain(text):
    """The text without comments, of the same length."""
    return re.sub(r"//[^\n]*", lambda found: " " * len(found.group()), text)


def exported(root):
    """The names that the root file of a crate exports, and its public modules."""
    text = plain(root)
    names = set()
    for found in re.finditer(r"^pub use ([^;]+);", text, re.M):
        names.update(re.findall(r"\w+", found.group(1).split("::", 1)[1]))
    modules = set(re.findall(r"^pub mod (\w+);", text, re.M))
    names.update(re.findall(r"^pub (?:struct|enum|trait|fn) (\w+)", text, re.M))
    return names, modules


def owners(text):
    """Where each impl and trait of a file begins and ends, with the name of its type and whether it is of a trait."""
    blocks = []
    for found in re.finditer(r"^(?:pub )?(?:impl|trait)\b[^;{]*\{", text, re.M):
        head = found.group()
        end = closing(text, found.end() - 1)
        body = re.sub(r"^(?:pub )?(impl|trait)\s*", "", head.rstrip("{").strip())
        kind = "trait" if re.match(r"(?:pub )?trait", head) else "impl"
        if kind == "impl" and body.startswith("<"):
            body = body[closing(body, 0, "<>"):].strip()
        body = body.split(" where ")[0]
        of_trait = " for " in body
        trait, name = body.split(" for ", 1) if of_trait else ("", body)
        blocks.append((found.start(), end, re.match(r"&?(?:'\w+ )?(\w+)", name.strip()).group(1), trait.strip(), kind))
    return blocks


def calls(path, names, modules):
    """The public calls of a file: name, arguments, result and clauses."""
    raw = path.read_text()
    text = plain(raw)
    public_module = path.stem in modules
    blocks = owners(text)
    for found in re.finditer(r"\b(pub )?(?:const )?fn ([a-z_0-9]+)", text):
        inside = [block for block in blocks if block[0] <= found.start() < block[1]]
        owner = inside[-1] if inside else None
        if owner:
            if owner[2] not in names and not public_module:
                continue
            if owner[3] and owner[3].split("<")[0].split("::")[-1] in ("Model", "Drop"):
                continue
            if owner[3] not in names and ("trait", owner[3]) in [(block[4], block[2]) for block in blocks]:
                continue
            if owner[4] == "impl" and not owner[3] and not found.group(1):
                continue
        elif not found.group(1) or (found.group(2) not in names and not public_module):
            continue
        place = found.end()
        if text[place] == "<":
            place = closing(text, place, "<>")
        if text[place] != "(":
            continue
        end = closing(text, place, "()")
        arguments = " ".join(text[place + 1:end - 1].split()).rstrip(",")
        rest = text[end:]
        stop = re.search(r"[{;]|\brequires\b|\bensures\b|\bwhere\b", rest)
        result = rest[:stop.start()].replace("->", "").strip()
        clauses = []
        place = end + stop.start()
        if stop.group() == "where":
            place += re.search(r"[{;]|\brequires\b|\bensures\b", text[place:]).start()
        while True:
            clause = re.match(r"\s*(requires|ensures)\b(?:\s+([a-z_0-9]+))?\s*\{", text[place:])
            if not clause:
                break
            last = closing(text, place + clause.end() - 1)
            words = " ".join(text[place + clause.end():last - 1].split()).replace("; }", " }")
            clauses.append((clause.group(1), clause.group(2) or "", words))
            place = last
        name = found.group(2)
        if owner:
            name = f"{owner[2]}::{name}"
        by = owner[3] if owner else ""
        yield name, arguments, result, clauses, by


def answers(result):
    """What kinds of answers a call has, beside its value."""
    kinds = []
    if result.startswith("Option"):
        kinds.append("None")
    if result.startswith(("Result", "io::Result", "fmt::Result")):
        error = result[result.rfind(",") + 1:].rstrip("> ").strip() if "," in result else "error"
        kinds.append("memory" if error in ("Memory", "AllocError") else f"`{error}`")
    return ", ".join(kinds) or "none"


def promised(clauses, wanted):
    """The promises that are wanted, each behind its name."""
    return "<br>".join((f"`{label}`: " if label else "") + f"`{words}`"
                       for kind, label, words in clauses if kind == "ensures" and wanted(words))


# What a call may leave in any state, since nothing depends on it: who runs scenarios keeps what it likes, and a buffer that is lent
# is cleared by the call that takes it next.
FREE = {("Runner::run", "self"), ("follow_returns", "runner"), ("follow_listed", "runner")} | {(f"Device::{name}", "radio") for name in ("notify", "take_alarms", "act")}


def open_ends(name, arguments, result, clauses, by):
    """Why a contract leaves something unsaid, by its shape: None, if it does not."""
    promises = [words for kind, _, words in clauses if kind == "ensures"]
    if not promises:
        return None if by or not result and "&mut" not in arguments else "no clause"
    whole = [words for words in promises if re.search(r"\bresult\b", words) and not WHOLE.match(words)]
    if result.startswith("Option") and not whole:
        return "None without its cause"
    if result.startswith("Result") and not re.search(r"\b(Memory|AllocError)\b", result) and not whole:
        return "an error without its cause"
    changed = [argument.split(":")[0].strip() for argument in arguments.split(", ") if "&mut" in argument]
    for argument in changed:
        one = "self" if argument.startswith("&mut self") else argument
        if (name, one) not in FREE and not any(f"{one}.new" in words for words in promises):
            return f"what `{one}` is left as"
    return None


def crates(root):
    for line in (root / "crates.txt").read_text().splitlines():
        if ":" not in line or line.startswith("#"):
            continue
        name = line.split(":")[0].split()[0]
        source = root / "crates" / name / "src"
        head = source / ("lib.rt" if (source / "lib.rt").exists() else "main.rt")
        names, modules = exported(head.read_text())
        found = []
        for path in sorted(source.glob("**/*.rt")):
            if "tests" in path.stem or "tests" in [part.name for part in path.relative_to(source).parents]:
                continue
            found += [call for call in calls(path, names, modules) if not call[2].endswith(", Fail>")]
        if found:
            yield name, found


def cell(text):
    return text.replace("|", "\\|")


def main():
    root = pathlib.Path(__file__).resolve().parent.parent
    only_open = "--open" in sys.argv[1:]
    lines, total, without = [], 0, 0
    for crate, found in crates(root):
        rows = []
        for name, arguments, result, clauses, by in found:
            total += 1
            reason = open_ends(name, arguments, result, clauses, by)
            if reason:
                without += 1
            if only_open:
                if reason:
                    rows.append(f"{crate} {name}({arguments}) -> {result}: {reason}")
                continue
            needs = "; ".join(f"`{words}`" for kind, _, words in clauses if kind == "requires") or "nothing"
            returns = promised(clauses, lambda words: ".new" not in words) or ("by the trait" if by else "as its type says")
            leaves = promised(clauses, lambda words: ".new" in words) or ("by the trait" if by and not clauses else "all as it was")
            rows.append(f"| `{name}` | {cell(needs)} | {answers(result)} | {cell(returns)} | {cell(leaves)} |")
        if only_open:
            lines += rows
        else:
            lines += [f"## {crate}", "", "| call | needs | other answers | returns, and rejects | leaves |", "|---|---|---|---|---|", *rows, ""]
    if only_open:
        print("\n".join(lines))
        print(f"{total} calls, {without} with something unsaid by shape", file=sys.stderr)
    else:
        print(HEAD + f"{total} calls.\n\n" + "\n".join(lines).rstrip())


if __name__ == "__main__":
    main()
