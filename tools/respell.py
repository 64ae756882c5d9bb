#!/usr/bin/env python3
"""Brings the definitions and lemmas of specs/ and proofs/ to snake case, once, after port.py. Functions of src/, strings, inputs and outputs keep their names.

usage: python3 tools/respell.py [--dry]     at the top of the repository
"""
import glob
import os
import re
import sys

# Names that would fall together with a function, a field or another definition: what a function f answers is f_of.
SAME = """pairClash singleClash addSubExt addSubImm addsShifted ldrReg loadX movWide pairPost pairPre storeW genClobberRestore genClobberSave genEpilogueFrameRestore
genPrologueFrameSetup genReturn genInlineProbestack genSpRegAdjust loadConstant clobberSize authenticatedRet tailReload movFpSp popOne popPair pushOne pushPair needsPad
resizeIncoming calleePopSize incomingArgsDiff probeSize selectApiKey stackSize savedInts savedVecs keyNumber instFrom noteFrom badGuard badSizes badTail
winchSeal insertKey noRoom spBy stackProbeLoop genProbestackLoop genProbestackUnroll"""
OTHERS = {"All": "Throughout", "own-notes": "own_notes_are", "slotOf": "slot_for", "cores-lawful": "each_core_lawful", "entry-of": "entry_of_slot", "item-at": "item_at_is", "notes-hold": "each_notes_hold", "trees-return": "each_tree_returns"}

TOKEN = re.compile(r"[A-Za-z_◌⟦][\w'’\-◌]*", re.U)
DECL = re.compile(r"^(\s*)((?:abbrev |unfoldable |pub )*)([a-z][\w'\-]*)\s+:\s")
USE = re.compile(r"^\s*(?:ghost )?(?:pub )?use\s+([\w.·'\-]+?)\.?\{(.*)\};?\s*$")


def snake(n):
    if n in OTHERS:
        return OTHERS[n]
    if n in SAME.split():
        return snake(n + "Of")
    n = n.replace("-", "_")
    n = re.sub(r"([a-z0-9])([A-Z])", r"\1_\2", n)
    n = re.sub(r"([A-Z]+)([A-Z][a-z])", r"\1_\2", n)
    return n.lower()


def files():
    for p in sorted(glob.glob("crates/*/specs/**/*.antt", recursive=True) + glob.glob("crates/*/proofs/**/*.antt", recursive=True) + glob.glob("crates/*/src/**/*.rt", recursive=True)):
        if "/out/" not in p:
            yield p


def of_goals(p):
    return os.path.basename(p) in ("Answers.antt", "Invariants.antt", "Proof.antt")


def own(path):
    m = re.match(r"Rattle[.·](\w+)[.·]", path + ".")
    return bool(m) and os.path.isdir("crates/" + m.group(1))


def main(argv):
    texts = {p: open(p, encoding="utf-8").read() for p in files()}
    declared, fields, where = {}, set(), {}
    for p, t in texts.items():
        if not p.endswith(".antt"):
            continue
        mine = set()
        inside = False
        for l in t.splitlines():
            if re.match(r"\s*(pub )?record .* where", l):
                inside = True
            elif l and not l.startswith((" ", "\t")):
                inside = False
            m = DECL.match(l)
            if not m or l.lstrip().startswith(("let", "use", "--")):
                continue
            n = m.group(3)
            if of_goals(p) and "goal." in l:
                continue
            if snake(n) != n:
                mine.add(n)
                declared.setdefault(n, set()).add(p)
                if inside and m.group(1):
                    fields.add(n)
        where[p] = mine
    imports = {}
    foreign = {}
    for p, t in texts.items():
        imports[p], foreign[p] = set(), set()
        for l in t.splitlines():
            m = USE.match(l)
            if not m:
                continue
            for it in m.group(2).split(","):
                it = it.strip()
                if not it:
                    continue
                name, _, alias = it.partition(" as ")
                (imports[p] if own(m.group(1)) else foreign[p]).add(name.strip())
                if alias:
                    (imports[p] if own(m.group(1)) else foreign[p]).add(alias.strip())
    out, said = {}, set()
    for p, t in texts.items():
        mine = {n for n in declared if n in where.get(p, ()) or n in imports[p]}
        named = set(TOKEN.findall(t))
        for n in sorted(mine):
            if snake(n) in named:
                said.add(f"falls together in {p}: {n} and {snake(n)}")
            if n in foreign[p]:
                said.add(f"also of a library in {p}: {n}")

        def one(m):
            n = m.group(0)
            before = t[: m.start()]
            dot = before.endswith(".")
            if n in mine and not (dot and n not in fields and not re.search(r"[A-Z]\w*\.$", before[-40:])):
                if dot and re.search(r"\bgoal\.$", before[-10:]):
                    return n
                return snake(n)
            if n in fields and (dot or re.match(r"\s*=(?!=)", t[m.end() : m.end() + 3])) and not re.search(r"\b(goal|c)\.$", before[-10:]):
                return snake(n)
            return n

        lines = t.splitlines(keepends=True)
        if p.endswith(".rt"):
            # only clauses and imports speak of definitions
            # port.py leaves the parameter of a bound's type to the hand: it is the sink S everywhere
            t = re.sub(r"(?<![\w.])(Inst|Note)Price-as-Price\.", r"S.\1Price.Price.", t)
            if "/sink.rt" not in p and "/methods.rt" not in p:
                # in a function over any sink the sink's meaning goes by its parameter
                t = "".join(l if re.match(r"\s*(ghost )?use ", l) else re.sub(r"(?<![\w.])held (sink|self|b\.|\((?:sink|self))", r"S.held \1", l) for l in t.splitlines(keepends=True))
            new = re.sub(TOKEN, lambda m: snake(m.group(0)) if m.group(0) in mine and "-" not in m.group(0) else m.group(0), t)
        else:
            new = TOKEN.sub(one, t)
        for a, b in (("Known-words", "KnownWords"), ("Set-up", "SetUp"), ("prologueOf", "prologue_of"), ("epilogueOf", "epilogue_of")):
            new = re.sub(r"\b" + a + r"\b", b, new)
        out[p] = new
    for p, mine in where.items():
        by = {}
        for n in mine:
            by.setdefault(snake(n), set()).add(n)
        for s, ns in by.items():
            if len(ns) > 1:
                said.add(f"fall together in {p}: {sorted(ns)}")
    for s in sorted(said):
        print(s)
    changed = 0
    for p, new in out.items():
        if new != texts[p]:
            changed += 1
            if "--dry" not in argv:
                open(p, "w", encoding="utf-8").write(new)
    print(f"respell: {len(declared)} names, {changed} files")
    return 0


if __name__ == "__main__":
    raise SystemExit(main(sys.argv[1:]))
