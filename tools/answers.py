#!/usr/bin/env python3
"""Turns a crate's old proof files (Proof.antt, a table of needs closed by the tie) to Invariants.antt and Answers.antt.

usage: tools/answers.py CRATE NAMES.json [FUNCTION..]

NAMES.json is what 'rt check --generated DIR --old-names' writes in the crate. Answers that only say 'search rules' go: the check tries
that by itself. Paths lose each '.before', and steps get their new names. A file that walks the code by hand is left alone.
"""
import json
import os
import re
import sys

NAME = r"[^\s(){}.;,@\"«»\[\]\\:]+"


def norm(s):
    return re.sub("-+", "-", s.replace("_", "-")).lower()


def read(p):
    with open(p, encoding="utf-8") as it:
        return it.read()


def write(p, t):
    os.makedirs(os.path.dirname(p), exist_ok=True)
    with open(p, "w", encoding="utf-8") as it:
        it.write(t)


class Names:
    """The names of one function: needs, places and loops, old and new."""

    def __init__(self, e):
        self.needs = {}
        self.at = {}
        for (old, new), (_, place) in zip(e["needs"], e["asked_at"]):
            self.needs.setdefault(norm(old), new)
            self.at[new] = place
        self.new_places = e["places_by_name"]
        self.place = {}
        self.parent = {}
        self.step = {}
        olds = [p[0] for p in e["places"]]
        for i, (old, parent, step, _, _) in enumerate(e["places"]):
            new = self.new_places[i]
            self.place[norm(old)] = new
            self.parent[new] = self.new_places[olds.index(parent)] if parent is not None else None
            self.step[new] = (norm(step[0]), step[1])
        self.arms = {self.new_places[i]: a for i, a in enumerate(e["arms"]) if a}
        self.loops = {norm(l[0][0]): (l[0][1], l[1], c) for l, c in zip(e["loops"], e["changed"])}

    def chain(self, place):
        out = []
        while place is not None:
            out.append(place)
            place = self.parent.get(place)
        return out

    def need(self, old):
        n = norm(old)
        for k in (n, re.sub(r"^(overflow|nonzero)-", "", n), re.sub(r"^(shared-|mut-)?slice-bounds-", "slice-aggregate-", n)):
            if k in self.needs:
                return self.needs[k]
        return None

    def path(self, place, segs):
        """The new form of a path below place, its segments without 'before'."""
        s, rest = norm(segs[0]), list(segs[1:])
        chain = self.chain(place)
        s = {"type-size": "size-of"}.get(s, s)
        if s.endswith(("-law", "-lem")) and not any(self.step[p][0] == s for p in chain):
            s = s[:-4]
        # an arm's fields first
        for p in chain:
            arm = self.arms.get(p)
            if not arm:
                continue
            new, _, fields = arm
            for field, step, prefix in fields:
                if field.endswith("-own"):
                    continue
                if norm(step) == s and rest[: len(prefix)] == prefix:
                    return [new, field] + rest[len(prefix):]
        for p in chain:
            if self.step[p][0] == s and s:
                return [self.step[p][1]] + rest
        return segs


def blocks(text):
    """Top-level declarations with the comments above them."""
    out, now = [], []
    for line in text.split("\n"):
        if line and not line[0].isspace() and now and not now[-1].strip():
            out.append("\n".join(now).rstrip())
            now = []
        now.append(line)
    if now:
        out.append("\n".join(now).rstrip())
    return [b for b in out if b.strip()]


PATH = re.compile(r"(?<![\w.'’-])(%s)((?:\.[^\s(){}\[\];,.␟]+)+)" % r"[a-z][\w']*")


def turn_paths(body, roots, names, helpers, said):
    """roots: variable -> place."""
    # aliases: let k = c.before.. in
    while True:
        m = re.search(r"let (\w+) = (\w+)((?:\.before)+) in\s*", body)
        if not m or m.group(2) not in roots:
            break
        body = body[: m.start()] + re.sub(r"(?<![\w.'-])%s(?=[.\s),\]])" % m.group(1), m.group(2), body[m.end():])
    # what a pattern gave, under a name
    while True:
        m = re.search(r"let (\w+) = ((\w+)\.[^\s()]*\.given(?:\.0)*) in\s*", body)
        if not m or m.group(3) not in roots:
            break
        body = body[: m.start()] + re.sub(r"(?<![\w.'-])%s(?=[.\s),\]])" % m.group(1), m.group(2), body[m.end():])
    body = body.replace("type-inv", "type_inv")
    # calls of helpers on a place: the helper becomes a fact of its own in the answer
    lets = []
    for h, (target, goal_of, body_of, _) in helpers.items():
        call = re.compile(r"(?<![\w.'-])%s (\w+)(?:\.before)*(?![\w.'-])" % re.escape(h))
        if call.search(body):
            body = call.sub(h, body)
            lets.append((h, goal_of, body_of))
            for line in re.findall(r"^let (\S+) : ", body_of):
                said.append(f"{h}: a let in it")
    if lets:
        inner = body.strip()
        body = "".join(f"\n    let {h} : {g} = {b} in" for h, g, b in lets) + "\n    " + inner

    def path(m):
        root, segs = m.group(1), m.group(2)[1:].split(".")
        if root not in roots or body[m.end(): m.end() + 1] == "␟":
            return m.group(0)
        while segs and segs[0] == "before":
            segs.pop(0)
        if not segs:
            said.append(f"a bare path to a place: {m.group(0)}")
            return m.group(0)
        return ".".join([root] + names.path(roots[root], segs))

    body = PATH.sub(path, body).replace("␟", "")
    # what an `if !x` says is now said of x itself
    return re.sub(r"\bnot-(?:true|false) (?:_|\((?:[^()]|\([^()]*\))*\)|[^\s()]+) (?=\w+(?:\.[^\s(){},;.]+)*\.if-not-)", "", body)


def imports_of(text):
    lines, rest = [], []
    for line in text.split("\n"):
        (lines if line.startswith("use ") else rest).append(line)
    return lines, "\n".join(rest)


def kept_imports(lines, body):
    out = []
    for line in lines:
        if re.search(r"\.(Statement\.\{statement\}|Tie as tie|Goals as goal|Given as goal)$", line):
            continue
        m = re.match(r"use (\S+?)\.\{([^}]*)\}$", line)
        if m:
            items = [i.strip() for i in m.group(2).split(",")]
            keep = []
            for i in items:
                n = i.split(" as ")[-1]
                parts = [p for p in n.split("◌") if p]
                if all(re.search(r"(?<![\w'-])%s(?![\w'-])" % re.escape(p) if re.match(r"\w", p) else re.escape(p), body) for p in parts):
                    keep.append(i)
            if keep:
                out.append(f"use {m.group(1)}.{{{', '.join(keep)}}}")
        else:
            n = re.split(r"[. ]", line)[-1]
            if re.search(r"(?<![\w'-])%s\." % re.escape(n), body) or re.search(r"(?<![\w'-])%s(?![\w'-])" % re.escape(n), body):
                out.append(line)
    return out


def turn(path, crate, function, entry, said):
    text = read(path)
    if "tie.close" not in text or "(tie.spec" not in text:
        said.append("walks by hand: left")
        return False
    names = Names(entry)
    imports, rest = imports_of(text)
    head, decls = [], []
    for b in blocks(rest):
        code = [l for l in b.split("\n") if not l.startswith("--")]
        if not "\n".join(code).strip():
            if not decls and not head:
                head.append(b)
            else:
                decls.append(b)
            continue
        decls.append(b)
    # needs that were named after a temporary go by their order
    temporary = re.compile(r"^(?:overflow-|nonzero-)?([a-z]+)-t\d+$")
    in_file, known = {}, {}
    for m in re.finditer(r"(?m)^\S+ : tie\.Need-(\S+)", rest):
        if q := temporary.match(norm(m.group(1))):
            in_file.setdefault(q.group(1), []).append(norm(m.group(1)))
    for old in names.needs:
        if q := temporary.match(old):
            known.setdefault(q.group(1), []).append(old)
    for op, olds in in_file.items():
        if len(olds) == len(known.get(op, [])):
            new = [names.needs[k] for k in known[op]]
            for o, n in zip(olds, new):
                names.needs[o] = n
                names.needs[re.sub(r"^(overflow|nonzero)-", "", o)] = n
    helpers = {}
    for b in decls:
        m = re.search(r"(?m)^(%s) : \((\w+) : tie\.([^\s()]+)(?: invariant[-_]\S+ decreases[-_][^\s()]+)*\) → ([\s\S]*?)\n(?=\S)" % NAME, b)
        if m and not re.search(r"(?m)^\S+ : tie\.Need-", b):
            h = m.group(1)
            c = re.search(r"(?m)^%s (\w+) =(?= |\n)([\s\S]*)" % re.escape(h), b)
            if not c:
                said.append(f"helper {h}: not of one clause")
                continue
            place = names.place.get(norm(m.group(3)), m.group(3))
            unfolding = re.search(r"(?m)^unfolding (.*)$", b)
            goal_of = turn_paths(m.group(4), {m.group(2): place}, names, {}, said)
            body_of = turn_paths(c.group(2).strip(), {c.group(1): place}, names, helpers, said)
            swap = lambda v, x: re.sub(r"(?<![\w.'-])%s(?=\.)" % v, "c", x)
            helpers[h] = (place, swap(m.group(2), goal_of), swap(c.group(1), body_of), unfolding.group(1).split() if unfolding else [])
    invariants, answers, used = [], [], set()
    for b in decls:
        m = re.search(r"(?m)^(?:abbrev )?(invariant|decreases)[-_](\S+) : tie\.", b)
        if m:
            kind, loop = m.group(1), m.group(2)
            found = names.loops.get(norm(loop))
            c = re.search(r"(?m)^%s[-_]%s (.*?) =(?= |\n)([\s\S]*)" % (kind, re.escape(loop)), b)
            if not found or not c:
                said.append(f"loop {loop}: not known")
                answers.append(b)
                continue
            new, variables, changed = found
            params = c.group(1).split()
            expr = c.group(2)
            table = {}
            k = len(variables)
            current = [v for v, ch in zip(variables, changed) if ch]
            if len(params) != k + len(current):
                said.append(f"loop {loop}: {len(params)} parameters, {k} and {len(current)} expected")
            for p, v, ch in zip(params, variables, changed):
                table[p] = f"l.initial.{v}" if ch else f"l.{v}"
            for p, v in zip(params[k:], current):
                table[p] = f"l.{v}"
            expr = re.sub(r"(?<![\w.'₀-])(%s)(?![\w'₀])" % "|".join(sorted(map(re.escape, table), key=len, reverse=True)), lambda q: table[q.group(1)], re.sub(r"«([^»]*)»", r"\1", expr))
            comment = "\n".join(l for l in b.split("\n") if l.startswith("--"))
            unfolding = re.search(r"(?m)^unfolding.*$", b)
            invariants.append((comment + "\n" if comment else "") + f"abbrev pub {kind}-{new} : goal.{kind}-{new}\n" + (unfolding.group(0) + "\n" if unfolding else "") + f"{kind}-{new} l ={expr}")
            continue
        m = re.search(r"(?m)^(?:pub )?(%s) : tie\.Need-(\S+)[^\n]*\n" % NAME, b)
        if m:
            own, need = m.group(1), m.group(2)
            new = names.need(need) or names.need(own)
            if new is None and re.search(r"= search rules\s*$", b) and "unfolding" not in b:
                continue
            if new is None:
                said.append(f"need {need} is not known")
                answers.append(b)
                continue
            after = b[m.end():]
            comment = b[: m.start()]
            place = names.at[new]
            out = []
            for line in re.split(r"(?m)^(?=%s(?: |$))" % re.escape(own), after):
                out.append(line)
            clauses = [o for o in out if re.match(re.escape(own) + r"( |$)", o)]
            pre = "".join(o for o in out if o not in clauses)
            if len(clauses) == 1:
                c = re.match(re.escape(own) + r"((?: [^\s=]+)*) =(?= |\n)([\s\S]*)", clauses[0])
                args, body = c.group(1).split(), c.group(2)
                if body.strip() == "search rules" and "unfolding" not in pre:
                    continue
                if args and args[-1] == "κs" and not re.search(r"κs", body):
                    args = args[:-1]
                roots = {args[0]: place} if args else {}
                body = turn_paths(body, roots, names, helpers, said)
                answers.append(f"{comment}pub {new} : goal.{new}\n{pre}{new} {' '.join(args)} ={body}")
            else:
                said.append(f"need {need} has {len(clauses)} clauses")
                answers.append(b)
            continue
        if re.search(r"(?m)^pub \S+[-_]spec : ", b):
            continue
        if any(re.match(re.escape(h) + r" : ", l) for h in helpers for l in b.split("\n")):
            continue
        # a helper
        m = re.search(r"\((\w+) : tie\.(\S+?)((?: invariant[-_]\S+ decreases[-_]\S+)*)\)", b)
        if m:
            place = names.place.get(norm(m.group(2)), m.group(2))
            b = re.sub(r"tie\.(%s)((?: invariant[-_]\S+ decreases[-_][^\s)]+)*)" % NAME, lambda q: used.add(names.place.get(norm(q.group(1)), q.group(1))) or names.place.get(norm(q.group(1)), q.group(1)), b)
            b = turn_paths(b, {m.group(1): place}, names, helpers, said)
        answers.append(b)
    folder = os.path.dirname(path)
    module = f"Rattle.{crate}.proofs.{function}"
    for name, parts, goals in (("Invariants", invariants, "Given"), ("Answers", answers, "Goals")):
        if not parts:
            continue
        body = "\n\n".join(parts)
        lines = kept_imports(imports, body) + [f"use {module}.{goals} as goal"]
        places = sorted(p for p in used if re.search(r"(?<![\w.'-])%s(?![\w'-])" % re.escape(p), body))
        if places:
            lines.append(f"use {module}.{goals}.{{{', '.join(places)}}}")
        comment = "\n".join(head) + "\n" if head and (name == "Answers" or not answers) else ""
        write(f"{folder}/{name}.antt", comment + "\n".join(lines) + "\n\n" + body + "\n")
    os.remove(path)
    if not os.listdir(folder):
        os.rmdir(folder)
    return True


def main():
    crate, file, only = sys.argv[1], sys.argv[2], sys.argv[3:]
    names = json.loads(read(file))
    root = f"crates/{crate}/proofs"
    done = 0
    for folder, dirs, files in os.walk(root):
        if "Proof.antt" not in files:
            continue
        function = os.path.relpath(folder, root).replace("/", ".")
        if only and function not in only:
            continue
        entry = names.get(f"Rattle-{crate}-proofs.{function}.Lts")
        if entry is None:
            print(f"{function}: no names")
            continue
        said = []
        done += turn(f"{folder}/Proof.antt", crate, function, entry, said)
        for s in said:
            print(f"{function}: {s}")
    print(f"{done} proofs turned")


if __name__ == "__main__":
    main()
