#!/usr/bin/env python3
"""Turns the Proof.antt files of a crate, written for an older toolchain, into Invariants.antt and Answers.antt.

usage: turn_proofs.py CRATE..      at the top of the repository; the crates below CRATE are proved

`rt check --generated DIR --old-names` names each goal and step in both forms. An answer that only says `search rules` is dropped, for
the check finds it alone. A line that begins 'look:' says what to finish by hand.
"""

import json
import os
import re
import subprocess
import sys
import tempfile

WORD = r"[^\s(){}.;,@\"«»]+"
KEPT = {"args", "requires", "ranges", "type_inv", "auto", "lifetimes", "well_formed", "utf8", "invariant"}


def norm(name):
    return name.replace("-", "_")


def read(path):
    with open(path, encoding="utf-8") as f:
        return f.read()


def write(path, text):
    with open(path, "w", encoding="utf-8") as f:
        f.write(text)


def clauses_of(crates):
    """The names of the requires and ensures clauses of each function, by crate and name."""
    found = {}
    for crate in crates:
        for folder, _, names in os.walk(os.path.join("crates", crate, "src")):
            for n in names:
                if n.endswith(".rt"):
                    text = read(os.path.join(folder, n))
                    module = os.path.relpath(os.path.join(folder, n), os.path.join("crates", crate, "src"))[:-3].replace("/", "::")
                    module = "" if module in ("lib", "main") else module.removesuffix("::mod")
                    for m in re.finditer(r"\bfn (\w+)(.*?)(?=^\s*\{\s*$|;\s*$)", text, re.S | re.M):
                        head = m[2]
                        pre = re.findall(r"^\s*requires\*? ?(\w*) ?\{", head, re.M)
                        post = re.findall(r"^\s*ensures\*? ?(\w*) ?\{", head, re.M)
                        muts = self_and_wide(head)
                        params = re.match(r"\s*(?:<[^>]*>)?\s*\((.*?)\)\s*(?:->|requires|ensures|\n)", head + "\n", re.S)
                        params = re.findall(r"(?:^|[(,])\s*(?:mut )?&?(?:mut )?(\w+)(?=\s*:|\s*,|\s*$)", params[1], re.M) if params else []
                        found.setdefault((crate, m[1]), []).append((pre, post, params, muts, module))
    return found


def self_and_wide(head):
    """The parameters that are no plain number: what a call's `new` and `auto` list."""
    m = re.match(r"\s*(?:<[^>]*>)?\s*\(", head)
    if not m:
        return []
    depth, cur, parts = 1, "", []
    for ch in head[m.end() :]:
        depth += ch in "([<"
        depth -= ch in ")]>"
        if depth == 0:
            break
        if ch == "," and depth == 1:
            parts.append(cur)
            cur = ""
        else:
            cur += ch
    parts.append(cur)
    out = []
    for p in (p.strip() for p in parts):
        if re.fullmatch(r"&?(?:mut )?self", p):
            out.append("self")
        elif ":" in p and not re.fullmatch(r"[ui](?:8|16|32|64|size)|bool", p.split(":", 1)[1].strip()):
            out.append(p.split(":")[0].replace("mut ", "").strip())
    return out


def picked(fields, rest):
    """Clauses stood as pairs of pairs: `.1.0` of three is the second's name."""
    i = 0
    while i < len(fields) - 1 and rest:
        step = rest.pop(0)
        if step == "0":
            return [fields[i], *rest]
        if step != "1":
            return None
        i += 1
    return [fields[i], *rest] if i == len(fields) - 1 else None


def one_line(unf):
    """One unfolding line for several."""
    names = []
    for u in unf:
        names += [n for n in u.replace("unfolding", " ").split() if n not in names]
    return ["unfolding " + " ".join(names)] if names else []


def nested(texts):
    return texts[0] if len(texts) == 1 else f"({texts[0]}, {nested(texts[1:])})"


class Names:
    """What names.json says of one function."""

    def __init__(self, row):
        self.row = row
        self.places = {p[0]: p for p in row["places"]}
        self.order = [p[0] for p in row["places"]]
        self.new_place = dict(zip(self.order, row["places_by_name"]))
        self.clauses = dict(zip(self.order, row["clauses"]))
        self.typed = {p: dict((b, a) for a, b in t) for p, t in zip(self.order, row["typed"])}
        self.by_norm = {norm(p): p for p in self.order}
        self.steps, self.step_place = {}, {}
        for place in self.order:
            old, new = self.places[place][2]
            self.steps.setdefault(norm(old), new)
            self.step_place.setdefault(norm(old), place)
        for loop, _ in row["loops"]:
            self.steps[norm(loop[0])] = loop[1]
        self.arms = []
        for arm in row["arms"]:
            for field, step, rest in arm[2] if arm else []:
                self.arms.append((norm(step), rest, arm[0], field))
        self.needs = {}
        for (old, new), at in zip(row["needs"], row["asked_at"]):
            self.needs[norm(old)] = (new, at[0])
        for name in row["settled"]:
            self.needs.setdefault(norm(name), (None, None))

    def chain(self, at):
        out = []
        while at is not None:
            out.append(at)
            at = self.places[at][1]
        return out

    def step(self, old, at):
        n = norm(old)
        for k in (n, n.replace("_lem", "")):
            for place in self.chain(at):
                if norm(self.places[place][2][0]).lower() == k.lower():
                    return self.places[place][2][1], place
            if k in self.steps:
                return self.steps[k], self.step_place.get(k)
        return None, None

    def arm(self, step, parts, at):
        """The arm's name and field for what was a step's field."""
        best = None
        for place in self.chain(at):
            for arm in [dict(zip(self.order, self.row["arms"]))[place]]:
                for field, old, rest in arm[2] if arm else []:
                    if norm(old) == norm(step) and parts[: len(rest)] == rest and (best is None or len(rest) > len(best[0])):
                        best = (rest, arm[0], field)
        return best

    def place(self, old):
        n = norm(old)
        return self.by_norm.get(n) or self.by_norm.get(n.replace("_lem", ""))

    def above(self, place, target):
        k = 0
        while place is not None and place != target:
            place = self.places[place][1]
            k += 1
        return k if place == target else None


def blocks(text):
    """The file's top-level blocks: comments and use lines apart, then each declaration with the lines below it."""
    out, block = [], []
    for line in text.rstrip("\n").split("\n"):
        starts = line and not line[0].isspace()
        if starts and line.startswith("--") and block and not block[0].startswith("--"):
            out.append(block)
            block = []
        if starts and block:
            sig = re.match(rf"(?:(?:abbrev|pub|unfoldable) )*({WORD}) :", line)
            heads = all(b.startswith("--") for b in block)
            if (sig or line.startswith("use ")) and not heads:
                out.append(block)
                block = []
        if line or block:
            block.append(line)
    out.append(block)
    return ["\n".join(b).rstrip() for b in out if any(b)]


class Turn:
    def __init__(self, crate, path, names, clauses, said):
        self.crate, self.path, self.n, self.clauses, self.said = crate, path, names, clauses, said
        self.helpers, self.aliases_fn, self.inline = {}, set(), {}

    def look(self, text):
        self.said.append(f"look: {self.path}: {text}")

    def roots(self, block):
        """Place variables bound by a signature or clause: name to place."""
        return {}

    def resolve(self, body, at):
        # a helper's argument
        for h, (place, _) in self.helpers.items():
            k = self.n.above(at, place) if at else None

            def call(m, h=h, k=k, place=place):
                if h in self.inline:
                    return h + "¤"
                if k is None:
                    self.look(f"`{h}` is of a place that is not above")
                    return f"{h} c"
                wrapped = 1 if k and self.n.typed.get(at) else 0
                arg = "c" + ".before" * (k + wrapped if k else 0)
                return f"{h} {arg}"

            body = re.sub(rf"(?<![\w.'-]){re.escape(h)} (?:\(c·?\)|c·?)(?![\w.'-])", call, body)
        return body

    def turn_body(self, body, roots, at, resolve=True):
        """roots: place variables; at: the goal's place, or a helper's."""
        # alias functions: (start X) -> X's root
        for _ in range(6):
            before = body
            for fn in self.aliases_fn:
                body = re.sub(rf"(?<![\w.'-]){re.escape(fn)} (?!=)({WORD})(?:\.before)*(?![\w.'-])", r"\1", body)
            body = re.sub(rf"\(({'|'.join(map(re.escape, roots | {'c'}))})(?:\.before)*\)(?=\.|\))", r"\1", body)
            for fn in [*self.aliases_fn, *self.helpers]:
                body = re.sub(rf"(?<![\w.'-])({re.escape(fn)}) \(({'|'.join(map(re.escape, roots | {'c'}))})\)", r"\1 \2", body)
            # aliases by let
            m = True
            while m:
                names = "|".join(re.escape(r) for r in roots)
                m = re.search(rf"let ({WORD}) =\s+\(?({names})(?:\.before)*\)? in(\n *| )", body)
                if m:
                    alias = m[1]
                    body = body[: m.start()] + body[m.end() :]
                    if alias not in roots:
                        body = re.sub(rf"(?<![\w.'-]){re.escape(alias)}(?![\w'-])", "c", body)
            if body == before:
                break
        names = "|".join(re.escape(r) for r in roots | {"c"})
        body = self.without_lets_of_clauses(body, names, at)

        def path(m):
            root, rest = m[1], m[2]
            parts = [p for p in rest.split(".")[1:]]
            k = 0
            while k < len(parts) and parts[k] == "before":
                k += 1
            parts = parts[k:]
            if not parts:
                return "c" + ("·" if k else "")
            step = parts[0]
            step = {"pre": "requires", "fits": "ranges", "well-formed": "well_formed"}.get(step, step)
            if step == "args" and len(parts) > 1 and re.fullmatch(r"t\d+", parts[1]):
                rows = self.clauses.get((self.crate, self.path.split("/")[-1]), [])
                for r in rows:
                    k = int(parts[1][1:]) - 1
                    if parts[1] not in r[2] and k < len(r[2]):
                        parts[1] = r[2][k]
                        break
            if step in KEPT:
                pre = self.n.row["pre"]
                if step == "requires" and pre and len(parts) == 1:
                    return self.tuple_of("c.requires", pre["fields"])
                if step == "requires" and pre and len(parts) > 1 and parts[1].isdigit():
                    got = picked(pre["fields"], parts[1:])
                    if got is None:
                        self.look(f"the clauses of `c.requires`: {'.'.join(parts)}")
                    else:
                        parts = ["requires", *got]
                return "c." + ".".join([step, *parts[1:]])
            parts = [{"taken": "true", "left": "false", "type-inv": "type_inv"}.get(p, p) if i and (p == "type-inv" or re.match(r"if\d|loop.test", parts[0])) else p for i, p in enumerate(parts)]
            best = self.n.arm(step, parts[1:], at)
            if best and (best[0] or len(parts) > 1):
                return "c." + ".".join([best[1], best[2], *parts[1 + len(best[0]) :]])
            new, place = self.n.step(step, at)
            if new is None:
                self.look(f"no step `{step}`")
                return "c." + ".".join(parts)
            typed = self.n.typed.get(place) or {}
            if len(parts) > 1 and parts[1] == "given":
                for p in self.n.order:
                    for s, v in self.n.typed[p].items():
                        if norm(s) == norm(step) or norm(s) == norm(new):
                            return "c." + ".".join(["type_inv", v, *parts[2:]])
            if len(parts) > 2 and parts[1] in ("new", "auto") and parts[2].isdigit():
                fn = (self.n.places[place][3] or "").split("::")
                rows = self.clauses.get((fn[0], fn[-1]), [])
                rows = [r for r in rows if "::".join(fn[1:-1]) in (r[4], "")] if len(rows) > 1 else rows
                rows = [r for r in rows if r[4] == "::".join(fn[1:-1])] or rows
                muts = rows[0][3] if len(rows) == 1 else []
                k = 0
                while len(parts) > 3 and parts[2] == "1":
                    del parts[2]
                    k += 1
                if parts[2] == "0" and k < len(muts):
                    parts[2] = muts[k]
                else:
                    self.look(f"`{new}.new.{k}`")
            cl = self.n.clauses.get(place)
            if cl and len(parts) > 2 and parts[1] == "ensures" and parts[2].isdigit():
                got = picked(cl["fields"], parts[2:])
                if got is None:
                    self.look(f"the clauses of {'.'.join(parts)}")
                else:
                    parts = [parts[0], "ensures", *got]
            if cl and parts[1:] == ["ensures"]:
                return self.tuple_of(f"c.{new}.ensures", cl["fields"])
            return "c." + ".".join([new, *parts[1:]])

        body = re.sub(rf"(?<![\w.'-])({names})((?:\.{WORD})*)(?![\w'-])", path, body)
        body = re.sub(rf"\((c(?:\.{WORD})+)\)", r"\1", body)
        body = re.sub(r"\(record \{ sfits = c\.type_inv\.[\w.]+ \}\)", "(search rules)", body)
        body = re.sub(r"(?<!not-true _ )(?<!not-false _ )(?<![\w.'-])(c\.if-not-[^\s(){},;]+\.(?:true|false))(?![\w.'·-])", r"(ap not \1)", self.no_nots(body))
        body = re.sub(r"(\.(?:true|false))·", r"\1", body)
        body = re.sub(r"((?:omega|grind|search|cc) \([^()]*?, )\((c\.[^()\s,]+(?:, c\.[^()\s,]+)+)\)", r"\1\2", body)
        body = self.resolve(body, at) if resolve else body
        body = re.sub(rf"\(({WORD})¤\)", r"\1", body).replace("¤", "")
        if "c·" in body:
            self.look("a place by itself is passed on")
            body = body.replace("c·", "c")
        return body

    def no_nots(self, body):
        """`not-true _ x`, where x says now what that lemma gave."""
        body = re.sub(rf"\(not-(?:true|false) _ \((c\.if-not-{WORD}\.)(true|false)\)\)", r"\1\2·", body)
        body = re.sub(rf"\(not-(?:true|false) _ (c\.if-not-{WORD}\.)(true|false)\)", r"\1\2·", body)
        body = re.sub(rf"not-(?:true|false) _ \((c\.if-not-{WORD}\.)(true|false)\)", r"\1\2·", body)
        return re.sub(rf"not-(?:true|false) _ (c\.if-not-{WORD}\.)(true|false)(?![\w.'-])", r"\1\2·", body)

    def without_lets_of_clauses(self, body, names, at):
        """A let of clauses that have names now is written out where it is used."""
        at_ = 0
        while True:
            m = re.compile(rf"let ({WORD}) =\s+((?:{names})(?:\.before)*\.({WORD}(?:\.{WORD})*)) in(\n *| )").search(body, at_)
            if not m:
                return body
            parts = m[3].split(".")
            step = "requires" if parts[0] == "pre" else parts[0]
            if parts == ["args"]:
                fields = re.search(rf"(?<![\w.'-]){re.escape(m[1])}\.t\d", body)
            elif parts in (["requires"], ["pre"]):
                fields = self.n.row["pre"]
            elif len(parts) == 1 or parts[1:] == ["ensures"]:
                place = self.n.step(step, at)[1]
                fields = self.n.clauses.get(place) or re.search(rf"(?<![\w.'-]){re.escape(m[1])}\.(?:new|auto|given|type-inv|taken|left)\b", body)
            else:
                fields = None
            if not fields:
                at_ = m.end()
                continue
            rest = re.sub(rf"(?<![\w.'-]){re.escape(m[1])}(?![\w'-])", lambda _: m[2], body[m.end() :])
            body = body[: m.start()] + rest

    def tuple_of(self, text, fields):
        return nested([f"{text}.{f}" for f in fields])

    def with_lets(self, body, at, own=None):
        """The body with a let for each helper that stands at no place of its own."""
        names, unf = [], []
        order = list(self.inline)

        def uses(text):
            return [h for h in order if h != own and re.search(rf"(?<![\w.'-]){re.escape(h)}(?![\w'-])", text)]

        todo = uses(body)
        while todo:
            h = todo.pop()
            if h not in names:
                names.append(h)
                todo += uses(self.inline[h][0])
        names = [h for h in order if h in names]
        for h in names:
            unf += [u for u in self.inline[h][1] if u not in unf]
        lets = "".join(f"\n    {self.inline[h][0]} in" for h in names)
        if lets:
            lets = re.sub(rf"\(({WORD})¤\)", r"\1", self.resolve(lets, at)).replace("¤", "")
            body = lets + ("\n    " + body.strip() if body.strip() else "")
        return body, unf

    def make_inline(self, b, name):
        place, var = self.helpers[name]
        lines = b.split("\n")
        notes = [l for l in lines if l.startswith("--")]
        lines = [l for l in lines if not l.startswith("--")]
        text = "\n".join(lines)
        unf = re.findall(r"^unfolding (.*)$", text, re.M)
        text = re.sub(r"^unfolding .*\n", "", text, flags=re.M)
        m = re.match(rf"(?:(?:abbrev|pub|unfoldable) )*{re.escape(name)} : (.*?)^{re.escape(name)} (\S+)((?: [^\s=]+)*?) =(?=\s)(.*)", text, re.S | re.M)
        if not m or re.search(rf"^{re.escape(name)} ", m[4], re.M) or re.search(r"^ *where\b", m[4], re.M):
            self.look(f"`{name}` can't be a let")
            return False
        typ, arg, more, body = m[1].strip(), m[2], m[3].split(), m[4]
        typ = re.sub(r"^\([^()]*tie\.[^()]*\)\s*→?\s*|^tie\.\S+(?: invariant-loop decreases-loop)? →\s*", "", typ)
        me = self.helpers.pop(name)
        typ = self.turn_body(typ, {var, "c"}, place, False)
        body = self.turn_body(body, {arg, "c"}, place, False)
        self.helpers[name] = me
        lam = f"λ {' '.join(more)}. " if more else ""
        self.inline[name] = (f"let {name} : {typ} = {lam}{body.strip()}", unf)
        return True

    def items_of(self, term):
        """The items of a parenthesised tuple, or None."""
        term = term.strip()
        if not term.startswith("(") or not term.endswith(")"):
            return None
        items, depth, cur = [], 0, ""
        for ch in term[1:-1]:
            if ch in "({[":
                depth += 1
            elif ch in ")}]":
                depth -= 1
                if depth < 0:
                    return None
            if ch == "," and depth == 0:
                items.append(cur)
                cur = ""
            else:
                cur += ch
        if cur.strip():
            items.append(cur)
        return items

    def clauses_in(self, term, fields):
        items = self.items_of(term)
        if items is None or len(items) < 2:
            return None
        while len(items) < len(fields):
            more = self.items_of(items[-1])
            if more is None or len(more) < 2:
                return None
            items = items[:-1] + more
        if len(items) > len(fields):
            n = len(fields) - 1
            items = items[:n] + ["(" + ",".join(items[n:]) + ")"]
        return items

    def record_of(self, body, fields):
        """A term's end, a tuple of clauses, as a record of them."""
        m = re.match(r"(.*?=)(?=\s)(.*)", body, re.S)
        if not m:
            return None
        head, text = m[1], m[2]
        while True:
            k = re.match(r"\s*let\s", text)
            if not k:
                break
            depth = lets = 0
            for t in re.finditer(r"[({\[]|[)}\]]|(?<![\w.'-])let(?=\s)|(?<![\w.'-])in(?=\s)", text):
                w = t[0]
                if w in "({[":
                    depth += 1
                elif w in ")}]":
                    depth -= 1
                elif depth == 0:
                    lets += 1 if w == "let" else -1
                    if lets == 0:
                        head += text[: t.end()]
                        text = text[t.end() :]
                        break
            else:
                return None
        last = text.strip()
        if last.startswith("record"):
            return body
        items = self.clauses_in(last, fields)
        nl = "\n    "
        if items:
            rows = ";".join(f"{nl}  {f} = {i.strip()}" for f, i in zip(fields, items))
            return f"{head}{nl}record {{{rows};{nl}}}"
        if re.match(r"(search|omega|grind|cc)\b", last):
            rows = ";".join(f"{nl}  {f} = {last}" for f in fields)
            return f"{head}{nl}record {{{rows};{nl}}}"
        if re.match(r"(rw|simp|λ|elim|absurd|subst)\b|λ", last):
            return None
        rows = ";".join(f"{nl}  {f} = {self.walk_pair('both', i, len(fields))}" for i, f in enumerate(fields))
        return f"{head}{nl}let both = {last} in{nl}record {{{rows};{nl}}}"

    def walk_pair(self, text, i, n):
        return text + ".1" * i + (".0" if i < n - 1 else "")

    def own_clauses(self, which):
        fn = self.path.split("/")[-1]
        rows = self.clauses.get((self.crate, fn), [])
        rows = [r for r in rows if len(r[which]) > 1]
        return rows[0][which] if len(rows) == 1 else None

    def file(self, text):
        module = "Rattle." + self.crate + ".proofs." + self.path.replace("/", ".")
        head, uses, answers, invariants, helpers = [], [], [], [], []
        parts = blocks(text)
        declared = []
        for b in parts:
            lines = b.split("\n")
            if lines[0].startswith("--") and not declared and not uses and all(l.startswith("--") for l in lines):
                head.append(b)
                continue
            while lines and lines[0].startswith("--") and not uses and any(l.startswith("use ") for l in lines):
                head.append(lines.pop(0))
            while lines and lines[0].startswith("use "):
                u = lines.pop(0)
                while lines and lines[0].startswith(" "):
                    u += "\n" + lines.pop(0)
                if not re.search(r"\.(Statement\.\{statement\}|Tie as tie|Lts as lts)", u):
                    uses.append(u)
            if not lines or not "".join(lines).strip():
                continue
            declared.append("\n".join(lines))
        # what is declared
        for b in declared:
            sig = re.search(rf"^(?:(?:abbrev|pub|unfoldable) )*({WORD}) : (.*)", b, re.M)
            if not sig:
                continue
            name, typ = sig[1], sig[2]
            if re.search(r"statement M|tie\.Need-|tie\.(invariant|decreases)", typ.split("\n")[0]):
                continue
            m = re.match(rf"\(({WORD}) : tie\.({WORD})|tie\.({WORD})", typ)
            if m:
                place = self.n.place(m[2] or m[3])
                if re.search(rf"→ tie\.(?!Need){WORD}\s*$", typ):
                    self.aliases_fn.add(name)
                else:
                    if place is None:
                        self.look(f"`{name}` is of the place {m[2] or m[3]}, which is no more")
                    self.helpers[name] = (place, m[1] or "c")
        asked = {a[0] for a in self.n.row["asked_at"]}
        loose = {h for h, (place, _) in self.helpers.items() if place not in asked or self.n.typed.get(place)}
        for b in declared:
            sig = re.search(rf"^(?:(?:abbrev|pub|unfoldable) )*({WORD}) : (.*)", b, re.M)
            if sig and sig[1] in loose and sig[1] not in self.inline:
                self.inline[sig[1]] = ("", [])
        self.inline = {}
        for b in declared:
            sig = re.search(rf"^(?:(?:abbrev|pub|unfoldable) )*({WORD}) : (.*)", b, re.M)
            if sig and sig[1] in loose and not (re.search(r"tie\.Need-|statement M", sig[2])):
                if not self.make_inline(b, sig[1]):
                    loose.discard(sig[1])
        for b in declared:
            sig = re.search(rf"^(?:(?:abbrev|pub|unfoldable) )*({WORD}) : (.*)", b, re.M)
            if not sig:
                helpers.append(b)
                continue
            if sig[1] in self.inline:
                continue
            name, typ = sig[1], sig[2]
            if "statement M" in b and "tie." in b:
                continue
            if name in self.aliases_fn:
                continue
            if re.match(r"tie\.(invariant|decreases)", typ):
                invariants.append(self.invariant(b, name))
                continue
            need = re.match(rf"tie\.Need-({WORD})", typ)
            if need:
                got = self.answer(b, name, need[1])
                if got:
                    answers.append(got)
                continue
            helpers.append(self.helper(b, name))
        if helpers and not answers:
            self.look("helpers with no answer")
        folder = os.path.join("crates", self.crate, "proofs", self.path)
        os.remove(os.path.join(folder, "Proof.antt"))
        top = "\n".join(head)
        if invariants:
            invs = "\n\n".join(invariants)
            write(os.path.join(folder, "Invariants.antt"), "\n".join([top, *self.used(uses, invs), f"use {module}.Given as goal"]).lstrip("\n") + "\n\n" + invs + "\n")
        if answers or helpers:
            both = "\n\n".join([*helpers, *answers])
            write(os.path.join(folder, "Answers.antt"), "\n".join([top, *self.used(uses, both), f"use {module}.Goals as goal"]).lstrip("\n") + "\n\n" + both + "\n")
        elif not invariants and os.path.isdir(folder) and not os.listdir(folder):
            os.rmdir(folder)

    def used(self, uses, text):
        out = []
        if "(ap not c.if-not" in text:
            have = " ".join(uses)
            if not re.search(r"[{ ]ap[,}]", have):
                uses = [*uses, "use mathlib.Core.Path.{ap}"]
            if not re.search(r"[{ ]not[,}]", have):
                uses = [*uses, "use mathlib.Core.Bool.{not}"]
        for u in uses:
            m = re.match(r"use (\S+)\.\{(.*)\}$", u, re.S)
            if not m:
                out.append(u)
                continue
            names = []
            for n in re.split(r",\s*", m[2].strip().rstrip(",")):
                word = n.split(" as ")[-1].strip()
                bits = [x for x in word.split("◌") if x]
                if not bits or all(re.search(rf"(?<![\w'-]){re.escape(x)}(?![\w'-])" if re.match(r"\w", x) else re.escape(x), text) for x in bits):
                    names.append(n.strip())
            if names:
                out.append(f"use {m[1]}.{{{', '.join(names)}}}")
        return out

    def invariant(self, b, name):
        loop, vars_ = self.n.row["loops"][0]
        changed = self.n.row["changed"][0]
        kind = "invariant" if name.startswith("invariant") else "decreases"
        new = f"{kind}-{loop[1]}"
        m = re.search(rf"^{re.escape(name)} ([^=]*?) ?=(?=\s)", b, re.M)
        params = m[1].split()
        want = [("initial." + v if c else v) for v, c in zip(vars_, changed)] + [v for v, c in zip(vars_, changed) if c]
        if len(params) != len(want):
            self.look(f"{name} has {len(params)} arguments, not {len(want)}: {vars_} {changed}")
            want = want + ["?"] * len(params)
        row = dict(zip(params, want))
        body = b[m.end() :]
        body = re.sub(r"(?<![\w.'₀-])(" + "|".join(sorted(map(re.escape, params), key=len, reverse=True)) + r")(?![\w'₀-])(?! = )", lambda x: "l." + row[x[1]], body)
        sig = re.search(r"^.*?\n?(?=(?:abbrev|pub) )", b, re.S)
        note = "\n".join(l for l in b.split("\n") if l.startswith("--"))
        unf = "\n".join(l for l in b.split("\n") if l.startswith("unfolding "))
        return "\n".join(x for x in [note, f"abbrev pub {new} : goal.{new}", unf, f"{new} l ={body}"] if x)

    def answer(self, b, name, need):
        key = norm(re.sub(r"^overflow-", "", need))
        row = self.n.needs.get(key) or self.n.needs.get(norm(need)) or self.n.needs.get(key.replace("_lem", "")) or self.n.needs.get(norm(need).replace("_lem", ""))
        lines = b.split("\n")
        at = next(i for i, l in enumerate(lines) if re.match(rf"(?:pub )?{re.escape(name)} :", l))
        note = [l for l in lines[:at] if l.startswith("--")]
        rest = lines[at + 1 :]
        unf = []
        while rest and (rest[0].startswith("unfolding ") or rest[0].startswith("    ") and not re.match(rf"{re.escape(name)} ", rest[0])):
            unf.append(rest.pop(0))
        unf = [u for u in unf if "unfolding" in u or unf and u.startswith(" ")]
        body = "\n".join(rest)
        m = re.match(rf"{re.escape(name)} ({WORD})((?: {WORD})*?) =(?=\s)", body)
        if not m:
            self.look(f"the answer `{name}` is not read")
            return b
        if re.fullmatch(r"\s*search rules\s*", body[m.end() :]):
            return None
        args = [a for a in m[2].split() if a != "κs"]
        if row is None:
            self.look(f"no goal `{need}`")
            new, place = need, None
        else:
            new, place = row
            if new is None:
                return None
        text = self.turn_body(body[m.end() :], {m[1]}, place)
        text, more_unf = self.with_lets(text, place)
        unf = unf + [f"unfolding {u}" for u in more_unf]
        out = f"{new} c{''.join(' ' + a for a in args)} ={text}"
        fields = next((f for k, f in self.n.row["asked"].items() if norm(k) in (key, norm(need)) or k == new), None)
        if fields:
            pass
        elif new == "returns" or re.match(r"returns-", new):
            fields = self.own_clauses(1)
        if fields:
            got = self.record_of(out, fields)
            if got is None:
                self.look(f"`{new}` has the clauses {', '.join(fields)}")
            else:
                out = got
        return "\n".join([*note, f"pub {new} : goal.{new}", *one_line(unf), out])

    def callee(self, place, new):
        fn = new.split("-")[0]
        rows = [r for (c, f), rs in self.clauses.items() if f == fn for r in rs if len(r[0]) > 1]
        return rows[0][0] if len(rows) == 1 else None

    def helper(self, b, name):
        h = self.helpers.get(name)
        if not h:
            if "tie." in b:
                self.look(f"`{name}` cites tie")
            return b
        place, var = h
        new = self.n.new_place.get(place, "?")
        b = re.sub(r"tie\.[^\s)]+(?: invariant-loop decreases-loop)?", f"goal.{new}", b, count=1)
        b = re.sub(rf"\({re.escape(var)} :", "(c :", b, count=1)
        asked = {a[1] for a in self.n.row["asked_at"]}
        if new not in asked:
            self.look(f"`{name}` is of the place {new}, where no goal is asked")
        head, rest = b.split("\n")[0], "\n".join(b.split("\n")[1:])
        rest = re.sub(rf"^{re.escape(name)} (?!:){WORD}(?=[ \n])", f"{name} c", rest, flags=re.M)
        first = re.match(rf"(.*?goal\.{re.escape(new)}\)?)(.*)", head, re.S)
        me = self.helpers.pop(name)
        tail = self.turn_body((first[2] if first else "") + "\n" + rest, {var, "c"}, place)
        self.helpers[name] = me
        eq = re.search(rf"^{re.escape(name)} c[^=\n]* =(?=\s)", tail, re.M)
        if eq and self.inline:
            body, unf = self.with_lets(tail[eq.end() :], place, name)
            tail = tail[: eq.start()] + "".join(f"unfolding {u}\n" for u in unf) + eq[0] + body
            tail = re.sub(r"(?m)^unfolding (.*)\nunfolding (.*)$", r"unfolding \1 \2", tail)
        return (first[1] if first else head) + tail


def main(crates):
    every = [l.split(":")[0].split()[0] for l in read("crates.txt").split("\n") if l.strip() and not l.startswith("#")]
    clauses = clauses_of(every)
    for crate in crates:
        said = []
        out = tempfile.mkdtemp()
        top = os.path.join("crates", crate)
        run = subprocess.run(["rt", "check", "--generated", out, "--old-names"], cwd=top, capture_output=True, text=True)
        path = os.path.join(out, "names.json")
        if not os.path.isfile(path):
            print(run.stdout[-3000:], run.stderr[-3000:])
            raise SystemExit(f"{crate}: no names")
        rows = json.loads(read(path))
        for folder, _, names in sorted(os.walk(os.path.join(top, "proofs"))):
            if "Proof.antt" not in names:
                continue
            fn = os.path.relpath(folder, os.path.join(top, "proofs"))
            row = rows.get(f"Rattle-{crate}-proofs.{fn.replace('/', '.')}.Lts")
            if row is None:
                print(f"look: {fn}: no such function")
                continue
            t = Turn(crate, fn, Names(row), clauses, said)
            try:
                t.file(read(os.path.join(folder, "Proof.antt")))
            except Exception as e:
                said.append(f"look: {fn}: {type(e).__name__} {e}")
        for line in said:
            print(line)


main(sys.argv[1:])
