#!/usr/bin/env python3
"""Turns proofs that list their goals, `tie.close (tie.spec ..)`, to Invariants.antt and Answers.antt: run it at the top, as answers.py NAMES BEFORE CRATE..

NAMES holds what `rt names` wrote of the crates, BEFORE a checkout of the repository before it was turned. An answer that only searches goes. What it cannot turn it says.
"""
import glob
import json
import os
import re
import sys

NAME = r'[^\s(){}.;,@"«»\[\]]+'
TOP = re.compile(r"(?m)^(?=\S)")


def norm(name):
    return re.sub("_lem$", "", name).replace("_", "-").replace("′", "'")


def items_of(text):
    """The items at the left margin, each with the comments above it."""
    parts, held = [], ""
    for block in re.split(r"(?m)^(?=[^\s)}\]])", text):
        if not block.strip():
            continue
        if block.startswith("--"):
            held += block
            continue
        parts.append((held, block))
        held = ""
    return parts, held


def helpers_joined(helpers):
    """One text for each lemma: its comment, its signature and its clauses."""
    out = []
    for it in helpers:
        m = re.match(r"(?:--[^\n]*\n)*(?:(?:abbrev|pub) )*(" + NAME + r") :", it)
        name = re.match(r"(?:--[^\n]*\n)*(" + NAME + r")[\s]", it)
        if out and not m and (it.startswith("unfolding") or name):
            out[-1] += it
        else:
            out.append(it)
    return out


class Function:
    def __init__(self, crate, folder, facts, said):
        self.crate, self.folder, self.facts, self.said = crate, folder, facts, said
        self.where = f"crates/{crate}/proofs/{folder}"
        self.steps, self.arms = {}, []
        self.callee = {}
        for at, place in enumerate(facts["places"]):
            old, new = place[2]
            if old:
                self.steps.setdefault(norm(old), new)
                if place[3]:
                    self.callee.setdefault(norm(old), place[3])
        for arm in facts["arms"]:
            if arm:
                for field, old, path in arm[2]:
                    self.arms.append((arm[0], field, norm(old), [norm(p) for p in path]))
        self.needs, self.asked = {}, {}
        for (old, new), (place, _) in zip(facts["needs"], facts["asked_at"]):
            self.needs[norm(old)] = new
            self.asked[new] = norm(place)
        self.parent = {norm(p[0]): p[1] and norm(p[1]) for p in facts["places"]}
        self.place = {norm(p[0]): new for p, new in zip(facts["places"], facts["places_by_name"])}
        self.imports, self.lemmas, self.here = set(), {}, ""

    def type_of(self, name):
        """Today's name of the record of a place."""
        new = self.place.get(norm(name))
        if not new:
            self.say(f"no place {name}")
            return name
        self.imports.add(new)
        return new

    def helper(self, text):
        """A lemma over the records of places: its paths are flat, and a place handed on keeps its way."""
        comment = re.match(r"(?:--[^\n]*\n)*", text)[0]
        text = text[len(comment):]
        sig = re.match(r"(?:abbrev )?(?:pub )?(" + NAME + r") :((?:.|\n)*?)(?=\n\S)", text)
        if not sig or "tie." not in text:
            return comment + text
        kinds, depth, part, parts = [], 0, "", []
        for token in re.findall(r"[({]|[)}]|→|[^(){}→]+", sig[2]):
            depth += (token in "({") - (token in ")}")
            if token == "→" and depth == 0:
                parts.append(part)
                part = ""
            else:
                part += token
        names = set()
        for it in parts:
            it = it.strip()
            explicit = not it.startswith("{")
            m = re.match(r"\(((?:" + NAME + r" )+): tie\.(" + NAME + r")\)\s*$", it)
            if m:
                names.update(m[1].split())
                kinds += [m[2]] * len(m[1].split())
            elif re.match(r"tie\.(" + NAME + r")\s*$", it):
                kinds.append(it[4:])
            elif explicit:
                m = re.match(r"\(((?:" + NAME + r" )+):", it)
                n = 0
                for group in re.findall(r"\(((?:" + NAME + r" )+):", it) if m else [""]:
                    n += max(1, len(group.split()))
                kinds += [None] * max(1, n)
        for clause in re.findall(r"(?m)^" + re.escape(sig[1]) + r"((?: [^=\n]*?)?) =(?=\s)", text):
            args = re.findall(r"\{[^}]*\}|\([^)]*\)|" + NAME, clause)
            args = [a for a in args if not a.startswith("{")]
            names.update(a for a, k in zip(args, kinds) if k)
        text = re.sub(r"\btie\.(" + NAME + r")", lambda m: self.type_of(m[1]), text)
        self.lemmas[sig[1]] = kinds
        self.here = norm(next((k for k in kinds if k), ""))
        return comment + self.flat(text, {n: n for n in names}, None)

    def flat(self, text, ways, goal):
        """Turns the paths that begin at places. `ways` has the way to each place by name; `goal` is the goal's new name, or None in a lemma."""
        while True:
            m = None
            for it in re.finditer(r"let (" + NAME + r") = (" + NAME + r")((?:\.before)+) in\s*", text):
                if it[2] in ways:
                    m = it
                    break
            if not m:
                break
            ways[m[1]] = ways[m[2]] + m[3]
            text = text[: m.start()] + text[m.end():]
        roots = {w.split(".")[0] for w in ways.values()}

        def bare(lemma, name):
            """A place handed to a lemma, by the place that the lemma asks for."""
            kind = next((k for k in self.lemmas.get(lemma, []) if k), None)
            if not kind:
                self.say(f"the place {name} is handed to {lemma}")
                return f"{lemma} {name}"
            if goal is None:
                at, befores = self.here, 0
                while at and at != norm(kind):
                    at, befores = self.parent.get(at), befores + 1
                if not at:
                    self.say(f"no way from {self.here} to {kind}")
                return f"{lemma} {name}" + ".before" * befores
            return f"{lemma} (goal.at.{goal} c).{self.place.get(norm(kind), kind)}"

        def one(m):
            name, fields = m[1], (m[2] or "")[1:].split(".") if m[2] else []
            if name not in ways:
                return m[0]
            befores = 0
            while befores < len(fields) and fields[befores] == "before":
                befores += 1
            if befores == len(fields):
                return f"⟦{ways[name].split('.')[0]}⟧"
            root = ways[name].split(".")[0]
            path = self.path(fields[befores:])
            return root + path[1:]
        text = re.sub(r"(?<![^\s(){};,@\[\]])(?<!\.)(" + NAME + r")((?:\.(?:" + NAME + r"))+)?(?![^\s(){};,@\[\].])", one, text)
        text = re.sub(r"(" + NAME + r") ⟦(\S*?)⟧", lambda m: f"{m[1]} {m[2]}" if m[1] == ":" else bare(m[1], m[2]), text)
        return re.sub(r"⟦(\S*?)⟧", r"\g<1>", text)

    def say(self, text):
        self.said.append(f"{self.where}: {text}")

    def path(self, fields):
        """What stands behind a place: fields after the `.before`s."""
        while fields and fields[0] == "before":
            fields = fields[1:]
        if not fields:
            return None
        first = norm(fields[0])
        if first in ("args", "requires", "ranges", "type-inv", "well-formed", "utf8"):
            return "c." + ".".join(fields)
        rest = [norm(f) for f in fields[1:]]
        best = None
        for step, field, old, path in self.arms:
            if old == first and rest[: len(path)] == path and path and (best is None or len(path) > len(best[2])):
                best = (step, field, path)
        if best and not (first in self.steps and best[2] == []):
            step, field, path = best
            return ".".join(["c", step, field] + fields[1 + len(path):])
        if first in self.steps:
            tail = fields[1:]
            if tail and tail[0] == "new" and first in self.callee:
                params = self.facts["params"].get(self.callee[first])
                n = 1
                while n < len(tail) and tail[n] == "1":
                    n += 1
                if params and n < len(tail) and tail[n] == "0" and n - 1 < len(params):
                    tail = ["new", params[n - 1]] + tail[n + 1:]
                elif len(tail) > 1 and tail[1] in ("0", "1"):
                    self.say(f"new: {'.'.join(fields)}")
            return ".".join(["c", self.steps[first]] + tail)
        self.say(f"no step {fields[0]} in {'.'.join(fields)}")
        return "c." + ".".join(fields)

    def turn(self, text, before):
        parts, end = items_of(text)
        old_goals = dict()
        sig = re.compile(r"^(?:abbrev )?(?:pub )?(" + NAME + r") : tie\.((?:Need|invariant|decreases)" + NAME + r")")
        old_sigs = [m[2] for _, b in items_of(before)[0] if (m := sig.match(b))]
        new_sigs = [m[2] for _, b in parts if (m := sig.match(b))]
        paired = dict(zip(range(len(new_sigs)), old_sigs)) if len(old_sigs) == len(new_sigs) else {}
        uses, invariants, answers, helpers, head = [], [], [], [], ""
        at, n = 0, -1
        index = 0
        while index < len(parts):
            comment, block = parts[index]
            index += 1
            if block.startswith(("use ", "pub use ")):
                if not uses and comment:
                    head = comment
                elif comment:
                    helpers.append(comment)
                if not re.search(r"\.(Statement\.\{statement\}|Tie as tie)\s*$", block.strip()) and "borrow.Author.Rules.{rules}" not in block:
                    uses.append(block)
                elif "borrow.Author.Rules" in block:
                    uses.append(block)
                continue
            m = sig.match(block)
            if not m:
                if re.match(r"pub " + NAME + r" :.*statement M", block):
                    index += 1
                    continue
                helpers.append(comment + block)
                while index < len(parts) and not sig.match(parts[index][1]) and not parts[index][1].startswith("pub ") :
                    helpers.append(parts[index][0] + parts[index][1])
                    index += 1
                continue
            n += 1
            name, goal = m[1], m[2]
            body_comment, body = "", ""
            middle = ""
            if index < len(parts) and parts[index][1].startswith("unfolding "):
                middle = parts[index][1]
                index += 1
            clauses = []
            while index < len(parts) and parts[index][1].split()[0] == name:
                clauses.append(parts[index][0] + parts[index][1])
                index += 1
            if goal.startswith(("invariant", "decreases")):
                invariants.append((goal, comment, "".join(clauses), name))
                continue
            if not goal.startswith("Need-"):
                self.say(f"goal {goal}")
                helpers.append(comment + block + middle + "".join(clauses))
                continue
            goal = goal[5:]
            tries = [goal, paired.get(n, "")[5:], re.sub(r"^(overflow|nonzero)-", "", goal)]
            new = next((self.needs[norm(t)] for t in tries if norm(t) in self.needs), None)
            if new is None and re.fullmatch(re.escape(name) + r" c( κs)? =\s*search rules\s*", "".join(clauses)) and not middle:
                continue
            if new is None:
                self.say(f"no goal for {goal} ({paired.get(n)})")
                new = goal
            answers.append((new, comment, middle, clauses, name))
        out_i, out_a = [], []
        loops = {norm(l[0][0]): (l[0][1], l[1], ch) for l, ch in zip(self.facts["loops"], self.facts["changed"])}
        for goal, comment, clause, name in invariants:
            kind, loop = goal.split("-", 1)
            if norm(loop) not in loops:
                self.say(f"no loop {goal}: {list(loops)}")
                out_i.append(comment + f"abbrev pub {goal} : goal.{goal}\n" + clause)
                continue
            new, names, changed = loops[norm(loop)]
            m = re.match(re.escape(name) + r"((?: +\S+)*?) =(?=\s)", clause)
            params = m[1].split() if m else []
            want = [(f"l.initial.{v}" if c else f"l.{v}") for v, c in zip(names, changed)] + [f"l.{v}" for v, c in zip(names, changed) if c]
            if len(want) != len(params):
                self.say(f"{goal}: {len(params)} parameters, and {len(want)} expected: {params} {want}")
            body = clause[m.end():]
            for p, w in zip(params, want):
                if p != "_":
                    body = re.sub(r"(?<![^\s(){};,@\[\]])(?<!\.)" + re.escape(p) + r"(?![^\s(){}.;,@\[\]])(?! [=:] )", lambda _: w.replace("l.", "\0."), body)
            body = body.replace("\0.", "l.")
            out_i.append(comment + f"abbrev pub {kind}-{new} : goal.{kind}-{new}\n{kind}-{new} l ={body.rstrip()}\n\n")
        helpers = [self.helper(h) for h in helpers_joined(helpers)]
        for new, comment, middle, clauses, name in answers:
            text = "".join(clauses)
            if re.fullmatch(re.escape(name) + r" c( κs)? =\s*search rules\s*", text) and not middle:
                continue
            text = text.replace(name, new, 1) if len(clauses) == 1 else re.sub(r"(?m)^" + re.escape(name) + r"(?=\s)", new, text)
            text = re.sub(r"^(" + re.escape(new) + r" c) κs(?= )", r"\1", text)
            left, eq, body = text.partition(" =")
            text = left + eq + self.flat(body, {"c": "c"}, new)
            text = re.sub(r"(\bc\.(?:if|loop|in)[\w.-]*?)\.taken\b", r"\1.true", text)
            text = re.sub(r"(\bc\.(?:if|loop|in)[\w.-]*?)\.left\b", r"\1.false", text)
            out_a.append(comment + f"pub {new} : goal.{new}\n" + middle + text.rstrip() + "\n\n")
        here = f"Rattle.{self.crate}.proofs.{self.folder.replace('/', '.')}"
        files = {}
        if out_i:
            files["Invariants.antt"] = head + "".join(uses) + f"use {here}.Given as goal\n\n" + "".join(out_i)
        if out_a or helpers:
            more = f"use {here}.Goals.{{{', '.join(sorted(self.imports))}}}\n" if self.imports else ""
            files["Answers.antt"] = head + "".join(uses) + f"use {here}.Goals as goal\n" + more + "\n" + "".join(helpers) + "".join(out_a) + end
        return {k: v.rstrip() + "\n" for k, v in files.items()}


def main(names, before, crates):
    said = []
    for crate in crates:
        facts = json.load(open(f"{names}/{crate}/names.json"))
        for path in sorted(glob.glob(f"crates/{crate}/proofs/**/Proof.antt", recursive=True)):
            folder = os.path.dirname(path)[len(f"crates/{crate}/proofs/"):]
            text = open(path, encoding="utf-8").read()
            key = f"Rattle-{crate}-proofs.{folder.replace('/', '.')}.Lts"
            if "tie.close" not in text or key not in facts:
                said.append(f"{path}: left as it is ({key in facts})")
                continue
            old = f"{before}/{path}"
            function = Function(crate, folder, facts[key], said)
            files = function.turn(text, open(old, encoding="utf-8").read() if os.path.exists(old) else text)
            os.remove(path)
            for name, new in files.items():
                open(os.path.join(os.path.dirname(path), name), "w", encoding="utf-8").write(new)
            if not os.listdir(os.path.dirname(path)):
                os.rmdir(os.path.dirname(path))
    print("\n".join(said))
    return 0


if __name__ == "__main__":
    sys.exit(main(sys.argv[1], sys.argv[2], sys.argv[3:]))
