#!/usr/bin/env python3
"""Spells the repository's own definitions, lemmas and fields in snake case, and its functions into Type in upper camel case.

usage: respell.py [ROOT]      once, on the tree that the kit's port.py left

`boxFrom` becomes `box_from`, `floor-pos` becomes `floor_pos`. What a file imports from the kit stays, and so does what the kit makes (behind `tie.`).
Names of src/ (functions, types, fields, parameters), strings, inputs and outputs stay. In the text of must-fail edits the names change as in the files
that they speak of; in comments and pages only names that stand in backquotes or are in camel case, and only where the new name is declared.
Names that would fall together in a file are printed, and get the spelling of OWN.
"""
import collections
import glob
import os
import re
import sys

NAME = r"[^\s(){}.;,@\"«»\[\]|\\]+"
ODD = re.compile(r"^[a-zλμ][^\s]*?(-[^\s]|[a-z0-9'][A-Z])")
# functions into Type, and names that would fall together with another
OWN = {
    "runOn": "RunOn", "numberOn": "NumberOn", "pairOn": "PairOn", "ringOn": "RingOn", "lineOn": "LineOn", "postOn": "PostOn",
    "adds-up": "numbers_add_up", "numbers-in": "numbers_in_domain", "box-right": "box_is_right", "points-in": "points_are_in",
    "all-inside": "all_inside_lem", "all-to": "all_to_lem", "entries-in": "entries_in_lem", "events-over": "events_over_lem",
    "found-by": "found_by_lem", "given-at": "given_at_lem", "grid-of": "grid_of_lem", "has-cell": "has_cell_lem", "in-part": "in_part_lem",
    "index-over": "index_over_lem", "is-first": "is_first_lem", "is-nan": "is_nan_lem", "item-logged": "item_logged_lem", "look-by": "look_by_lem",
    "new-kept": "new_kept_lem", "no-marks": "no_marks_lem", "plan-of": "plan_of_lem", "plan-status": "plan_status_lem", "post-end": "post_end_lem",
    "range-of": "range_of_lem", "rays-over": "rays_over_lem", "root-at": "root_at_lem", "rust-cast": "rust_cast_lem",
    "rust-course": "rust_course_lem", "rust-nearer": "rust_nearer_lem", "rust-rays": "rust_rays_lem", "rust-run": "rust_run_lem",
    "sound-plain": "sound_plain_lem", "sum-to": "sum_to_lem", "width-from": "width_from_lem",
}
# (file, name): spelling there alone
HERE = {
    ("crates/sweep/proofs/Freely.antt", "turn_by"): "turn_by_lem",
    ("crates/sweep/proofs/Visible.antt", "turn_by"): "turn_by_lem",
    ("crates/demand/proofs/Outlines.antt", "listed_by"): "listed_by_lem",
    ("crates/build/proofs/RefusedWhen.antt", "has_room"): "has_room_lem",
    ("crates/tables/proofs/All.antt", "item_count"): "item_count_lem",
    ("crates/tables/proofs/total/Proof.antt", "item_count"): "item_count_lem",
    ("crates/build/proofs/Spans.antt", "item_count"): "item_count_lem",
    ("crates/near/proofs/TablesNear.antt", "before"): "Before",
}
LEAVE = {"must-fail"}


def snake(w):
    if w in OWN:
        return OWN[w]
    w = re.sub(r"(?<=[a-z0-9'₀-₉])([A-Z]+)(?=$|[^A-Za-z])", lambda m: "_" + m[1].lower(), w)
    w = re.sub(r"(?<=[a-z0-9'₀-₉])[A-Z](?=[a-z0-9])", lambda m: "_" + m[0].lower(), w)
    return w.replace("-", "_")


def crates_of(root):
    with open(os.path.join(root, "crates.txt"), encoding="utf-8") as f:
        return [m[1] for m in re.finditer(r"(?m)^([a-z_]+):", f.read())]


def read(p):
    with open(p, encoding="utf-8", newline="") as f:
        return f.read()


def kit_names(text, crates):
    """What the file imports from elsewhere than this repository."""
    names, heads = set(), set()
    for m in re.finditer(r"(?m)^(?:pub )?(?:ghost )?use ([^\s;{]+?)(?:\.\{([^}]*)\})?(?: as (\S+?))?;?$", text):
        steps = m[1].split(".")
        if steps[0] == "Rattle" and len(steps) > 1 and steps[1] in crates:
            continue
        for n in (m[2] or "").split(","):
            n = n.strip()
            if n:
                names.add(n.split(" as ")[-1].strip())
        if m[2] is None:
            heads.add(m[3] or steps[-1])
    return names, heads


PIECE = re.compile(r"--[^\n]*|\"(?:[^\"\\\n]|\\.)*\"|«[^»]*»|" + NAME)
RT = re.compile(r"//[^\n]*|b?\"(?:[^\"\\]|\\.)*\"|b?'(?:[^'\\\n]|\\.)'|(?<!\w)[A-Za-z_][\w']*(?:-[A-Za-z_0-9][\w']*)*")
MADE = re.compile(r"^(tie|Lts|Tie)$")


class Turner:
    def __init__(self, root):
        self.root = root
        self.crates = crates_of(root)
        self.declared = set()
        self.met = collections.defaultdict(lambda: collections.defaultdict(set))

    def turn_name(self, w, path, kit):
        if (path, w) in HERE:
            return HERE[path, w]
        if not ODD.match(w) or w in kit or w in LEAVE:
            return w
        return snake(w)

    def antt(self, text, path, kit=None):
        names, heads = kit if kit is not None else kit_names(text, self.crates)
        out, last = [], 0
        for m in PIECE.finditer(text):
            w = m[0]
            out.append(text[last:m.start()])
            last = m.end()
            if w.startswith("--"):
                w = self.comment(w)
            elif w[0] not in "\"«":
                before = text[:m.start()]
                head = re.search(r"([^\s(){};,@\"«»\[\]|\\]+)\.$", before[-200:])
                first = head[1].split(".")[0] if head else ""
                if first == "Rattle" and (head[1].split(".") + [w])[1] not in self.crates:
                    pass
                elif head and (MADE.match(first) or first in heads or first in ("lib", "mathlib", "native", "Prim", "borrow")):
                    pass
                else:
                    n = self.turn_name(w, path, names)
                    self.met[path][n].add(w)
                    w = n
            out.append(w)
        out.append(text[last:])
        return "".join(out)

    def rt(self, text, path, kit=None):
        names, _ = kit if kit is not None else kit_names(text, self.crates)
        out, last = [], 0
        for m in RT.finditer(text):
            w = m[0]
            out.append(text[last:m.start()])
            last = m.end()
            if w.startswith("//"):
                w = self.comment(w)
            elif '"' not in w and not (w[0] == "'" or w.startswith("b'")):
                n = self.turn_name(w, path, names)
                self.met[path][n].add(w)
                w = n
            out.append(w)
        out.append(text[last:])
        return "".join(out)

    def comment(self, text):
        def quoted(m):
            return "`" + re.sub(NAME, lambda k: self.known(k[0]), m[0][1:-1]) + "`"
        text = re.sub(r"`[^`\n]*`", quoted, text)
        return re.sub(r"(?<![\w`/.-])[a-z][a-z0-9]*[A-Z]\w*", lambda m: self.known(m[0]), text)

    def known(self, w):
        if not ODD.match(w) or w in LEAVE:
            return w
        n = snake(w)
        return n if n in self.declared else w


def declared_in(text):
    t = re.sub(r"--[^\n]*", "", text)
    for m in re.finditer(r"(?m)^ *(?:(?:pub|abbrev|unfoldable|pattern|record|data|axiom) )*(" + NAME + r")(?: [({]|(?: \{[^{}\n]*\})* :)", t):
        yield m[1]


def main(argv):
    root = argv[0] if argv else "."
    it = Turner(root)
    antt = sorted(p for c in it.crates for d in ("specs", "proofs") for p in glob.glob(os.path.join(root, "crates", c, d, "**", "*.antt"), recursive=True))
    rts = sorted(p for c in it.crates for p in glob.glob(os.path.join(root, "crates", c, "src", "**", "*.rt"), recursive=True))
    for p in antt:
        for n in declared_in(read(p)):
            it.declared.add(snake(n) if ODD.match(n) else n)
    new = {}
    for p in antt:
        new[p] = it.antt(read(p), os.path.relpath(p, root))
    for p in rts:
        new[p] = it.rt(read(p), os.path.relpath(p, root))
    for c in it.crates:
        for p in sorted(glob.glob(os.path.join(root, "crates", c, "must-fail", "*.edit"))):
            lines, kit, rt = [], (set(), set()), True
            for line in read(p).split("\n"):
                m = re.match(r"(file|old|new):( ?)(.*)$", line)
                if m and m[1] == "file":
                    f = os.path.join(root, "crates", c, m[3].strip())
                    rt = f.endswith(".rt")
                    kit = kit_names(read(f), it.crates) if os.path.exists(f) else kit
                elif m:
                    body = (it.rt if rt else it.antt)(m[3], os.path.relpath(p, root), kit)
                    line = m[1] + ":" + m[2] + body
                lines.append(line)
            new[p] = "\n".join(lines)
    for p in [os.path.join(root, "README.md")] + sorted(glob.glob(os.path.join(root, "docs", "*.md"))) + sorted(glob.glob(os.path.join(root, "docs", "requests", "*.md"))):
        new[p] = re.sub(r"`[^`\n]*`", lambda m: "`" + re.sub(NAME, lambda k: it.known(k[0]), m[0][1:-1]) + "`", read(p))
    n = 0
    for path, names in it.met.items():
        if path.endswith(".edit"):
            continue
        for name, olds in names.items():
            if len(olds) > 1:
                print(f"together: {path}: {name}: {', '.join(sorted(olds))}")
                n += 1
    print(f"{n} names fall together")
    if "--write" in argv:
        for p, t in new.items():
            if t != read(p):
                with open(p, "w", encoding="utf-8", newline="") as f:
                    f.write(t)
    return 0


if __name__ == "__main__":
    sys.exit(main(sys.argv[1:]))
