#!/usr/bin/env python3
"""Brings this repository's own names to today's spelling: once, at the top, after the kit's own script has run.

Definitions, lemmas, fields and variables of specs/ and proofs/ that are written in camelCase or with dashes become snake_case. Names of the kit's
libraries, names that the kit generates, types and modules keep theirs. It says where two names would fall together, and writes nothing then."""
import os, re, sys, collections

TOKEN = re.compile(r"[^\s(){}\[\],;.«»:|\"`⌜⌝]+")
DECL = re.compile(r"^(\s*)((?:unfoldable |abbrev |pub |data |record )*)([^\s(){}\[\],;.«»:|\"`=→λ]+)((?: [^\s(){}\[\],;.«»:|\"`=→λ]+)*)(?: \([^=]*?\))* : (.*)")
GENERATED = re.compile(r"\b(tie|goal)\.")


# a lemma that would have a definition's name
LEMMAS = {
    "over-marked": "over_marked_lem", "pattern-share": "pattern_share_lem", "zeroed-x": "zeroed_x_lem", "zeroed-y": "zeroed_y_lem",
    "stats-agree": "stats_agree_lem", "inverse-told": "inverse_told_lem", "is-put": "is_put_lem", "is-nan": "is_nan_lem",
    "tmp-norm": "tmp_norm_lem", "img-norm": "img_norm_lem",
}
# the same in one file alone, or in a crate
LEMMAS_IN = {
    "sums/proofs/Folds.antt": {"j-at": "j_here"},
    "vectors/proofs/Sides.antt": {"is-side": "is_side_lem"},
    "options/proofs/Fields.antt": {"on_value": "on_value_lem"},
    "pgm2rec/proofs/": {"all_read": "all_read_lem"},
    "vectors/proofs/Parts.antt": {"rows_told": "rows_told_lem", "rows_agree": "rows_agree_lem"},
    "vectors/proofs/passes/rows_marked/Proof.antt": {"rows_told": "rows_told_lem"},
    "rows/proofs/": {"rows_agree": "rows_agree_lem"},
}


def snake(t):
    if t in LEMMAS:
        return LEMMAS[t]
    core = t
    if re.search(r"[a-z0-9][A-Z]", core) and core[0].islower():
        core = re.sub(r"(?<=[a-z0-9])([A-Z]+)(?=[A-Z][a-z]|[^a-zA-Z]|$)|(?<=[a-z0-9])([A-Z])", lambda m: "_" + m.group(0).lower(), core)
    if re.search(r"\w-\w|['⊎≡]-\w", core):
        core = core.replace("-", "_")
    return core


def files(root):
    for folder, dirs, names in os.walk(os.path.join(root, "crates")):
        dirs[:] = sorted(d for d in dirs if d not in ("out", "must-fail"))
        for f in sorted(names):
            if f.endswith((".antt", ".rt")):
                yield os.path.join(folder, f)


def crates(root):
    return {c for c in os.listdir(os.path.join(root, "crates"))}


def uses(text, own):
    """What the use lines bring in: own names, and names of the kit."""
    mine, other = set(), set()
    for m in re.finditer(r"^\s*(?:pub )?(?:ghost )?use ([^\s{;]+?)(?:\.\{([^}]*)\})?(?: as (\S+?))?;?\s*$", text, re.M):
        path, items = m.group(1), m.group(2)
        parts = path.split(".")
        is_own = parts[0] == "Rattle" and len(parts) > 1 and parts[1] in own
        generated = is_own and ("declared" in parts or parts[-1] in ("Statement", "Tie", "Goals", "Given"))
        for it in (items or "").split(","):
            it = it.strip()
            if not it:
                continue
            words = it.split(" as ")
            (mine if is_own and not generated else other).update(w.strip("«» ") for w in words)
    return mine, other


def tokens_to_rename(path, text, own_defs, own_fields, own):
    mine, other = uses(text, own)
    generated = set()
    if path.endswith(".antt"):
        for l in text.splitlines():
            m = DECL.match(l)
            if m and re.match(r"(tie|goal)\.", m.group(5)):
                generated.add(m.group(3))
            if "statement M" in l and m:
                pass
        for m in re.finditer(r"\b(?:tie|goal)\.([^\s(){}\[\],;.«»:|\"`]+)", text):
            generated.add(m.group(1))
    return mine, other, generated


def main(root):
    own = crates(root)
    texts = {p: open(p, encoding="utf-8").read() for p in files(root)}
    defs, fields = collections.defaultdict(set), collections.defaultdict(set)
    for p, t in texts.items():
        if not p.endswith(".antt"):
            continue
        in_record = None
        for l in t.splitlines():
            if l.strip().startswith("--"):
                continue
            ind = len(l) - len(l.lstrip())
            if re.match(r"\s*(pub )?(record|data) ", l):
                in_record = ind
                continue
            if in_record is not None and l.strip() and ind <= in_record:
                in_record = None
            m = DECL.match(l)
            if m and not re.match(r"(tie|goal)\.", m.group(5)):
                for n in [m.group(3)] + m.group(4).split():
                    if n in ("pub", "abbrev", "unfoldable", "use", "module", "record", "data", "elim", "let"):
                        continue
                    (fields if in_record is not None else defs)[n].add(p)
    renames = {n: snake(n) for n in list(defs) + list(fields) if snake(n) != n}
    said, clashes = [], []
    out = {}
    for p, t in texts.items():
        is_rt = p.endswith(".rt")
        mine, other, generated = tokens_to_rename(p, t, defs, fields, own)
        local = {}
        alone = {a: b for part, names in LEMMAS_IN.items() if part in p for a, b in names.items()}

        def turn(tok, before, comment, after_dot):
            new = snake(tok)
            if tok in alone and not after_dot and not comment:
                local.setdefault(alone[tok], set()).add(tok)
                return alone[tok]
            if new == tok:
                return tok
            if comment:
                return new if "-" not in tok and tok in renames else tok
            if after_dot:
                return new if tok in fields and tok in renames else tok
            if is_rt:
                return new if tok in renames and tok not in other else tok
            if tok in other and tok not in mine:
                return tok
            if tok in generated or tok.endswith("-spec"):
                return tok
            if tok in renames or "-" in tok or True:
                local.setdefault(new, set()).add(tok)
                return new
            return tok

        lines = []
        for l in t.split("\n"):
            mark = "//" if is_rt else "--"
            code, sep, rest = l, "", ""
            k = re.search(r"(^|\s)" + re.escape(mark) + r"(\s|$|-)", l)
            if k:
                at = k.start() + len(k.group(1))
                code, rest = l[:at], l[at:]

            def go(s, comment):
                res, last = [], 0
                for m in TOKEN.finditer(s):
                    res.append(s[last:m.start()])
                    prev = s[m.start() - 1] if m.start() else " "
                    use = re.match(r"\s*(pub )?(ghost )?use ", s)
                    dot = prev == "." and not (use and "{" in s[:m.start()])
                    if use and "{" not in s[:m.start()] and " as " not in s[:m.start()]:
                        res.append(m.group(0))
                    elif m.group(0).startswith("b'") or m.group(0).startswith("'"):
                        res.append(m.group(0))
                    else:
                        res.append(turn(m.group(0), s[:m.start()], comment, dot))
                    last = m.end()
                res.append(s[last:])
                return "".join(res)

            if is_rt and '"' in code:
                lines.append(l)
            else:
                lines.append(go(code, False) + go(rest, True))
        new = "\n".join(lines)
        # names that fall together in a file
        had = {m.group(0) for m in TOKEN.finditer(t)}
        for n, olds in local.items():
            if len(olds) > 1 or (n in had and n not in olds):
                clashes.append((p, n, sorted(olds), n in had))
        out[p] = new
    for n, r in sorted(renames.items()):
        if r in defs or r in fields:
            said.append((n, r, sorted(defs.get(n, set()) | fields.get(n, set()))[:2], sorted(defs.get(r, set()) | fields.get(r, set()))[:2]))
    return out, clashes, said, renames


if __name__ == "__main__":
    out, clashes, said, renames = main(".")
    for c in clashes:
        print("falls together:", *c)
    if "--show" in sys.argv:
        for s in said:
            print("also a name:", *s)
        print(len(renames), "names")
    if clashes and "--anyway" not in sys.argv:
        raise SystemExit(1)
    if "--write" in sys.argv:
        for p, t in out.items():
            if open(p, encoding="utf-8").read() != t:
                open(p, "w", encoding="utf-8").write(t)
