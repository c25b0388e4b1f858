#!/usr/bin/env python3
"""Lists the places of src/ that docs/DESIGN-PASS.md counts, point by point, by fixed rules over the text.

usage: python3 tools/places.py [POINT..]      at the top of the repository; without POINT the counts of all

1  own enums with a variant that says no (Refused, Failed, Stuck, None, Any); structs with a flag `fits` or an `answer` beside a value; functions that answer
   a refusal's number as u8; constants that number kinds
2  functions whose text is another's but for names, types and numbers; arrays of SMALL and of SIZE made in one function
3  `while` loops
4  functions whose body is one comparison, choice or conversion of its arguments; functions named same_, copy, names
5  facts of `requires` that three or more functions of a crate ask for; groups of three or more parameters, name and type, that three or more functions of a crate share
6  parameter lists with a buffer and the place in it (`at: usize`); structs with a count beside an array; bytes that stand for a struct (PLAN_SIZE)
7  functions with a parameter `write: bool`; enums that name a step to run (Kind)
"""
import collections
import glob
import os
import re
import sys

def code(text):
    return re.sub(r"//[^\n]*", "", text)

def functions(text):
    """(name, line, params, result, requires, body) of each function of a file."""
    out = []
    for m in re.finditer(r"(?m)^[ \t]*(?:pub )?(?:extern \"C\" )?fn (\w+)(<[^(]*>)?\(", text):
        i, deep = m.end(), 1
        while deep:
            deep += {"(": 1, ")": -1}.get(text[i], 0)
            i += 1
        params = text[m.end():i - 1]
        # clauses hold braces: the body is the first brace that is no clause's
        j, clauses, result = i, [], ""
        r = re.match(r"\s*->\s*([^\n{]+?)(?=\s*(?:\n|\{))", text[i:])
        if r:
            result = r[1]
            j = i + r.end()
        while True:
            c = re.match(r"\s*(requires|ensures)\s*(?:by\b)?\s*(\w+)?\s*\{", text[j:])
            if not c:
                break
            k, deep = j + c.end(), 1
            while deep:
                deep += {"{": 1, "}": -1}.get(text[k], 0)
                k += 1
            clauses.append((c[1], text[j + c.end():k - 1]))
            j = k
        b = text.find("{", j)
        k, deep = b + 1, 1
        while deep and k < len(text):
            deep += {"{": 1, "}": -1}.get(text[k], 0)
            k += 1
        out.append((m[1], text.count("\n", 0, m.start()) + 1, " ".join(params.split()), result, [c for w, c in clauses if w == "requires"], text[b + 1:k - 1]))
    return out

def split(s, sep):
    out, deep, cur, i = [], 0, "", 0
    while i < len(s):
        ch = s[i]
        deep += ch in "([{<" and not s[i:i + 2] in ("< ",)
        deep -= ch in ")]}" or (ch == ">" and s[i - 1] != "-" and deep > 0 and s[i:i + 2] != "> ")
        if deep <= 0 and s.startswith(sep, i):
            out.append(cur.strip())
            cur, i = "", i + len(sep)
            continue
        cur += ch
        i += 1
    out.append(cur.strip())
    return [x for x in out if x]

def facts(clause):
    clause = " ".join(clause.split())
    out, deep, cur = [], 0, ""
    for ch in clause:
        deep += (ch in "(") - (ch in ")")
        if ch == "×" and deep == 0:
            out.append(cur)
            cur = ""
        else:
            cur += ch
    out.append(cur)
    res = []
    for f in out:
        f = f.strip()
        while f.startswith("(") and f.endswith(")"):
            d, ok = 0, True
            for n, ch in enumerate(f):
                d += (ch == "(") - (ch == ")")
                if d == 0 and n < len(f) - 1:
                    ok = False
            if not ok:
                break
            f = f[1:-1].strip()
        if "×" in f and not f.startswith("("):
            res += [x.strip() for x in f.split(" × ")]
        else:
            res.append(f)
    return res

FILES = {}
for p in sorted(glob.glob("crates/*/src/**/*.rt", recursive=True)):
    t = code(open(p, encoding="utf-8").read())
    FILES[p] = (t, functions(t))

def crate(p):
    return p.split(os.sep)[1]

def line(t, i):
    return t.count("\n", 0, i) + 1

def point1():
    for p, (t, fs) in FILES.items():
        for m in re.finditer(r"(?m)^(?:pub )?enum (\w+) \{([^}]*)\}", t):
            if m[1] != "Refusal" and re.search(r"(?m)^\s*(Refused|Failed|Stuck|None|Any)\b", m[2]):
                yield p, line(t, m.start()), "enum " + m[1]
        for m in re.finditer(r"(?m)^(?:pub )?struct (\w+) \{([^}]*)\}", t):
            if re.search(r"\b(fits: bool|answer: )", m[2]):
                yield p, line(t, m.start()), "struct " + m[1]
        for n, l, ps, r, req, body in fs:
            if r == "u8" and re.search(r"refusal|fault", n):
                yield p, l, "fn " + n
        for m in re.finditer(r"(?m)^(?:pub )?const ([A-Z]+): u64 = \d+;", t):
            yield p, line(t, m.start()), "const " + m[1]

TOKEN = re.compile(r"[A-Za-z_][A-Za-z0-9_]*|\d[\d_]*|[^\s\w]")
WORDS = {"let", "mut", "if", "else", "while", "for", "in", "match", "return", "as", "fn", "self"}

def shape(ps, body):
    names, out = {}, []
    for w in TOKEN.findall(ps + " { " + body):
        if w[0].isdigit():
            out.append("0")
        elif (w[0].isalpha() or w[0] == "_") and w not in WORDS:
            out.append("n%d" % names.setdefault(w, len(names)))
        else:
            out.append(w)
    return " ".join(out)

def point2():
    for c in sorted({crate(p) for p in FILES}):
        seen = collections.defaultdict(list)
        for p, (t, fs) in FILES.items():
            if crate(p) == c:
                for n, l, ps, r, req, body in fs:
                    if len(TOKEN.findall(body)) >= 12:
                        seen[shape(ps, body)].append((p, l, n))
        for group in seen.values():
            for p, l, n in group[1:]:
                yield p, l, "fn %s, as %s" % (n, group[0][2])
    for p, (t, fs) in FILES.items():
        for n, l, ps, r, req, body in fs:
            if re.search(r"; SMALL\]", body) and re.search(r"; SIZE\]", body):
                yield p, l, "fn %s, SMALL and SIZE" % n

def point3():
    for p, (t, fs) in FILES.items():
        for m in re.finditer(r"(?m)^\s*while ", t):
            yield p, line(t, m.end()), t[m.end() - 6:t.index("\n", m.end())].strip()

def point4():
    for p, (t, fs) in FILES.items():
        for n, l, ps, r, req, body in fs:
            b = " ".join(body.split())
            one = re.fullmatch(r"if [^{};]+ \{ (return )?[\w.%* ]+;? \} (else \{ )?[\w.%* ]+( \})?", b) or re.fullmatch(r"[\w.]+ as \w+( [-+*/%] [\w.]+( as \w+)?)?", b)
            if one or n.startswith("same_") or n in ("copy", "names"):
                yield p, l, "fn " + n

def point5():
    for c in sorted({crate(p) for p in FILES}):
        count = collections.Counter()
        where = {}
        groups = collections.Counter()
        for p, (t, fs) in FILES.items():
            if crate(p) != c:
                continue
            for n, l, ps, r, req, body in fs:
                for f in {f for q in req for f in facts(q)}:
                    count[f] += 1
                    where.setdefault(f, (p, l))
                names = [x for x in split(ps, ",") if ":" in x]
                for i in range(len(names)):
                    for j in range(i + 3, len(names) + 1):
                        g = tuple(names[i:j])
                        groups[g] += 1
                        where.setdefault(g, (p, l))
        for f, k in sorted(count.items(), key=lambda x: -x[1]):
            if k >= 3:
                yield where[f] + ("fact of %d: %s" % (k, f),)
        big = {g: k for g, k in groups.items() if k >= 3}
        for g, k in big.items():
            if not any(len(h) > len(g) and big[h] >= k and any(h[i:i + len(g)] == g for i in range(len(h))) for h in big):
                yield where[g] + ("parameters of %d: %s" % (k, ", ".join(g)),)

def point6():
    for p, (t, fs) in FILES.items():
        for n, l, ps, r, req, body in fs:
            if re.search(r"&mut \[u8[^,]*\], (\w+: [^,]+, )*at: usize", ps) or "[u8; PLAN_SIZE]" in ps:
                yield p, l, "fn " + n
        for m in re.finditer(r"(?m)^(?:pub )?struct (\w+) \{([^}]*)\}", t):
            if re.search(r"count: usize", m[2]) and re.search(r": \[", m[2]):
                yield p, line(t, m.start()), "struct " + m[1]

def point7():
    for p, (t, fs) in FILES.items():
        for n, l, ps, r, req, body in fs:
            if "write: bool" in ps:
                yield p, l, "fn " + n
        for m in re.finditer(r"(?m)^(?:pub )?enum (Kind)\b", t):
            yield p, line(t, m.start()), "enum " + m[1]

POINTS = {str(i + 1): f for i, f in enumerate([point1, point2, point3, point4, point5, point6, point7])}

if __name__ == "__main__":
    if len(sys.argv) > 1:
        for a in sys.argv[1:]:
            for p, l, what in POINTS[a]():
                print("%s:%d: %s" % (p, l, what))
    else:
        for a, f in POINTS.items():
            print(a, sum(1 for _ in f()))
