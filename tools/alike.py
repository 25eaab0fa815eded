#!/usr/bin/env python3
"""Pairs of functions of crates/*/src whose bodies are alike once names, numbers and types are left out.

  tools/alike.py            of the files as they stand
  tools/alike.py COMMIT     of that commit
"""
import difflib, re, subprocess, sys

WORDS = {"let", "mut", "if", "else", "while", "for", "in", "match", "return", "as", "loop", "true", "false"}

def files(commit):
    run = lambda *w: subprocess.run(["git", *w], capture_output=True, text=True, check=True).stdout
    names = run("ls-tree", "-r", "--name-only", commit or "HEAD", "crates").split()
    for name in names:
        if "/src/" in name and name.endswith(".rt"):
            try:
                yield name, run("show", f"{commit}:{name}") if commit else open(name).read()
            except FileNotFoundError:
                pass

def functions(commit):
    for name, text in files(commit):
        for found in re.finditer(r"^( *)(?:pub(?:\(crate\))? )?(?:extern \"C\" )?fn (\w+).*?^\1\}", text, re.M | re.S):
            body = re.search(r"^ *\{\n(.*)", found.group(0), re.M | re.S)
            body = re.sub(r"//.*", "", body.group(1) if body else found.group(0).split("{", 1)[-1])
            marks = [w if w in WORDS else "x" if w[0].isalpha() or w[0] == "_" else "0" if w[0].isdigit() else w
                     for w in re.findall(r"\w+|[^\w\s]", body)]
            if len(marks) >= 40:
                yield f"{name}:{found.group(2)}", marks

def main():
    found = list(functions(sys.argv[1] if len(sys.argv) > 1 else None))
    pairs = 0
    for i, (a, x) in enumerate(found):
        for b, y in found[i + 1:]:
            match = difflib.SequenceMatcher(None, x, y, autojunk=False)
            if match.real_quick_ratio() > 0.94 and match.quick_ratio() > 0.94 and match.ratio() > 0.94:
                pairs += 1
                print(a, "~", b)
    print(pairs, "pairs")

main()
