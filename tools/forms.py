#!/usr/bin/env python3
"""Counts the places in crates/*/src that read like an older Rattle, a list for each point of docs/DESIGN-PASS.md.

usage: forms.py [--list] [FOLDER]     the top of a checkout, by default the one around this script; --list prints each place

It reads text and judges nothing: a place that is found may stay for a reason that stands beside it.
"""

import glob
import os
import re
import sys
from collections import defaultdict

FN = re.compile(r"(?m)^( *)(?:pub(?:\([a-z]+\))? )?(?:unsafe )?(?:extern \"C\" )?fn (\w+)")
STRUCT = re.compile(r"(?ms)^(?:pub(?:\(crate\))? )?(struct|enum) (\w+)[^{};]*\{(.*?)^\}")
TYPES = {"u8", "u16", "u32", "u64", "usize", "bool", "Claim", "Store", "Node", "Delivery"}


def sources(top):
    return sorted(glob.glob(os.path.join(top, "crates/*/src/**/*.rt"), recursive=True))


def bare(text):
    """Without comments, ghost imports and clauses."""
    text = re.sub(r"//[^\n]*", "", text)
    text = re.sub(r"(?m)^ *ghost use [^;]*;", "", text)
    return re.sub(r"(?s)\b(?:requires|ensures)(?: \w+)? \{(?:[^{}]|\{[^{}]*\})*\}", "", text)


def functions(text):
    """(name, signature, body) of each function with a body."""
    for m in FN.finditer(text):
        start = m.start(2)
        depth, i = 0, m.end()
        while i < len(text) and not (text[i] in "{;" and depth == 0):
            depth += {"(": 1, "[": 1, ")": -1, "]": -1}.get(text[i], 0)
            i += 1
        if i == len(text) or text[i] == ";":
            continue
        depth, j = 0, i
        while True:
            depth += {"{": 1, "}": -1}.get(text[j], 0)
            j += 1
            if depth == 0:
                break
        yield m[2], text[start:i], text[i:j]


def shape(text):
    """A function's tokens with types, constants and numbers as one sign and each other name by its first place."""
    names, out = {}, []
    for token in re.findall(r"[A-Za-z_][\w:]*|\d\w*|[^\s\w]", text):
        if token in TYPES or token[0].isdigit() or re.fullmatch(r"[A-Z][\w:]*", token):
            out.append("T")
        elif re.fullmatch(r"let|mut|if|else|while|for|in|loop|return|match|as|self|true|false|break|fn", token):
            out.append(token)
        elif re.match(r"[A-Za-z_]", token):
            out.append("v%d" % names.setdefault(token, len(names)))
        else:
            out.append(token)
    return " ".join(out)


def count(top):
    points = defaultdict(list)
    shapes, fields = defaultdict(list), defaultdict(list)
    for path in sources(top):
        where = os.path.relpath(path, os.path.join(top, "crates"))
        text = bare(open(path).read())
        for kind, name, body in STRUCT.findall(text):
            for flag in re.findall(r"(\w+): bool", body):
                points["1 flag beside a value"].append(f"{where} {name}.{flag}")
            if re.search(r"\bnumber: u8|\(u8\)", body):
                points["1 number of a refusal"].append(f"{where} {name}")
            if re.search(r"\[\w[^;\]]*; [^\]]*\]", body) and "count" in body:
                points["6 buffer with its length"].append(f"{where} {name}")
            names = tuple(re.findall(r"(\w+):", body))
            if len(names) > 1:
                fields[names].append(f"{where} {name}")
        for name, signature, body in functions(text):
            place = f"{where} {name}"
            if re.search(r"-> u8\b", signature) and re.search(r"return \d+;|^\s*\d+\s*$", body, re.M):
                points["1 number of a refusal"].append(place)
            if re.search(r"match \w+ \{\s*\d+ =>", body) or re.search(r"by_number|if call ", body):
                points["7 switch on a number"].append(place)
            loops = len(re.findall(r"\bwhile\b|\bloop \{", body))
            points["3 loop by hand"] += [place] * loops
            if len(re.findall(r"if (\w+)\.(\w+) != (\w+)\.\2 ", body)) > 1:
                points["4 comparison by hand"].append(place)
            if re.fullmatch(r"\{\s*-?\(?\w+ as \w+\)?\s*\}", body):
                points["4 conversion by hand"].append(place)
            if re.search(r"if (\w+) < (\w+) \{ \1 \} else \{ \2 \}|if (\w+) < (\w+) \{\s*return \3;\s*\}\s*\4", body):
                points["4 comparison by hand"].append(place)
            if re.search(r"keys: &.*sums: &|left_sums", signature, re.S):
                points["5 keys and sums side by side"].append(place)
            if re.search(r"\btable: \[|claims: \[", signature):
                points["5 table and count side by side"].append(place)
            s = shape(signature + body)
            if s.count(" ") > 40:
                shapes[s].append(place)
    for places in shapes.values():
        if len(places) > 1:
            points["2 functions of one shape"].append(" = ".join(places))
    for places in fields.values():
        if len(places) > 1:
            points["2 types of one shape"].append(" = ".join(places))
    for path in sorted(glob.glob(os.path.join(top, "crates/*/proofs/**/Answers.antt"), recursive=True)):
        where = os.path.relpath(path, os.path.join(top, "crates"))
        points["8 answers"] += [where] * len(re.findall(r"(?m)^pub [\w-]+ :", open(path).read()))
    return points


def main():
    words = [a for a in sys.argv[1:] if a != "--list"]
    top = words[0] if words else os.path.join(os.path.dirname(os.path.abspath(__file__)), "..")
    for point, places in sorted(count(top).items()):
        print(f"{point}: {len(places)}")
        if "--list" in sys.argv and not point.startswith("8"):
            for place in places:
                print(f"    {place}")


main()
