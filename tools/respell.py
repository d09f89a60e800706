#!/usr/bin/env python3
"""Brings the names of the definitions and lemmas of this repository to Rattle's spelling: snake case, with a dash between two names.

usage: tools/respell.py [--table]      at the top of the repository, once, after /opt/rattle/port/port.py

A name that specs/ or proofs/ declares with a capital inside it, or with a dash, is turned in every .antt file, in the clauses of
every .rt file, in the code spans of every .md file, and in every must-fail edit. Types, modules, functions of src/, and names of
Rattle's own library stay. --table prints the rows alone. Names that would fall together are told, and nothing is written.
"""
import os
import re
import subprocess
import sys
import tempfile

SNAKE = "/opt/rattle/port/notes/2026-11-18-names-are-in-snake-case/snake.py"
WORD = r"[^\s(){}.;,@\"«»:]+"
DECLARED = re.compile(
    rf"\s*(?:(?:unfoldable|abbrev|pub|private|constructor|infix[lr]?)\s+)*({WORD}(?: {WORD})*?)\s+(?:[({{⦃].*?)?:\s")
HEADED = re.compile(rf"\s*(?:pub )?(?:record|data|constructor) ({WORD})")
QUIET = re.compile(r'"(?:[^"\\\n]|\\.)*"|(?<!\S)--[^\n]*')
USED = re.compile(r"(?<![^\s;])use\s+([\w.]+)\.\{([^}]*)\}")
# A name that would fall together with one of Rattle's library.
OTHERWISE = {"bit-xor": "bit-bit_xor"}
# Lemmas in snake case already that would fall together with a definition, and the crates that have them.
LEMMAS = {
    "after_first": ("feed_audio", "stream"),
    "too_long": ("feed_audio",),
    "on_read": ("packet_frames",),
    "is_body": ("page_lacing",),
    "at_cut": ("recording",),
    "bytes_left": ("salvage",),
    "lines_left": ("salvage",),
    "position_from": ("stream",),
    "place_after": ("tags_reader",),
    "in_order": ("tags_reader",),
    "lead_bits": ("utf8",),
}


def texts(endings):
    for folder, dirs, files in os.walk("crates"):
        dirs[:] = sorted(d for d in dirs if d not in ("out", "target"))
        for name in sorted(files):
            if name.endswith(endings):
                yield os.path.join(folder, name)


def read(path):
    with open(path, encoding="utf-8") as f:
        return f.read()


def declared():
    """The names that specs/ declares, and all that are declared."""
    in_specs, everywhere = set(), set()
    for path in texts((".antt",)):
        for line in QUIET.sub("", read(path)).splitlines():
            words = []
            m = DECLARED.match(line)
            if m:
                words += m.group(1).split()
            m = HEADED.match(line)
            if m:
                words.append(m.group(1))
            everywhere.update(words)
            if "/specs/" in path:
                in_specs.update(words)
    return in_specs, everywhere


def of_the_library():
    """Names that are brought in from outside this repository, and not declared in it."""
    own = {c for c in os.listdir("crates")}
    names = set()
    for path in texts((".antt", ".rt")):
        for module, listed in USED.findall(QUIET.sub("", read(path))):
            parts = module.split(".")
            if parts[0] == "Rattle" and len(parts) > 1 and parts[1] in own:
                continue
            names.update(w.split(" as ")[0].strip() for w in listed.split(","))
    return names


def snake(name):
    return re.sub(r"(?<=[a-z0-9])([A-Z])", lambda m: "_" + m.group(1).lower(), name)


def respelled(name, words):
    if name in OTHERWISE:
        return OTHERWISE[name]
    parts = [snake(p) for p in name.split("-")]
    out = parts[0]
    for i in range(1, len(parts)):
        joins = "_".join(parts[:i]) in words and "_".join(parts[i:]) in words
        out += ("-" if joins else "_") + parts[i]
    return out


def table():
    in_specs, everywhere = declared()
    library = of_the_library()
    words = {snake(w) for w in in_specs if "-" not in w} | {w for w in library if "-" not in w} | {"append"}
    turned = [n for n in sorted(everywhere) if n not in library and re.fullmatch(r"[a-z][\w'ₐ-ₜ₀-₉-]*", n)]
    definitions = {respelled(n, words) for n in turned if "-" not in n and n != snake(n)} | library
    definitions |= {n for n in in_specs if n == snake(n)}
    rows = {}
    for name in turned:
        new = respelled(name, words)
        if "-" in name and new in definitions:
            new += "_lem"
        if new != name:
            rows[name] = new
    return rows


def bare(text):
    """The words of a text that are no part of a longer path or projection, each with its place."""
    for m in re.finditer(r"[^\s(){}.;,@\"«»]+", text):
        if text[:m.start()][-1:] != "." and text[m.end():][:1] != ".":
            yield m


def fall_together(rows):
    """Rows whose new spelling is another row's, or stands already in a file of proofs or definitions that has the old one."""
    by_new, bad = {}, []
    for old, new in rows.items():
        by_new.setdefault(new, []).append(old)
    bad += [f"{' and '.join(olds)} are both {new}" for new, olds in by_new.items() if len(olds) > 1]
    for path in texts((".antt",)):
        words = {m.group(0) for m in bare(QUIET.sub("", read(path)))}
        bad += [f"{path}: {old} and {new}" for new, olds in by_new.items() for old in olds if new in words and old in words]
    return bad


def turn_lemmas():
    """Names in LEMMAS get _lem, but where they are the name of a function or a part of a path."""
    for name, crates in LEMMAS.items():
        for path in texts((".antt",)):
            if path.split("/")[1] not in crates or "/specs/" in path:
                continue
            text = read(path)
            at = [m for m in bare(text) if m.group(0) == name]
            for m in reversed(at):
                text = text[:m.start()] + name + "_lem" + text[m.end():]
            if at:
                with open(path, "w", encoding="utf-8") as f:
                    f.write(text)


def turn_edit(path, rows):
    """An edit's own lines: every word that is a row's."""
    out = []
    for line in read(path).split("\n"):
        if line.startswith(("old: ", "new: ")):
            line = re.sub(r"[^\s(){}.;,@\"«»]+", lambda m: rows.get(m.group(0), m.group(0)), line)
        out.append(line)
    text = "\n".join(out)
    if text != read(path):
        with open(path, "w", encoding="utf-8") as f:
            f.write(text)


def move_contracts():
    """Rattle makes a module specs.contracts of its own, so the file Contracts of salvage_kept is called Promises."""
    folder = "crates/salvage_kept/specs"
    if os.path.exists(f"{folder}/Contracts.antt"):
        os.rename(f"{folder}/Contracts.antt", f"{folder}/Promises.antt")
    for path in texts((".antt", ".rt")):
        text = read(path)
        new = text.replace("salvage_kept.specs.Contracts.", "salvage_kept.specs.Promises.")
        if path == f"{folder}/Lib.antt":
            new = new.replace("pub mod Contracts", "pub mod Promises")
        if new != text:
            with open(path, "w", encoding="utf-8") as f:
                f.write(new)


def main(argv):
    rows = table()
    if argv == ["--table"]:
        print("\n".join(f"{a}\t{b}" for a, b in rows.items()))
        return 0
    turn_lemmas()
    bad = fall_together(rows)
    if bad:
        print("\n".join(bad))
        return 1
    with tempfile.NamedTemporaryFile("w", suffix=".tsv", encoding="utf-8") as f:
        f.write("".join(f"{a}\t{b}\n" for a, b in rows.items()))
        f.flush()
        for kinds, paths in (("antt,rt", ["crates"]), ("md", ["README.md", "docs"])):
            subprocess.run([sys.executable, SNAKE, "--table", f.name, "--only", kinds, *paths], check=True)
    for path in texts((".edit",)):
        turn_edit(path, rows)
    move_contracts()
    return 0


if __name__ == "__main__":
    raise SystemExit(main(sys.argv[1:]))
