"""Copies of crates without their functions: types, specs, lemma files, and the theorems of the crates that are named. A check of one takes
seconds, so a change of definitions can be followed through all crates above it before any function is proved over it."""
import os
import re

from edits import read, write

TOP = os.path.dirname(os.path.dirname(os.path.realpath(__file__)))
# (what only functions need)
LEFT_OUT = {"thiserror", "Error", "Alloc", "TryClone", "ByteOrder", "LittleEndian"}
VISIBLE = r"(?:pub(?:\(\w+\))? )?"
FUNCTION = rf"{VISIBLE}(?:const )?(?:ghost )?fn (\w+)"


def items(source):
    """Returns the items of a source, each as its own first line and its lines with the comments and attributes in front."""
    found, lines, head = [], [], None
    for line in source.splitlines():
        lines.append(line)
        if line and not line.startswith((" ", "//", "#[")):
            head = head or line
            if line.endswith((";", "}")) or line.startswith("#!["):
                found.append((head, lines))
                lines, head = [], None
    return found


def without_functions(source, gone):
    """Returns a source without its functions, without other impls than those of models, and without imports of what is gone."""
    kept = []
    for head, lines in items(source):
        if not re.match(FUNCTION, head) and (not head.startswith("impl") or re.match(r"impl(<.*>)? Model for", head)):
            kept += [re.sub(r"#\[(from|source)\] ?", "", it) for it in lines if not re.match(r"\s*#\[(derive|error)\b", it)]

    def imported(found):
        names = [it.strip() for it in found[2].split(",") if it.strip() and it.strip() not in gone]
        return f"{found[1]}{{{', '.join(names)}}};" if names else ""

    text = re.sub(rf"^({VISIBLE}use [\w:]+::)\{{([^}}]*)\}};", imported, "\n".join(kept) + "\n", flags=re.M)
    return re.sub(rf"^{VISIBLE}use [\w:]+::(\w+);", lambda it: "" if it[1] in gone else it[0], text, flags=re.M)


def copied(crates):
    """Returns the texts of the copies of these crates and all below them, by their paths, with their rows of crates.txt. (The folders below
    proofs/ are those of functions.)"""
    rows = {it.split(":")[0].split()[0]: it for it in read(f"{TOP}/crates.txt").splitlines() if re.match(r"\w+[^#]*:", it)}
    needed = set(crates)
    for crate in reversed(rows):
        needed.update(it for it in rows[crate].partition(":")[2].split() if crate in needed and it in rows)
    theorems = {f"crates/{it}/{part}" for it in crates for part in ("src/theorems.rt", "proofs/theorems")}
    texts = {"crates.txt": "".join(f"{row}\n" for crate, row in rows.items() if crate in needed), "HANDLES": read(f"{TOP}/HANDLES")}
    for crate in needed:
        for part in ("src", "specs", "proofs"):
            for at, _, files in os.walk(f"{TOP}/crates/{crate}/{part}"):
                if part != "proofs" or at.endswith("/proofs") or any(f"{at}/".startswith(f"{TOP}/{it}/") for it in theorems):
                    texts.update({os.path.relpath(f"{at}/{it}", TOP): read(f"{at}/{it}") for it in files})
    sources = [it for it in texts if it.endswith(".rt") and it not in theorems]
    gone = LEFT_OUT.union(name for it in sources for head, _ in items(texts[it]) for name in re.findall(f"^{FUNCTION}", head))
    texts.update({it: without_functions(texts[it], gone) for it in sources})
    return texts


def lay_out(folder, texts):
    """Makes the files of a folder these. What is as it was is left alone, and what was proved of it."""
    for at, folders, files in os.walk(folder):
        folders[:] = [it for it in folders if it != "out"]
        for it in files:
            if os.path.relpath(f"{at}/{it}", folder) not in texts:
                os.remove(f"{at}/{it}")
    for path, text in texts.items():
        os.makedirs(os.path.dirname(f"{folder}/{path}"), exist_ok=True)
        if not os.path.isfile(f"{folder}/{path}") or read(f"{folder}/{path}") != text:
            write(f"{folder}/{path}", text)
