"""Edits of tests/wrong-bodies and tests/wrong-definitions: 'file: PATH', then pairs of 'old: TEXT' and 'new: TEXT', as those of the gate."""


class BadEdit(Exception):
    """An edit says nothing of what it is to try, and the text says why."""


def read(path):
    with open(path, encoding="utf-8") as file:
        return file.read()


def write(path, text):
    with open(path, "w", encoding="utf-8") as file:
        file.write(text)


def changed(edit, folder):
    """Returns the texts of the files that an edit changes, by their paths in the folder."""
    path, old, texts = None, None, {}
    for line in read(edit).splitlines():
        word, _, text = line.partition(": ")
        if word == "file":
            path = text.strip()
        elif word == "old":
            old = text
        elif line.startswith("new:"):
            now = texts.get(path) or read(f"{folder}/{path}")
            if now.count(old) != 1:
                raise BadEdit(f"its old text stands in {path} {now.count(old)} times, and not once")
            texts[path] = now.replace(old, text)
    if not texts:
        raise BadEdit("it has no pair of old and new")
    return texts
