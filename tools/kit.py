"""The Rattle kit, as its command rt knows it: a crate's sources and those below it, and what `rt ci` has proved of them."""
import hashlib
import importlib.machinery
import importlib.util
import inspect
import json
import os
import shutil
import sys

TOP = os.path.dirname(os.path.dirname(os.path.realpath(__file__)))


def folder():
    """Returns the kit's folder, or None where the command rt is missing."""
    rt = shutil.which("rt")
    return rt and os.path.dirname(os.path.dirname(os.path.realpath(rt)))


def loaded():
    """Returns the module of the command rt."""
    sys.path.insert(0, f"{folder()}/bin")
    sys.dont_write_bytecode = True
    loader = importlib.machinery.SourceFileLoader("rt", f"{folder()}/bin/rt")
    module = importlib.util.module_from_spec(importlib.util.spec_from_loader("rt", loader))
    loader.exec_module(module)
    module.Crate.allowed = module.handles_of(TOP)
    return module


def crates(rt):
    """Returns the repository's crates by their names, lowest first."""
    if len(inspect.signature(rt.crates_of).parameters) == 1:
        found = rt.crates_of(TOP)
    else:
        # (a kit that keeps nothing for its gate has a call that also moves away what earlier runs left)
        rt.rtlib.Crate = rt.Crate
        found = sorted(rt.rtlib.crates_below(TOP), key=lambda it: len(it.below()))
    return {os.path.basename(it.folder): it for it in found}


def kept_by_gate(name):
    """Returns the sum of the program that `rt ci` made of a crate's sources as they stand, "" where it has not proved them, or None where it can keep nothing.

    What it proves it keeps on this machine, by the sums of all that it read: each library's is looked up by those below it, and the program's last."""
    rt = loaded()
    named = crates(rt)
    wanted = [it for it in named.values() if it is named[name] or it in named[name].below()]
    kept = rt.Kept(wanted)
    if not kept.at or not kept.has_room():
        return None
    for crate in wanted:
        key = kept.key(crate)
        try:
            with open(f"{kept.place(crate, False, key)}/made.json", encoding="utf-8") as file:
                made = json.load(file)
        except FileNotFoundError:
            return ""
        files = [(path, sum) for path, sum in made["files"]]
        kept.rlibs[crate.name] = hashlib.sha256(repr(files).encode()).hexdigest()
        if made["key"] != key:
            return ""
    return dict(files)[name]
