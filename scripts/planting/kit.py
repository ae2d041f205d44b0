"""The kit's own `rt`, which says what a prover's answer to an edit means, and the crates of a checkout as it knows them."""
import functools
import importlib.machinery
import importlib.util
import os
import shutil
import sys

# What is asked of the kit. A kit that lacks one of these cannot be asked for single functions; `rt must-fail` is there in any.
OF_RT = ("checked", "edited", "must_fail", "read_edit", "unread")
OF_LIBRARY = ("Crate", "STALE", "guarded")


class NoKit(Exception):
    """No kit is found, or one that works in another way."""


def loaded():
    """The kit's `rt` as a module. Its list of what is below a crate, and its sums over all sources, which it makes for each path, are made once a crate."""
    found = shutil.which("rt")
    if not found:
        raise NoKit("no rt is found: install the kit")
    sys.dont_write_bytecode = True
    loader = importlib.machinery.SourceFileLoader("rt_of_the_kit", os.path.realpath(found))
    rt = importlib.util.module_from_spec(importlib.util.spec_from_loader(loader.name, loader))
    loader.exec_module(rt)
    library = getattr(rt, "rtlib", None)
    lacking = [it for it in OF_RT if not hasattr(rt, it)] + [it for it in OF_LIBRARY if not hasattr(library, it)]
    if lacking:
        raise NoKit(f"this kit's rt has no {', '.join(lacking)}: plant without --quick")
    library.Crate.below = functools.lru_cache(None)(library.Crate.below)
    library.Crate.stamp = functools.lru_cache(None)(library.Crate.stamp)
    # (the handler of a signal that it sets can be set from the first thread alone)
    library.guarded()
    return rt


def crates_of(rt, top, names):
    """The crates of these names of the checkout, as the kit knows them; all of them know one another."""
    known = {}
    for name in names:
        folder = f"{top}/crates/{name}"
        if folder not in known:
            known[folder] = rt.rtlib.Crate(folder, top, known)
    return {name: known[f"{top}/crates/{name}"] for name in names}
