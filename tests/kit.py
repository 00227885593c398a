#!/usr/bin/env python3
"""What the tests need of `rt` and no command of it gives: what the prover says of a changed crate, and the static library of a crate
over the libraries that `rt ci` left.

  tests/kit.py library CRATE     proves a crate and writes its static library, as `rt lib` does in its folder
"""
import contextlib
import glob
import importlib.machinery
import importlib.util
import os
import shutil
import sys
import tempfile

sys.dont_write_bytecode = True
os.chdir(os.path.join(os.path.dirname(os.path.abspath(__file__)), ".."))


def load(path):
    loader = importlib.machinery.SourceFileLoader("rt", path)
    made = importlib.util.module_from_spec(importlib.util.spec_from_loader("rt", loader))
    loader.exec_module(made)
    return made


rt = load(os.environ.get("RATTLE_HOME", "/opt/rattle") + "/bin/rt")


def crates():
    """The crates by name, lowest first."""
    rt.rtlib.guarded()
    rt.share_work(False)
    return {crate.name: crate for crate in rt.rtlib.crates_below(os.getcwd())}


def stamp(crate):
    """A sum of all that a verdict on the crate stands on."""
    return rt.stamp_of(crate, {})


def left_by_ci():
    """Whether the libraries in out/ are those that `rt ci` has just built: the gate says so, and no other command built any."""
    return os.environ.get("BUILT_BY_CI") == "yes" and not glob.glob("crates/*/out/rlib/stamp")


def build_below(some):
    """Proves and builds the libraries below some crates, each once; what stands is passed over."""
    for crate in some if not left_by_ci() else []:
        for below in crate.below():
            if below.build_rlib([], anew=False):
                sys.exit(f"{below.name} is not proved")


def is_proved(crate):
    """Whether the crate is proved as it stands. What follows `rt ci` in the gate knows that it is."""
    return os.environ.get("BUILT_BY_CI") == "yes" or checked(crate, {}, []).returncode == 0


def checked(crate, texts, flags):
    """Checks a copy of the crate with these texts in place of its own, as `rt must-fail` does: over what checks of the crate kept, where
    that can be used."""
    with tempfile.TemporaryDirectory(prefix=f"rt-edit-{os.getpid()}-") as room:
        work, kept = rt.work_for(crate), None
        with contextlib.suppress(OSError, shutil.Error):
            if work:
                rt.linked(work, f"{room}/kept")
                kept = f"{room}/kept"
        ran = rt.checked(crate, texts, ["--jobs", "1", *flags], kept)
        if kept and (ran.returncode not in (0, 1) or rt.rtlib.STALE.search(ran.stdout)):
            ran = rt.checked(crate, texts, ["--jobs", "1", *flags], None)
        return ran


def side_by_side(calls):
    """Makes calls, each with the crate that it checks, as many at once as there are processors and memory; gives what each gave."""

    def task(call):
        try:
            return call()
        except (OSError, ValueError) as error:
            return error

    tasks = {(key, "edits"): ([], 0, rt.need(crate), lambda given, jobs, call=call: task(call)) for key, (crate, call) in calls.items()}
    return {key: told for (key, _), told in rt.in_lanes(tasks).items()}


def library(name):
    crate = crates()[name]
    if not crate.is_static:
        sys.exit(f"crates.txt does not list {name} as a static library")
    held = rt.rtlib.lock([*crate.below(), crate])
    build_below([crate])
    os.makedirs(f"{crate.folder}/out", exist_ok=True)
    return crate.build_static([])


if __name__ == "__main__":
    if len(sys.argv) != 3 or sys.argv[1] != "library":
        sys.exit(__doc__)
    sys.exit(library(sys.argv[2]))
