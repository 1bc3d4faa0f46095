#!/usr/bin/env python3
"""rt_once.py RT WORDS..: does what `RT WORDS..` does, where RT is the file of the kit's command, but sums up what stands below a crate once.

To see whether a library is still that of its sources, rt sums up the sources of the crate and of all crates below it, those of each crate
once for each path by which it is reached: some 15 seconds for dim_cli, each time. Here the sums of the crates below are taken once and
used again; a crate's own sources are still read each time that they are asked for."""
import importlib.machinery
import importlib.util
import os
import sys


def loaded(file):
    """The kit's command, as a module."""
    loader = importlib.machinery.SourceFileLoader("rt", file)
    made = importlib.util.module_from_spec(importlib.util.spec_from_loader("rt", loader))
    sys.modules["rt"] = made
    loader.exec_module(made)
    return made


def once(stamp):
    """A crate's sum, which takes those of the crates below as they were before."""
    kept, within = {}, [0]

    def summed(crate):
        if within[0] and crate in kept:
            return kept[crate]
        within[0] += 1
        try:
            kept[crate] = stamp(crate)
        finally:
            within[0] -= 1
        return kept[crate]

    return summed


if __name__ == "__main__":
    sys.dont_write_bytecode = True
    rt = loaded(sys.argv[1])
    if not hasattr(getattr(rt, "rtlib", None), "Crate") or not hasattr(rt.rtlib.Crate, "stamp"):
        # a kit that is made otherwise: its command as it is
        os.execv(sys.argv[1], sys.argv[1:])
    rt.rtlib.Crate.stamp = once(rt.rtlib.Crate.stamp)
    sys.exit(rt.main(sys.argv[2:]))
