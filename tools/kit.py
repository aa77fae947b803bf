"""What scripts ask of the toolchain beyond its command `rt`: a check of single functions of a crate, over the libraries
that `rt ci` or `rt check` has built in this checkout.

`rt` is a Python file with a module beside it. What is taken from them goes through this file, which says which name
another toolchain lacks.
"""
import importlib.machinery
import importlib.util
import os
import shutil
import subprocess
import sys
import tempfile

ROOT = os.path.dirname(os.path.dirname(os.path.abspath(__file__)))


def load():
    """The module of the command `rt`."""
    path = shutil.which("rt")
    if not path:
        sys.exit("there is no command rt on the PATH")
    path = os.path.realpath(path)
    sys.path.insert(0, os.path.dirname(path))
    loader = importlib.machinery.SourceFileLoader("rt_command", path)
    module = importlib.util.module_from_spec(importlib.util.spec_from_loader("rt_command", loader))
    # no file beside the toolchain's
    sys.dont_write_bytecode = True
    loader.exec_module(module)
    for name in ("edited", "unread", "checked", "rtlib"):
        if not hasattr(module, name):
            sys.exit(f"this toolchain's rt has no {name}")
    for name in ("RATTLE", "crates_below", "guarded"):
        if not hasattr(module.rtlib, name):
            sys.exit(f"this toolchain's rtlib has no {name}")
    return module


def version():
    """The line of `rt version`, which names the toolchain."""
    return subprocess.run(["rt", "version"], stdout=subprocess.PIPE, check=True, text=True).stdout.strip()


def crates(rt):
    """The crates of this checkout by their names."""
    os.chdir(ROOT)
    rt.rtlib.guarded()
    return {crate.name: crate for crate in rt.rtlib.crates_below(ROOT)}


def lacking(crate):
    """The libraries that the crate uses and that aren't built in this checkout."""
    return [used.name for used in crate.below() if not os.path.isdir(used.rlib)]


def function_costs(rt, crate):
    """The seconds of processor and the name of each function of a crate, as a check from nothing proves one by one."""
    words = [rt.rtlib.RATTLE, "check", *crate.words(["--jobs", "1"], keeps=False), "--progress"]
    how = {"cwd": crate.folder, "stdin": subprocess.DEVNULL, "stdout": subprocess.PIPE, "stderr": subprocess.STDOUT}
    found, last = [], 0.0
    with tempfile.TemporaryDirectory() as kept, subprocess.Popen([*words, "--incremental", kept], text=True, **how) as ran:
        for line in ran.stdout:
            with open(f"/proc/{ran.pid}/stat") as file:
                fields = file.read().rsplit(")", 1)[1].split()
            used = (int(fields[11]) + int(fields[12])) / os.sysconf("SC_CLK_TCK")
            if line.startswith("checked "):
                found.append((used - last, line.split()[1].rstrip(",")))
            last = used
    return found
