"""The prover on crates given as source, as tests/bend and tests/definitions run it: over what is kept of earlier runs, none of the crates built before."""
import os
import shutil
import subprocess
from pathlib import Path


def kit():
    """the folder of the Rattle kit"""
    return Path(subprocess.run(["rt", "doc"], stdout=subprocess.PIPE, text=True, check=True).stdout.strip()).parent


def dependencies(root):
    """the crates of a repository, each with what it lists"""
    entries = (line.split("#")[0].partition(":") for line in (root / "crates.txt").read_text().splitlines())
    return {name.strip(): below.split() for name, colon, below in entries if colon}


def closure(name, deps, seen=None):
    """the crate and all that it cites, what is cited first"""
    seen = [] if seen is None else seen
    if name not in seen:
        for d in deps[name]:
            closure(d, deps, seen)
        seen.append(name)
    return seen


def link(one, other):
    """a file of what was checked, at another place too: the prover replaces such a file, and changes none"""
    try:
        if one.endswith(".oantt"):
            if not os.path.exists(other):
                os.link(one, other)
            return
    except OSError:
        pass
    shutil.copy2(one, other)


def take_checked(root, names, kept):
    """what rt check kept of these crates of a repository, if it did"""
    for name in names:
        try:
            shutil.copytree(root / "crates" / name / "out" / "incremental", kept, copy_function=link, dirs_exist_ok=True)
        except (OSError, shutil.Error):
            # there is none, or rt puts it elsewhere just now: what is lacking is checked
            pass


def check(name, home, deps, kept, *flags):
    """the prover's status and words on the crate and all that it cites, over what is kept there; home: the folder of each crate"""
    own = kit()
    words = [own / "bin" / "rattle", "check", "--crate-name", name, home(name) / "src" / "lib.rt", "--antt-project", own / "rattle" / "logic" / "antt-project.json",
             "--logic-built", own / "logic_built", "-L", "dependency=%s" % (own / "rlibs"), "--incremental", kept, "--jobs", "1", *flags]
    for c in ("core", "std"):
        words += ["--extern", "%s=%s" % (c, own / "rlibs" / (c + ".rlib"))]
    for c in closure(name, deps)[:-1]:
        words += ["--lib", "%s:%s=%s" % (c, ",".join(["core", "std"] + deps[c]), home(c) / "src" / "lib.rt")]
    r = subprocess.run([str(w) for w in words], stdin=subprocess.DEVNULL, stdout=subprocess.PIPE, stderr=subprocess.STDOUT, text=True, errors="replace")
    return r.returncode, r.stdout
