"""A copy of ./kaffe with made-up crates, where short scripts stand in for the kit and for the programs."""
import os
import shutil
import subprocess
import sys
import tempfile
import unittest

TOP = os.path.dirname(os.path.dirname(os.path.dirname(os.path.realpath(__file__))))
# A program that keeps its name and what it is given, and answers as its words and its input want it.
STAND_IN = """#!/bin/sh
cat > "$GIVEN"
echo "${0##*/}" >> "$RAN"
case $(head -c 3 "$GIVEN") in bad) echo "bad trace: line 2 reason 4"; exit 1 ;; ref) echo "refused 3"; exit 6 ;; mem) exit 3 ;; esac
echo "did $*"
"""
# rt as the launcher knows it: each call is a line in a file, and what it builds is the stand-in, in the last of the crates.
KIT = """#!/bin/sh
echo "$*" >> "$CALLS"
case $1 in
version) echo "rattle-kit-0 logic 0" ;;
lib) mkdir -p out/rlib; sleep 0.05; : > out/rlib/stamp ;;
ci) for name in $(cut -d: -f1 crates.txt); do
        of=$(cat "crates/$name"/*/* | cksum | cut -d' ' -f1)
        [ "$name" = "$FAILS" ] && { echo "== $name"; echo "no goal is met"; echo "rt: $name NOT PROVED"; exit 1; }
        if [ -e "$KEPT/$name-$of" ]; then echo "rt: $name is kept: an earlier run proved it"; else echo "rt: $name proved"; fi
        : > "$KEPT/$name-$of"
    done
    [ -e crates/low/must-fail ] && { echo "an edit was tried"; exit 1; }
    mkdir "crates/$name/out"; cp "$STAND_IN" "crates/$name/out/$name"; chmod +x "crates/$name/out/$name" ;;
try) mkdir "$TMPDIR/rt-try"; cp "$STAND_IN" "$TMPDIR/rt-try/program"
    for _ in $(seq 600); do [ -e "$TMPDIR/program" ] && break; sleep 0.05; done # until the launcher has seen it
    rm -r "$TMPDIR/rt-try"
    printf 'big 100\\n'; echo "run=ended status=0 runners=1 proved=no" >&2 ;;
esac
"""


def text_of(path):
    with open(path, encoding="utf-8") as file:
        return file.read()


class Launched(unittest.TestCase):
    """A copy of the launcher with crates of its own, and a folder for what stands in for the kit."""

    def setUp(self):
        self.room = tempfile.mkdtemp(prefix="test-launcher-")
        self.addCleanup(shutil.rmtree, self.room)
        self.top = f"{self.room}/top"
        shutil.copytree(f"{TOP}/scripts", f"{self.top}/scripts", ignore=shutil.ignore_patterns("__pycache__"))
        os.makedirs(f"{self.top}/docs")
        for name in ("kaffe", "docs/kaffe.1"):
            shutil.copy2(f"{TOP}/{name}", f"{self.top}/{name}")
        self.write("top/crates.txt", "low:\nleft: low\nright: low\nbroken: low\nkaffe_run: left\nkaffe: left right\n")
        for name in ("low", "left", "right", "broken"):
            self.write(f"top/crates/{name}/src/lib.rt", "//! A crate.\n")
            self.write(f"top/crates/{name}/proofs/Lib.antt", "")
        self.write("top/crates/low/must-fail/wrong.edit", "file: src/lib.rt\n")
        os.makedirs(f"{self.room}/kept")
        for name in ("kaffe", "kaffe_run"):
            self.write(f"top/crates/{name}/src/main.rt", "//! A program.\n")
        self.write("top/HANDLES", "Handles allowed: none.\n")
        self.write("top/docs/gate-times", "low 100\nleft 60\nright 40 # estimate\nkaffe 50\nkaffe_run 30\n")
        self.write("stand-in", STAND_IN)
        places = {name.upper(): f"{self.room}/{name}" for name in ("given", "ran", "calls", "kept")}
        self.env = {"PATH": "/usr/bin:/bin", "STAND_IN": f"{self.room}/stand-in", "FAILS": "none", "RT_JOBS": "2", **places}

    def write(self, name, text):
        os.makedirs(os.path.dirname(f"{self.room}/{name}"), exist_ok=True)
        with open(f"{self.room}/{name}", "w", encoding="utf-8", newline="") as file:
            file.write(text)
        return f"{self.room}/{name}"

    def give_kit(self):
        os.chmod(self.write("kit/rt", KIT), 0o755)
        self.env["PATH"] = f"{self.room}/kit:/usr/bin:/bin"

    def lines_of(self, name):
        """The lines that a stand-in has kept in the file of this name."""
        return text_of(self.env[name]).splitlines() if os.path.exists(self.env[name]) else []

    def calls(self):
        """The words of each call of rt so far."""
        return self.lines_of("CALLS")

    def ran(self):
        """The names of the programs that were run, in order."""
        return self.lines_of("RAN")

    def kaffe(self, *words, given="", out=subprocess.PIPE, **env):
        ran = subprocess.run([sys.executable, f"{self.top}/kaffe", *words], input=given, stdout=out, stderr=subprocess.PIPE, env={**self.env, **env}, text=True, check=False)
        return ran.returncode, ran.stdout, ran.stderr

    def make_program(self, crate="kaffe", name=None):
        """Puts a stand-in where the program of a crate is built, without a note of it."""
        os.chmod(self.write(f"top/crates/{crate}/out/{name or crate}", STAND_IN), 0o755)

    def is_built(self, crate):
        return os.path.exists(f"{self.top}/crates/{crate}/out/{crate}")
