"""Whether a program that was built is still that of the sources and of the kit."""
import hashlib
import os
import shutil
import subprocess

# The crates of the programs: the whole one, and a smaller one that has the commands `run` and `replay` alone, for which less is to be proved.
PROGRAM, RUN_PROGRAM = "kaffe", "kaffe_run"
# The parts of a crate that its proof reads, and those that alone decide what its code does.
PROVED_PARTS, CODE_PARTS = ("src", "specs", "proofs"), ("src",)


def crates_below(top, name=PROGRAM):
    """The crates of the repository on which this one stands, and itself, each after those that it stands on."""
    lists = {}
    with open(f"{top}/crates.txt", encoding="utf-8") as file:
        for line in file:
            crate, colon, below = line.partition("#")[0].partition(":")
            if colon:
                lists[crate.split()[0]] = below.split()
    return with_below(lists, name), lists


def with_below(lists, name):
    """By these lists the crates on which this one stands, and itself, each after those that it stands on."""
    found = []

    def add(crate):
        for it in lists[crate]:
            if it in lists and it not in found:
                add(it)
        found.append(crate)

    add(name)
    return found


def files_of(top, name, parts):
    """The path and the state of each file of these parts of the crates on which this one stands and of itself, and of the list of crates."""
    found = []

    def walk(folder):
        with os.scandir(folder) as entries:
            for entry in entries:
                if entry.is_dir(follow_symlinks=False):
                    walk(entry.path)
                else:
                    found.append((entry.path, entry.stat()))

    for crate in crates_below(top, name)[0]:
        for part in parts:
            if os.path.isdir(f"{top}/crates/{crate}/{part}"):
                walk(f"{top}/crates/{crate}/{part}")
    found.append((f"{top}/crates.txt", os.stat(f"{top}/crates.txt")))
    return sorted(found, key=lambda it: it[0])


def folders_above(top, path):
    """The folders of a file within its crate, whose times tell that a file or a folder was removed there."""
    parts = os.path.relpath(path, top).split("/")
    return [os.path.join(top, *parts[:it]) for it in range(3, len(parts))]


def seen(files):
    """A sum over the files' names, sizes and times: where it is the same no file has changed."""
    return hashlib.sha256(repr([(path, it.st_size, it.st_mtime_ns) for path, it in files]).encode(errors="surrogateescape")).hexdigest()


def content(top, files):
    """A sum over the files' names and bytes."""
    found = hashlib.sha256()
    for path, _ in files:
        with open(path, "rb") as file:
            found.update(repr((os.path.relpath(path, top), file.read())).encode(errors="surrogateescape"))
    return found.hexdigest()


def state_of(path):
    """What tells that a file was replaced, or None where there is none."""
    try:
        it = os.stat(path)
    except OSError:
        return None
    return f"{it.st_size} {it.st_mtime_ns}"


def kit():
    """The kit's own line, or None where there is no kit."""
    if not shutil.which("rt"):
        return None
    try:
        ran = subprocess.run(["rt", "version"], stdin=subprocess.DEVNULL, stdout=subprocess.PIPE, stderr=subprocess.DEVNULL, timeout=60, check=False)
    except (OSError, subprocess.TimeoutExpired):
        return None
    return ran.stdout.decode(errors="replace").strip() or None


def command_state():
    """Where the kit's command is, and what tells that it was replaced: the kit is asked for its line only where this is new."""
    found = shutil.which("rt")
    return found and f"{os.path.realpath(found)} {state_of(found)}"


class Built:
    """A program, and beside it a note from which sources and by which kit the launcher had it built."""

    def __init__(self, top, crate, name, parts):
        self.top, self.crate, self.parts = top, crate, parts
        self.folder = f"{top}/crates/{crate}/out"
        self.path = f"{self.folder}/{name}"
        self.note_path = f"{self.path}.built"

    def is_there(self):
        """Whether there is such a program, fresh or not."""
        return os.access(self.path, os.X_OK)

    def files(self):
        """The path and the state of each file from which it is built."""
        return files_of(self.top, self.crate, self.parts)

    def note(self):
        try:
            with open(self.note_path, encoding="utf-8") as file:
                return dict(line.rstrip("\n").partition(" ")[::2] for line in file)
        except (OSError, UnicodeDecodeError):
            return {}

    def keep(self, files, sources, of_kit):
        """Writes the note of the program as it is now. It is renamed into place, so that nobody reads half of it."""
        note = {"program": state_of(self.path), "sources": sources, "seen": seen(files), "kit": of_kit, "rt": command_state()}
        with open(f"{self.note_path}.{os.getpid()}", "w", encoding="utf-8") as file:
            file.writelines(f"{key} {value}\n" for key, value in note.items())
        os.replace(file.name, self.note_path)

    def is_fresh(self):
        """Whether the program is there, and is that of these sources and of this kit, as far as there is one."""
        if not self.is_there():
            return False
        note, files = self.note(), self.files()
        if note.get("program") != state_of(self.path):
            return self.is_newest(files)
        now = command_state()
        # The kit's own line is asked for where its command was moved or replaced, since that takes longer than the program.
        of_kit = note.get("kit") if now in (None, note.get("rt")) else kit()
        if of_kit != note.get("kit"):
            return False
        if note.get("seen") == seen(files) and note.get("rt") == (now or note.get("rt")):
            return True
        sources = content(self.top, files)
        if sources != note.get("sources"):
            return False
        if now:
            self.keep(files, sources, of_kit)
        return True

    def is_newest(self, files):
        """Whether a program that another command than the launcher built, as `rt ci` does, is newer than all that it is built from."""
        if self.parts is not PROVED_PARTS:
            return False
        found = shutil.which("rt")
        folders = {folder for path, _ in files for folder in folders_above(self.top, path)}
        tops = [f"{self.top}/crates/{crate}/{part}" for crate in crates_below(self.top, self.crate)[0] for part in self.parts]
        folders.update(it for it in tops if os.path.isdir(it))
        times = [it.st_mtime_ns for _, it in files] + [os.stat(it).st_mtime_ns for it in folders]
        times += [os.stat(found).st_mtime_ns] if found else []
        return max(times) < os.stat(self.path).st_mtime_ns


def proved(top, crate=PROGRAM):
    """The proved program of this crate. rt makes it, and makes it only of crates that are proved."""
    return Built(top, crate, crate, PROVED_PARTS)


def unproved(top):
    """The whole program as rt compiles it before any proof."""
    return Built(top, PROGRAM, f"{PROGRAM}-unproved", CODE_PARTS)
