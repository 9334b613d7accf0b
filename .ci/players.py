"""Plays cases over the program itself: each run is a process of its own, in a folder that has the case's files and its vault.db.
Of a file's cases it takes those that say no more of a run than files, words, texts and a status."""
import pathlib
import re
import subprocess
import tempfile

PLAIN = {"n": b"\n", "r": b"\r", "t": b"\t", "s": b" ", "\\": b"\\", "e": b""}
PIECE = re.compile(r"\\\((?P<count>\d+)\*(?P<text>[^)]*)\)|\\x(?P<byte>[0-9a-fA-F]{2})|\\(?P<number>#)|\\(?P<plain>[nrts\\e])"
                   r"|(?P<letter>[^\\])|(?P<rest>\\)", re.DOTALL)


def bytes_of(text, number=0):
    """The bytes of a text as cases write it, and whether a newline belongs behind them."""
    made = b""
    for piece in PIECE.finditer(text):
        if piece["count"]:
            made += int(piece["count"]) * bytes_of(piece["text"], number)[0]
        elif piece["rest"]:
            if piece.end() < len(text):
                raise ValueError(f"nothing is written so behind a backslash: {text}")
            return made, False
        else:
            made += (bytes([int(piece["byte"], 16)]) if piece["byte"] else str(number).encode() if piece["number"]
                     else PLAIN[piece["plain"]] if piece["plain"] else piece["letter"].encode())
    return made, True


def line_of_block(behind):
    """The bytes of what stands behind a stroke."""
    counted = re.fullmatch(r"\*(\d+)(?: (.*))?", behind, re.DOTALL)
    count, text = (int(counted[1]), counted[2] or "") if counted else (1, behind.removeprefix(" "))
    parts = (bytes_of(text, number) for number in range(count))
    return b"".join(made + b"\n" * ends for made, ends in parts)


class Scene:
    """A frame or a case: its files, each from a step on, its runs with what is expected, and whether it is taken."""

    def __init__(self, name, place, is_case):
        self.name, self.place, self.is_case = name, place, is_case
        self.files, self.runs, self.is_taken = [], [], True

    def take_over(self, other):
        behind = len(self.runs)
        self.files += [(step + behind, name, data) for step, name, data in other.files]
        self.runs += [dict(run) for run in other.runs]
        self.is_taken = self.is_taken and other.is_taken

    def put_file(self, name):
        """A file for all steps, in place of those of its name."""
        self.files = [file for file in self.files if file[1] != name] + [(0, name, b"")]

    def folder(self, step):
        """The files that are there at a step; None where one is gone."""
        return {name: data for at, name, data in self.files if at <= step}


def scenes_of(name, text):
    """The frames and cases of a file's text."""
    scenes, grows = [], None
    for place, line in enumerate(text.split("\n"), 1):
        line = line.lstrip(" \t")
        word, _, behind = line.partition(" ")
        if not line or line.startswith("#"):
            continue
        if line.startswith("|"):
            grows(line_of_block(line[1:]))
            continue
        if word in ("frame", "case"):
            scenes.append(Scene(behind, f"{name} {place}", word == "case"))
        else:
            grows = take_line(scenes, word, behind)
    return scenes


def take_line(scenes, word, behind):
    """Takes a line that is no block's; what takes the lines of a block below it."""
    scene = scenes[-1]
    if word == "like":
        scene.take_over(next(other for other in scenes if other.name == behind))
    elif word == "file":
        scene.put_file(behind)
        return lambda data: grow_file(scene, data)
    elif word == "no":
        scene.put_file(behind.removeprefix("file "))
        scene.files[-1] = (0, behind.removeprefix("file "), None)
    elif word == "then":
        is_gone, name = behind.startswith("no "), behind.removeprefix("no ").removeprefix("file ")
        scene.files.append((len(scene.runs), name, None if is_gone else b""))
        return lambda data: grow_file(scene, data)
    elif word == "run":
        words = [bytes_of(word)[0].decode() for word in behind.split(" ") if word]
        scene.runs.append({"words": words, "line": f"run {behind}", "out": b"", "err": b"", "status": 0})
    elif word == "again":
        scene.runs.append(dict(scene.runs[-1]))
    elif word in ("out", "err") and not behind:
        scene.runs[-1][word] = b""
        return lambda data: grow_text(scene.runs[-1], word, data)
    elif word == "status":
        scene.runs[-1]["status"] = int(behind)
    else:
        scene.is_taken = False
    return lambda data: None


def grow_file(scene, data):
    step, name, before = scene.files[-1]
    scene.files[-1] = (step, name, before + data)


def grow_text(run, word, data):
    run[word] += data


def lay_out(folder, files):
    """Puts the files of a step into a folder, and takes away those that are gone."""
    for name, data in files.items():
        path = pathlib.Path(folder, name)
        if data is None:
            path.unlink(missing_ok=True)
        elif not path.is_file() or path.read_bytes() != data:
            path.write_bytes(data)


def differences(program, scene):
    """Plays a case in a new folder: each run that comes to something else than is expected."""
    with tempfile.TemporaryDirectory() as folder:
        for step, run in enumerate(scene.runs):
            lay_out(folder, scene.folder(step))
            done = subprocess.run([program, *run["words"]], cwd=folder, stdin=subprocess.DEVNULL, capture_output=True)
            for what, got in (("err", done.stderr), ("status", done.returncode), ("out", done.stdout)):
                if got != run[what]:
                    yield f"  {run['line']}\n    {what}\n      expected: {run[what]!r:.400}\n      came:     {got!r:.400}"


def play(program, texts):
    """Plays those cases of texts that are taken; what differs, as lines, and how many passed and failed."""
    told, passed, failed = [], 0, 0
    for name, text in texts:
        for scene in scenes_of(name, text):
            if scene.is_case and scene.is_taken:
                found = list(differences(program, scene))
                passed, failed = passed + (not found), failed + bool(found)
                told += [f"FAILED: {scene.name} ({scene.place})", *found] if found else []
    return told, passed, failed
