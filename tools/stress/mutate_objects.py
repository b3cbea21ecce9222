#!/usr/bin/env python3
"""Runs git_dirty over mutated objects, packs and their indexes, and compares it with git wherever it succeeds.

    python3 tools/stress/mutate_objects.py --seeds 10000 [--first 0] [--keep FOLDER]

Seed N mutates how the commit of HEAD and its trees are stored in a small repository: bytes of a loose object before or
after it is compressed, of a pack, of its index or of `info/alternates`; an object of the pack, written again at its end
as a whole or as deltas; or a tree or commit itself, which gets its right id. A run may end so, within SECONDS and MEMORY
bytes:

- with exit status 2, no output but whole lines, and one line on standard error, which begins with `git dirty: `;
- with exit status 0 or 1, and the lines that git's status prints. If git reads the objects no more, or others in their
  place, these are the lines of the old ones, which the program found by their ids.

All other ends are wrong. The environment's GIT_DIRTY names the built program; without it that of this checkout is run.
With --keep the files with a wrong end stay there. How often each kind of end came is printed. The exit status is 1 if
there is a wrong end, and 2 if the seeds can't be run.
"""

import collections
import glob
import os
import random
import re
import shutil
import struct
import subprocess
import sys
import tempfile
import zlib

sys.path.insert(0, os.path.dirname(os.path.dirname(os.path.abspath(__file__))))

from stress.mutate_index import config_text, shape_of, wrong_end
from stress.seeds import main, mutate_bytes
from support.index_bytes import KINDS, checksum_of
from support.pack_bytes import BY_DISTANCE, BY_NAME, KIND_NUMBERS, copy_of, delta_of, distance_of, head_of, size_of
from support.programs import GIT_DIRTY, Runner, room_of_memory
from support.repositories import COLUMNS, SETTINGS, THEN, as_dirty, id_of, read, status_words, write

# How many seeds a process takes at once, and what a run may take. It takes milliseconds, but others may use the machine.
PART, SECONDS, MEMORY = 1000, 30, 200 << 20
DEEP = ["repack", "-qadf", "--depth=50", "--window=50"]
# How objects are stored: git's commands.
FORMS = {"loose": [], "packed": [DEEP], "named": [["-c", "repack.useDeltaBaseOffset=false", *DEEP]]}
FORMS |= {"parts": [["repack", "-qd"]], "shared": [DEEP]}
SIZES = [0, 1, 15, 16, 127, 128, 1 << 16, (1 << 27) + 1, 1 << 31, (1 << 32) - 1, 1 << 32, (1 << 63) - 1]
SIZES += [1 << 63, (1 << 64) - 1, 1 << 70]
MODES = ["100644", "100755", "100664", "100600", "120000", "160000", "40000", "040000", "0100644", "0", "", "8"]
MODES += ["100644 ", "7777777777"]
NAMES = [b"a", b"d", b"d-", b"d.", b"many", b".", b"..", b".git", b"", b"a/b", b"/", b"\xff", b"zz", b"d\xff"]
NAMES += [b"x" * 300, b"\n"]
# What git says of a commit for lines that the program doesn't read, and words of a tree that git itself never makes.
UNREAD, WITH_SLASH = re.compile(rb"error: (bad parents in|bogus) commit "), "a name with a slash"
NUMBERS = [0, 1, 2, 255, 256, 1 << 16, (1 << 31) - 1, 1 << 31, (1 << 31) + 1, (1 << 32) - 1]


# The repositories.


class Base:
    """A small repository whose objects are stored in one of the forms, and what git prints of it."""

    def __init__(self, room, kind, form):
        self.kind, self.form, self.top = kind, form, os.path.join(room, f"{kind} {form}")
        self.width, self.objects = KINDS[kind], os.path.join(self.top, ".git/objects")
        self.git("init", "-q", "-b", "main", f"--object-format={kind}", self.top, folder=room)
        write(self.path(".git/config"), config_text(kind))
        names = ["a", "b c", "d/e", "d/f", "d/g/h", "d-", "k", "x", *(f"many/{number:02}" for number in range(40))]
        for at in range(6):
            for name in names[at::3] if at else names:
                write(self.path(name), f"{name} {at}\n" * 3)
            self.git("add", "-A")
            self.git("commit", "-q", "-m", f"{at}", GIT_COMMITTER_DATE=f"{THEN + at} +0000")
            if form == "parts" and at in (2, 4):
                self.git(*FORMS[form][0])
        self.stage(names)
        for words in FORMS[form]:
            self.git(*words)
        if form == "shared":
            os.rename(self.objects, self.objects + " of another")
            write(f"{self.objects}/info/alternates", f"{self.objects} of another\n")
        self.lines = self.git(*status_words(self.top)[3:])
        self.commit = self.git("rev-parse", "HEAD").decode().strip()
        self.contents = {}
        self.find()

    def stage(self, names):
        """Stages other files than those of HEAD, and changes one that is staged."""
        os.chmod(self.path("x"), 0o755)
        write(self.path("d/new"), "new")
        os.remove(self.path("k"))
        write(self.path("many/07"), "other")
        self.git("add", "-A")
        write(self.path("b c"), "bars")

    def path(self, name):
        return os.path.join(self.top, name)

    def git(self, *words, folder=None, stdin=None, **settings):
        named = ["-c", "user.name=n", "-c", "user.email=e"]
        environment = {**os.environ, **SETTINGS, "GIT_AUTHOR_DATE": f"{THEN} +0000", **settings}
        how = {"input": stdin, "check": True, "capture_output": True, "env": environment}
        return subprocess.run(["git", "-C", folder or self.top, *named, *words], **how).stdout

    def find(self):
        """Finds the commit of HEAD and its trees, and the files that store objects."""
        lines = self.git("ls-tree", "-rtd", "HEAD").decode().splitlines()
        self.trees = {"": self.git("rev-parse", "HEAD^{tree}").decode().strip()}
        self.trees |= {line.partition("\t")[2]: line.split()[2] for line in lines}
        for name in (self.commit, *self.trees.values()):
            kind = self.git("cat-file", "-t", name).decode().strip()
            self.contents[name] = kind, self.git("cat-file", kind, name)
        above = [glob.escape(self.objects + end) for end in ("", " of another")]
        places = [place for folder in above for place in glob.glob(f"{folder}/??/*")]
        self.loose = [place for place in sorted(places) if "".join(place.split("/")[-2:]) in self.contents]
        self.packs = sorted(glob.glob(f"{glob.escape(self.top)}/.git/objects*/pack/*.pack"))
        self.packs = [place for place in self.packs if self.names_in(place)]

    def names_in(self, pack):
        """Returns the ids of HEAD's objects that a pack has, with their places in its index."""
        index = read(pack[:-4] + "idx")
        count = struct.unpack_from(">I", index, 8 + 255 * 4)[0]
        names = [index[at : at + self.width].hex() for at in range(1032, 1032 + count * self.width, self.width)]
        return {name: at for at, name in enumerate(names) if name in self.contents}


# How an object is stored in a pack.


def mutate_delta(draw, delta, base):
    """Returns a delta with a change, and its words."""
    how = draw.choice(["bytes", "bytes", "copy", "reserved", "base size", "size", "cut"])
    if how == "bytes":
        return mutate_bytes(draw, delta)
    if how == "copy":
        at = draw.choice([0, len(base) - 1, len(base), *SIZES[:9], (1 << 32) - 1])
        return delta + copy_of(at % (1 << 32), draw.choice([0, 1, len(base), (1 << 24) - 1])), f"copy {at}"
    if how == "reserved":
        return delta + b"\0", how
    if how == "cut":
        return delta[: draw.randrange(len(delta))], how
    size, width = draw.choice(SIZES), len(size_of(len(base)))
    if how == "base size":
        return size_of(size) + delta[width:], f"{how} {size}"
    end = width + next(at for at in range(1, 20) if delta[width + at - 1] < 128)
    return delta[:width] + size_of(size) + delta[end:], f"{how} {size}"


def compressed(draw, content):
    """Returns compressed bytes, mostly at a drawn level, and sometimes with a change."""
    made = zlib.compress(content, draw.randrange(10))
    if draw.random() < 0.1:
        return mutate_bytes(draw, made)[0]
    return made + draw.choice([b""] * 9 + [b"\0"])


class Written:
    """A pack to whose end objects are written again."""

    def __init__(self, draw, base, pack):
        self.draw, self.base, self.pack, self.words = draw, base, pack, []
        self.content, self.index = read(pack)[: -base.width], read(pack[:-4] + "idx")
        self.count = struct.unpack_from(">I", self.index, 8 + 255 * 4)[0]
        self.at = base.names_in(pack)

    def place(self, name):
        """Returns where the offset of an object is in the index."""
        return 1032 + self.count * (self.base.width + 4) + 4 * self.at[name]

    def offset(self, name):
        return struct.unpack_from(">I", self.index, self.place(name))[0]

    def write(self, name, entry):
        """Writes an object to the end, where the index finds it from now on."""
        at = self.place(name)
        self.index = self.index[:at] + struct.pack(">I", len(self.content)) + self.index[at + 4 :]
        self.content += entry

    def write_chain(self, name, length):
        """Writes an object to the end as a chain of so many deltas."""
        kind, content = self.base.contents[name]
        delta, parts = delta_of(content, content), [head_of(KIND_NUMBERS[kind], len(content)) + zlib.compress(content)]
        for _ in range(length):
            parts.append(head_of(BY_DISTANCE, len(delta)) + distance_of(len(parts[-1])) + zlib.compress(delta))
        self.content += b"".join(parts[:-1])
        self.write(name, parts[-1])
        self.words.append(f"a chain of {length}")

    def entry(self, name, other):
        """Returns an object as it is stored at the end: as a whole, or as a delta of another one."""
        draw, (kind, content), base = self.draw, self.base.contents[name], self.base.contents[other][1]
        is_wrong, how = draw.random() < 0.6, draw.choice(["whole", "distance", "name"])
        delta = content if how == "whole" else delta_of(base, content)
        change = draw.choice(["head", "size", "link", "data"]) if is_wrong else "nothing"
        if change == "data":
            delta, word = mutate_bytes(draw, delta) if how == "whole" else mutate_delta(draw, delta, base)
            change += f" {word}"
        number = {"whole": KIND_NUMBERS[kind], "distance": BY_DISTANCE, "name": BY_NAME}[how]
        number = draw.randrange(8) if change == "head" else number
        size = draw.choice(SIZES) if change == "size" else len(delta)
        link, distance = bytes.fromhex(other), len(self.content) - self.offset(other)
        if change == "link":
            others = [bytes(self.base.width), draw.randbytes(self.base.width), link[:-1]]
            link, length = draw.choice([bytes.fromhex(name)] + others * 5), len(self.content)
            distance = draw.choice([0, 1, length, length + 1, distance + 1, abs(distance - 1), *SIZES])
        self.words.append(f"{kind} {how} {change}")
        link = {"whole": b"", "distance": distance_of(distance), "name": link}[how]
        return head_of(number, size) + link + compressed(draw, delta)

    def files(self):
        """Returns the files of the pack with right checksums."""
        content = self.content + checksum_of(self.content, self.base.kind)
        index = self.index[: -2 * self.base.width] + content[-self.base.width :]
        return {self.pack: content, self.pack[:-4] + "idx": index + checksum_of(index, self.base.kind)}


# The mutations. Each returns the bytes of files by their places, and words.


def mutate_loose(draw, base):
    """Mutates bytes of a loose object, before or after it is compressed."""
    place = draw.choice(base.loose)
    content = read(place)
    if draw.random() < 0.4:
        content, word = mutate_bytes(draw, content)
        return {place: content}, f"{place[-20:]}: {word}"
    plain, word = mutate_bytes(draw, zlib.decompress(content))
    if draw.random() < 0.3:
        front, _, rest = zlib.decompress(content).partition(b"\0")
        words = [b"", b" ", b"blob 3", b"tree", b"tree -1", b"commit " + b"9" * 30, front + b" ", b"tree 0" + front[5:], front[:-1]]
        word = draw.choice([draw.choice(words), front.split(b" ")[0] + b" %d" % draw.choice(SIZES)])
        plain = word + b"\0" + rest
    return {place: compressed(draw, plain)}, f"{place[-20:]}, before it is compressed: {word}"


def mutate_pack(draw, base):
    """Mutates bytes of a pack, mostly of HEAD's objects, and mostly with a right checksum."""
    place = draw.choice(base.packs)
    written, content = Written(draw, base, place), read(place)[: -base.width]
    start = written.offset(draw.choice(sorted(written.at))) if draw.random() < 0.8 else 0
    end = min(len(content), start + draw.choice([4, 40, 400]))
    part, word = mutate_bytes(draw, content[start:end])
    content = content[:start] + part + content[end:]
    written.content = content
    if draw.random() < 0.7:
        return written.files(), f"pack {start}: {word}"
    return {place: content + read(place)[-base.width :]}, f"pack {start}: {word}, old checksum"


def mutate_index(draw, base):
    """Mutates bytes or numbers of the index of a pack, mostly with a right checksum."""
    pack = draw.choice(base.packs)
    written = Written(draw, base, pack)
    index, name = written.index[: -base.width], draw.choice(sorted(written.at))
    how = draw.choice(["bytes", "offset", "offset", "large offset", "count", "part", "version", "name"])
    number, part = draw.choice(NUMBERS), 8 + 4 * draw.randrange(256)
    places = {"offset": written.place(name), "count": 8 + 255 * 4, "part": part, "version": draw.choice([0, 4])}
    at = places.get(how)
    word = f"{how} {number}"
    if how == "bytes":
        index, word = mutate_bytes(draw, index)
    elif how == "large offset":
        at, offset = written.place(name), draw.choice([written.offset(name)] * 3 + SIZES[:-1])
        index = index[:at] + struct.pack(">I", 1 << 31 | draw.choice([0, 0, 0, 1, number % (1 << 31)])) + index[at + 4 :]
        index = index[: -base.width] + struct.pack(">Q", offset) + index[-base.width :]
        word = f"{how} {offset}"
    elif how == "name":
        at = 1032 + written.at[name] * base.width
        index, word = index[:at] + draw.randbytes(base.width) + index[at + base.width :], "another name"
    else:
        number = draw.choice([number, struct.unpack_from(">I", index, at)[0] ^ 1 << draw.randrange(32)])
        index = index[:at] + struct.pack(">I", number) + index[at + 4 :]
    end = checksum_of(index, base.kind) if draw.random() < 0.7 else written.index[-base.width :]
    return {pack[:-4] + "idx": index + end}, f"index: {word}"


def mutate_entry(draw, base):
    """Writes objects of HEAD to the end of their pack again."""
    written = Written(draw, base, draw.choice(base.packs))
    names = sorted(written.at)
    left = set(names)
    for _ in range(draw.choice([1, 1, 1, 2, 3])):
        # Git may follow deltas in a ring without an end.
        others = names if draw.random() < 0.02 else sorted(left)
        name = draw.choice(names)
        other = draw.choice([it for it in others if it != name] or names)
        written.write(name, written.entry(name, other))
        left.discard(name)
    if draw.random() < 0.05:
        written.write_chain(draw.choice(names), draw.choice([2, 60, 4095, 4097]))
    return written.files(), ", ".join(written.words)


def mutate_alternates(draw, base):
    """Mutates the file that names the folder of the objects, or adds lines."""
    place = f"{base.objects}/info/alternates"
    line = read(place)
    if draw.random() < 0.5:
        content, word = mutate_bytes(draw, line)
        return {place: content}, f"alternates: {word}"
    relative = b"../objects of another"
    others = [b"# word", b"", b"/nowhere", b"\xff", b'"' + line[:-1] + b'"', relative, relative + b"/"]
    others += [base.objects.encode(), b".", line[:-1] + b"\r"]
    lines = draw.sample(others, 2) + [line[:-1]] * (draw.random() < 0.7)
    draw.shuffle(lines)
    return {place: b"\n".join(lines) + draw.choice([b"\n", b"", b"\n\n"])}, f"alternates: {lines}"


def mutate_tree(draw, base):
    """Makes another tree or commit, which is stored with its right id, and the trees and the commit above it."""
    files, path = {}, draw.choice(["commit", *base.trees, *base.trees])
    if path == "commit":
        tree, (content, word) = base.trees[""], mutate_commit(draw, base)
    else:
        content, word = mutate_items(draw, base.contents[base.trees[path]][1], base)
        if any(b"/" in name for name in re.findall(b" ([^\\0]*)\\0.{%d}" % base.width, content, re.S)):
            word += f", {WITH_SLASH}"
        tree = put(files, base, draw.choice(["tree"] * 19 + ["blob"]), content)
        above = path
        while above:
            above, _, name = above.rpartition("/")
            old = base.contents[base.trees[above]][1]
            mode = draw.choice([b"40000"] * 19 + [b"040000", b"160000", b"100644"])
            _, at, rest = old.partition(b"40000 " + name.encode() + b"\0")
            made = mode + at[5:] + bytes.fromhex(tree) + rest[base.width :]
            tree = put(files, base, "tree", old[: len(old) - len(at) - len(rest)] + made)
        content = base.contents[base.commit][1].replace(base.trees[""].encode(), tree.encode())
    name = put(files, base, draw.choice(["commit"] * 29 + ["tree", "tag"]), content)
    files[base.path(".git/HEAD")] = name.encode() + b"\n"
    return files, f"{path or 'top'}: {word}"


def put(files, base, kind, content):
    """Adds a loose object to files, and returns its id."""
    name = id_of(base.kind, content, kind)
    files[f"{base.objects}/{name[:2]}/{name[2:]}"] = zlib.compress(f"{kind} {len(content)}\0".encode() + content)
    return name


def mutate_commit(draw, base):
    content = base.contents[base.commit][1]
    how = draw.choice(["bytes", "bytes", "other tree", "cut", "case", "blank"])
    first, rest = content.split(b"\n", 1)
    if how == "bytes":
        return mutate_bytes(draw, content)
    if how == "cut":
        return first + draw.choice([b"", b"\n"]), how
    others = [base.commit, "0" * 2 * base.width, *base.trees.values()]
    tree = draw.choice(others).encode() if how == "other tree" else first[5:]
    tree = tree.upper() if how == "case" else tree
    return b"tree " * (1 + (how == "blank")) + tree + b"\n" + rest, how


def mutate_items(draw, content, base):
    """Returns the bytes of a tree with one change, and its words."""
    items = re.findall(b"[0-7]+ [^\\0]*\\0.{%d}" % base.width, content, re.S)
    how = draw.choice(["bytes", "add", "add", "order", "repeat", "mode", "name", "cut", "empty", "id"])
    at = draw.randrange(len(items))
    if how == "bytes":
        return mutate_bytes(draw, content)
    mode, name, rest = re.fullmatch(b"([0-7]+) ([^\\0]*)\\0(.*)", items[at], re.S).groups()
    word = how
    if how in ("add", "mode"):
        mode = draw.choice(MODES).encode()
        word = f"{how} {mode}"
    if how in ("add", "name"):
        name = draw.choice(NAMES)
        word += f" {name[:9]}"
    if how == "id":
        rest = bytes.fromhex(draw.choice(["0" * 2 * base.width, base.commit, base.trees[""]]))
    made = mode + b" " + name + b"\0" + rest
    if how == "repeat":
        items.insert(at, items[at])
    elif how == "order":
        items[at], items[0] = items[0], items[at]
    elif how == "cut":
        return content[: draw.randrange(len(content))], how
    elif how == "empty":
        return b"", how
    elif how == "add":
        items.append(made)
        if draw.random() < 0.8:
            items.sort(key=lambda item: item.split(b" ", 1)[1].split(b"\0")[0] + b"/" * item.startswith(b"4"))
    else:
        items[at] = made
    return b"".join(items), word


def drawn(draw, base):
    """Returns the files of a seed by their places, words, and whether HEAD's tree is another one."""
    ways = [mutate_tree] + [mutate_loose] * (base.loose != [])
    ways += [mutate_pack, mutate_index, mutate_entry, mutate_entry] * (base.packs != [])
    way = draw.choice(ways + [mutate_alternates] * (base.form == "shared"))
    return *way(draw, base), way is mutate_tree


# The runs.


def judged(ended, git, lines, words, is_other, columns):
    """Returns what is wrong with a run for these columns next to git's, or None, and the kind of its end. `lines` are those of
    the objects as they were, and `words` say how they are mutated."""
    if wrong := wrong_end(ended):
        return wrong, "a wrong end"
    if ended.status == 2:
        words = shape_of(re.sub(rb"[0-9a-f]{40,}", b"ID", ended.fault).decode(errors="replace"))
        gits = "git goes on" if git.status == 0 else "git hangs" if git.status is None else "as git"
        return None, f"{words}, {gits}"
    is_same = (not is_other or UNREAD.match(git.fault)) and as_dirty(lines, *columns) == ended.out
    if git.status == 0:
        if as_dirty(git.out, *columns) == ended.out:
            return None, "git's lines"
        if is_same:
            return None, "the lines of the old objects, of which git reads others"
        return None if WITH_SLASH in words else f"other lines than git's: {git.text()}", "other lines than git's"
    return None if is_same else f"git refuses it: {git.text()}", "the lines of the old objects, which git refuses"


def run(seeds, keep=None, program=GIT_DIRTY):
    """Runs some seeds. Returns the wrong ends, and how often each kind of an end came."""
    found, kinds = [], collections.Counter()
    room_at, prlimit = tempfile.TemporaryDirectory(dir=room_of_memory()), shutil.which("prlimit") or "prlimit"
    with room_at as room, Runner(shutil.which("git") or "git", 5) as git, Runner(prlimit, SECONDS) as ours:
        bases = {}
        for seed in seeds:
            draw = random.Random(seed)
            kind, form = draw.choice(["sha1", "sha1", "sha256"]), draw.choice(list(FORMS))
            base = bases.get((kind, form)) or Base(room, kind, form)
            bases[kind, form] = base
            files, words, is_other = drawn(draw, base)
            old = {place: read(place) if os.path.exists(place) else None for place in files}
            put_files(files)
            columns = COLUMNS[seed % 2 * 2]
            ended = ours.run([f"--as={MEMORY}", program, *columns, "-C", base.top], SETTINGS)
            gits = git.run(status_words(base.top), SETTINGS)
            put_files(old)
            wrong, shape = judged(ended, gits, base.lines, words, is_other, columns)
            kinds[shape] += 1
            if wrong:
                found.append(f"seed {seed}, {kind} {form}, {words}: {wrong}\n  program: {ended.text()}")
                for place, content in files.items() if keep else ():
                    write(os.path.join(keep, f"{seed}", os.path.relpath(place, base.top)), content)
    return found, kinds


def put_files(files):
    """Writes files, and removes those without bytes."""
    for place, content in files.items():
        if os.path.exists(place):
            os.remove(place)
        if content is not None:
            write(place, content)


if __name__ == "__main__":
    main(run, 10000, PART, GIT_DIRTY)
