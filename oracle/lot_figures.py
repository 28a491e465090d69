#!/usr/bin/env python3
"""The lot report of a lot file, worked out from what readelf and nm say: oracle/lot_figures.py LOT

Prints the sheet that lot_sheet prints of the same lot, run in the lot's folder. A reading of the rules by itself: it takes objects without section
groups, and titles that nothing refuses but the report, for a sum of 2^64 or more; the exit status is 1 then. crates/lot_sheet/stdout is what it prints of
crates/lot_sheet/data/lot.txt.
"""
import os, re, subprocess, sys, tempfile

NAMES = "null abs sec rel undef com other offered passes kept dropped keptbytes droppedbytes"


def said(*words):
    return subprocess.run(words, check=True, capture_output=True, text=True).stdout


class Object:
    def __init__(self, path):
        self.sections = {}
        for line in said("readelf", "-SW", path).splitlines():
            m = re.match(r"\s*\[\s*(\d+)\] (.*)", line)
            if not m or m[1] == "0":
                continue
            f = m[2].split()
            # a section may have no flags
            name, kind, size, flags = f[0], f[1], int(f[4], 16), f[6] if len(f) == 10 else ""
            rowed = kind in ("PROGBITS", "INIT_ARRAY", "FINI_ARRAY", "PREINIT_ARRAY", "NOBITS") and "E" not in flags and name != ".eh_frame_hdr"
            if rowed:
                self.sections[int(m[1])] = {"name": name, "size": size, "root": "A" not in flags or "R" in flags or name == ".eh_frame", "names": []}
            if kind == "RELA" and "E" not in flags:
                self.sections.setdefault("relocations", {})[name] = int(f[-2])
        tables = self.sections.pop("relocations", {})
        self.symbols = []
        for line in said("readelf", "-sW", path).splitlines():
            f = line.split()
            if len(f) >= 7 and re.fullmatch(r"\d+:", f[0]):
                name = "" if f[3] == "SECTION" or len(f) < 8 else f[7]
                self.symbols.append({"value": int(f[1], 16), "type": f[3], "bind": f[4], "at": f[6], "name": name})
        into = None
        for line in said("readelf", "-rW", path).splitlines():
            m = re.match(r"Relocation section '([^']*)'", line)
            if m:
                into = self.sections.get(tables.get(m[1]))
            m = re.match(r"[0-9a-f]{16}\s+([0-9a-f]{16})\s", line)
            if m and into is not None:
                into["names"].append(int(m[1][:8], 16))


def rank(symbol):
    if symbol["at"] == "UND":
        return 0
    if symbol["bind"] == "WEAK":
        return 1
    return 2 if symbol["at"] == "COM" else 3


class Title:
    def __init__(self, gabi):
        self.gabi, self.rows, self.held, self.sections = gabi, [("null", None)], {}, []
        self.offered = self.passes = 0

    def merge(self, o):
        ids = {}
        for n, s in o.sections.items():
            ids[n] = len(self.sections)
            self.sections.append(dict(s, ids=[]))
        given = {}
        for i, s in enumerate(o.symbols):
            if i == 0 or s["type"] == "FILE":
                continue
            at = s["at"]
            where = ids.get(int(at)) if at.isdigit() else None
            if at in ("ABS", "COM", "UND"):
                kind = {"ABS": "abs", "COM": "com", "UND": "undef"}[at]
            elif where is None:
                kind = "other"
            else:
                kind = "sec" if s["name"] == "" and s["value"] == 0 else "rel"
            if s["bind"] == "LOCAL":
                given[i] = len(self.rows)
                self.rows.append((kind, where))
                continue
            old = self.held.get(s["name"])
            if old is None:
                self.held[s["name"]] = old = [len(self.rows), s]
                self.rows.append((kind, where))
            elif rank(s) > rank(old[1]) or (self.gabi and rank(s) == rank(old[1]) == 0 and s["bind"] == "GLOBAL" and old[1]["bind"] == "WEAK"):
                old[1] = s
                self.rows[old[0]] = (kind, where)
            given[i] = old[0]
        for n, s in o.sections.items():
            self.sections[ids[n]]["ids"] = [given[i] for i in s["names"] if i in given]

    def ties(self, name):
        old = self.held.get(name)
        return old is not None and old[1]["at"] == "UND" and not (self.gabi and old[1]["bind"] == "WEAK")

    def walk(self, archives):
        entries, files = [], {}
        for a, path in enumerate(archives):
            folder = tempfile.mkdtemp()
            subprocess.run(["ar", "x", os.path.abspath(path)], check=True, cwd=folder)
            for line in said("nm", "-s", path).splitlines():
                m = re.fullmatch(r"(\S+) in (\S+)", line)
                if m:
                    entries.append((m[1], (a, m[2])))
                    files[a, m[2]] = os.path.join(folder, m[2])
        taken = set()
        while True:
            self.passes += 1
            queue, required = [], {}
            for name, member in entries:
                if member not in taken and self.ties(name):
                    if member not in queue:
                        queue.append(member)
                    required.setdefault(member, set()).add(name)
            if not queue:
                return
            for member in queue:
                taken.add(member)
                self.offered += 1
                o = Object(files[member])
                admitting = [s for s in o.symbols if (s["bind"] != "LOCAL" and s["at"] != "UND" if self.gabi else s["bind"] == "GLOBAL")]
                if any(s["name"] in required[member] for s in admitting):
                    self.merge(o)

    def collect(self, entry):
        def lead(row):
            return [] if self.rows[row][1] is None else [self.rows[row][1]]

        todo = [n for n, s in enumerate(self.sections) if s["root"]]
        if entry in self.held:
            todo += lead(self.held[entry][0])
        kept = set()
        while todo:
            n = todo.pop()
            if n not in kept:
                kept.add(n)
                for row in self.sections[n]["ids"]:
                    todo += lead(row)
        self.rows = [r for r in self.rows if r[1] is None or r[1] in kept]
        sizes = [(n in kept, s["size"]) for n, s in enumerate(self.sections)]
        column = [sum(k == c for k, _ in self.rows) for c in NAMES.split()[:7]]
        counts = [sum(k == w for k, _ in sizes) for w in (True, False)]
        return column + [self.offered, self.passes] + counts + [sum(s for k, s in sizes if k == w) for w in (True, False)]


def figures(line):
    paths, entry, gabi = [], "_start", False
    for field in line.split():
        if field.startswith("entry="):
            entry = field[6:]
        elif field.startswith("profile="):
            gabi = field[8:] == "gabi"
        else:
            paths.append(field)
    title = Title(gabi)
    for path in paths:
        if not path.endswith(".a"):
            title.merge(Object(path))
    title.walk([p for p in paths if p.endswith(".a")])
    return title.collect(entry)


def main():
    lot = os.path.abspath(sys.argv[1])
    os.chdir(os.path.dirname(lot))
    total, number, refused = [0] * 13, 0, False
    print("title", NAMES)
    for line in open(lot):
        if line.strip():
            number += 1
            values = figures(line)
            sums = [a + b for a, b in zip(total, values)]
            if max(values + sums) >= 1 << 64:
                print("refused", number, 31)
                number, refused = number - 1, True
                continue
            total = sums
            print(number, *values)
    print("total", *total)
    return refused


sys.exit(main())
