"""drawn_texts.py: scripts and policies that draws.py draws, each from a generator of random numbers."""

PERMISSIONS = ["map_read", "map_write", "unmap", "transfer", "setup", "copy", "query"]
FLAGS = ["0", "1", "3", "4", "7", "8", "2147483648", "4294967295"]
CALLS = [
    ("grant", 22), ("bytes", 4), ("map", 20), ("unmap", 8), ("owner", 14), ("copy", 14), ("access", 16), ("table", 3),
    ("query", 4),
]


def hexed(rng, count):
    return bytes(rng.randrange(256) for _ in range(count)).hex() or "-"


class Guests:
    """A script for `play` and `run`: domains make one call after the other, with what a hostile guest would pass."""

    def __init__(self, rng):
        self.rng = rng
        self.types = ["a_t", "b_t", "c_t"][: rng.randint(1, 3)]
        self.ids = rng.sample([0, 1, 2, 3, 7, 300, 32751], rng.randint(1, 5))
        self.frames, self.version, self.granted, self.mapped = {}, {}, [], []
        self.head = self.policy() + self.domains()
        self.calls = []
        for _ in range(rng.randint(4, 40)):
            caller = rng.choice(self.ids)
            kind = rng.choices([name for name, _ in CALLS], [weight for _, weight in CALLS])[0]
            self.calls.append(getattr(self, kind)(caller))

    def pick(self, *choices):
        return self.rng.choice(choices)

    def policy(self):
        """The policy as a block, or as triples."""
        rng = self.rng
        allowed = {
            (source, target): [one for one in PERMISSIONS if rng.random() < 0.88]
            for source in self.types for target in self.types
        }
        if rng.random() < 0.4:
            lines = [f"triple {s} {t} {one}" for (s, t), some in allowed.items() for one in some]
            return lines or [f"triple {self.types[0]} {self.types[0]} query"]
        allows = [f"allow {s} {t}:grant {{ {' '.join(some)} }};" for (s, t), some in allowed.items() if some]
        return ["policy"] + [f"type {name};" for name in self.types] + allows + ["end"]

    def domains(self):
        rng = self.rng
        lines = [f"wear {self.pick(0, 5, 1048570, 1048574, 1048575)}"] if rng.random() < 0.3 else []
        for dom in self.ids:
            self.frames[dom], self.version[dom] = self.pick(1, 2, 8, 64), self.pick(1, 2, 2)
            numbers = f"{self.frames[dom]} {self.pick(1, 1, 2, 3, 16)} {self.version[dom]}"
            if rng.random() < 0.005:
                numbers = self.pick("0 1 1", "65 1 1", "8 0 1", "8 17 1", "8 1 3")
            lines.append(f"domain {dom} u:r:{rng.choice(self.types)} {numbers}")
        return lines

    # numbers

    def dom(self):
        return self.rng.choice(self.ids) if self.rng.random() < 0.94 else self.pick("self", 4, 32751, 32752, 32753, 65535)

    def gref(self):
        return self.rng.randint(0, 5) if self.rng.random() < 0.93 else self.pick(255, 256, 511, 512, 8191, 8192, 2**32 - 1)

    def frame(self, dom):
        if self.rng.random() < 0.92:
            return self.rng.randrange(self.frames[dom])
        return self.pick(self.frames[dom], 63, 64, 2**32 - 1, 2**32, 2**64 - 1)

    def off(self):
        return self.pick(0, 0, 0, 1, 7, 64, 100) if self.rng.random() < 0.9 else self.pick(4000, 4095, 4096, 65535)

    def length(self):
        return self.pick(0, 1, 2, 4, 16, 64, 96) if self.rng.random() < 0.92 else self.pick(4000, 4096, 4097, 65535)

    def flags(self):
        return self.pick("rw", "ro") if self.rng.random() < 0.93 else self.pick(*FLAGS)

    def label(self):
        return self.pick("g", "h", "k")

    def remembered(self, caller):
        """The owner and the reference of an entry, mostly of one that was granted to the caller."""
        own = [one for one in self.granted if one[2] == caller]
        if own and self.rng.random() < 0.85:
            return self.rng.choice(own)[:2]
        return self.dom(), self.gref()

    # calls

    def grant(self, caller):
        gref, to, mode = self.gref(), self.dom(), self.pick("rw", "rw", "ro")
        self.granted.append((caller, gref, to))
        kind = "page" if self.version[caller] == 1 and self.rng.random() < 0.95 else self.pick("page", "page", "sub", "via")
        if kind == "page":
            return caller, f"grant {gref} page {to} {mode} {self.frame(caller)}"
        if kind == "sub":
            return caller, f"grant {gref} sub {to} {mode} {self.frame(caller)} {self.off()} {self.length()}"
        owner, onward = self.remembered(caller)
        return caller, f"grant {gref} via {to} {mode} {owner} {onward}"

    def bytes(self, caller):
        size = 8 if self.version[caller] == 1 else 16
        if self.rng.random() < 0.3:
            return caller, f"bytes {self.gref()} {hexed(self.rng, self.pick(0, 7, size, size))}"
        to, gref, frame = self.rng.choice(self.ids), self.gref(), self.rng.randrange(self.frames[caller])
        self.granted.append((caller, gref, to))
        front = self.pick(1, 1, 5).to_bytes(2, "little") + to.to_bytes(2, "little")
        rest = frame.to_bytes(4, "little") if size == 8 else bytes(4) + frame.to_bytes(8, "little")
        return caller, f"bytes {gref} {(front + rest).hex()}"

    def map(self, caller):
        if self.granted and self.rng.random() < 0.7:
            owner, gref, to = self.rng.choice(self.granted)
            caller = to if to in self.ids else caller
        else:
            owner, gref = self.dom(), self.gref()
        label = self.label()
        self.mapped.append((caller, label))
        return caller, f"map {label} {owner} {gref} {self.flags()}"

    def through(self, caller):
        """A domain and a label, mostly of a map."""
        return self.rng.choice(self.mapped) if self.mapped and self.rng.random() < 0.9 else (caller, self.label())

    def unmap(self, caller):
        caller, label = self.through(caller)
        return caller, f"unmap {label}"

    def access(self, caller):
        what, count = self.pick("load", "store", "load", "store", "peek", "poke"), self.pick(0, 1, 4, 64)
        if what in ("load", "store"):
            caller, place = self.through(caller)
        else:
            place = self.frame(caller)
        last = self.length() if what in ("load", "peek") else hexed(self.rng, count)
        return caller, f"{what} {place} {self.off()} {last}"

    def owner(self, caller):
        what, gref = self.pick("revoke", "revoke", "withdraw", "demote", "promote"), self.gref()
        if self.granted and self.rng.random() < 0.85:
            caller, gref, _ = self.rng.choice(self.granted)
        return caller, f"{what} {gref}"

    def end(self, caller):
        if self.rng.random() < 0.65:
            owner, gref = self.remembered(caller)
            return f"gref {owner} {gref} {self.off()}"
        dom = "self" if self.rng.random() < 0.9 else self.dom()
        return f"frame {dom} {self.frame(caller)} {self.off()}"

    def copy(self, caller):
        return caller, f"copy {self.end(caller)} {self.end(caller)} {self.length()}"

    def table(self, caller):
        if self.rng.random() < 0.5:
            return caller, f"version {self.pick(1, 2, 0, 3, 2**32 - 1)}"
        return caller, f"setup {self.pick(1, 2, 3, 16, 17, 0, 2**32 - 1)}"

    def query(self, caller):
        return caller, f"{self.pick('size', 'getversion')} {self.dom()}"

    # texts

    def lines(self, flags):
        """The lines of the script. The flags let the domains make their calls in turn, and leave at the end together."""
        body, last = [], None
        for number, (caller, call) in enumerate(self.calls):
            if last not in (None, caller):
                body += [f"tell {last} f{number}", f"await {caller} f{number}"]
            body.append(f"do {caller} {call}")
            last = caller
        body += [f"tell {last} over"] + [f"await {dom} over" for dom in self.ids if dom != last]
        return self.head + (body if flags else [line if line.startswith("do") else "#" for line in body])

    def text(self, flags):
        return "".join(line + "\n" for line in self.lines(flags))


def race(rng):
    """A script for `run` with two or three domains that make a few calls on two entries of the first one."""
    pick, domains = (lambda *choices: rng.choice(choices)), 3 if rng.random() < 0.25 else 2
    lines = []
    for dom in range(2, domains + 1):
        odds = [("unmap", 0.8), ("map_read", 1), ("map_write", 0.8), ("copy", 0.8)]
        lines += [f"triple t{dom} t1 {one}" for one, chance in odds if rng.random() < chance]
        lines += [f"triple t1 t{dom} copy", f"triple t{dom} t{dom} copy"]
    lines += [f"domain {dom} u:r:t{dom} 4 1 {pick(1, 2, 2)}" for dom in range(1, domains + 1)]

    def entry():
        to, mode, frame = rng.randint(2, domains), pick("ro", "rw", "rw"), pick(2, 3)
        return f"sub {to} {mode} {frame} 0 {rng.randint(1, 4)}" if rng.random() < 0.25 else f"page {to} {mode} {frame}"

    def own():
        what = pick("grant", "grant", "revoke", "revoke", "withdraw", "demote", "promote", "poke", "peek")
        rest = {"grant": f"{rng.randrange(2)} {entry()}", "poke": f"{pick(2, 3)} 0 {pick('aa', 'bb')}", "peek": f"{pick(2, 3)} 0 1"}
        return f"{what} {rest.get(what, rng.randrange(2))}"

    def other():
        what, label, gref = pick("map", "map", "load", "store", "unmap", "copy"), pick("g", "h"), rng.randrange(2)
        ends = rng.sample([f"gref 1 {gref} 0", "frame self 0 0"], 2)
        rest = {
            "map": f"{label} 1 {gref} {pick('ro', 'rw')}", "load": f"{label} 0 1", "store": f"{label} 0 {pick('01', '02')}",
            "unmap": label, "copy": f"{ends[0]} {ends[1]} 1",
        }
        return f"{what} {rest[what]}"

    flags = rng.random() < 0.5
    lines += [f"do 1 grant 0 {entry()}"] + (["tell 1 begun"] if flags else [])
    lines += [f"do 1 {own()}" for _ in range(rng.randint(1, 3))]
    for dom in range(2, domains + 1):
        lines += [f"await {dom} begun"] if flags and rng.random() < 0.7 else []
        lines += [f"do {dom} map {pick('g', 'h')} 1 0 {pick('ro', 'rw')}"] if rng.random() < 0.7 else []
        lines += [f"do {dom} {other()}" for _ in range(rng.randint(1, 5 - domains))]
        lines += [f"tell {dom} done{dom}"] if rng.random() < 0.3 else []
    if rng.random() < 0.3:
        lines += ["await 1 done2", f"do 1 {own()}"]
    return "".join(line + "\n" for line in lines)


class Rules:
    """A policy, with its meaning: who may do what, by the sets of its allow statements."""

    def __init__(self, rng):
        self.rng = rng
        names = rng.sample(["a_t", "b_t", "c_t", "d-t", "e.t", "a", "b", "Z9", "x_", "typed", "allow_t"], rng.randint(1, 9))
        self.types = names
        self.attributes = rng.sample(["dom", "guest", "s", "Big", "selfish"], rng.randint(0, 4))
        self.given = {name: {one for one in self.attributes if rng.random() < 0.35} for name in names}
        self.allows = [self.statement() for _ in range(rng.randint(0, 8))]
        self.lines = self.declarations() + [self.spelled("allow", one) for one in self.allows]
        self.first = len(self.lines) - len(self.allows) + 1  # the line of the first allow statement

    def declarations(self):
        """Lines that declare the types and attributes, and give the types their attributes by one way or two."""
        rng, lines, later = self.rng, [f"attribute {one};" for one in self.attributes], []
        for name in self.types:
            attributes = sorted(self.given[name])
            now = [one for one in attributes if rng.random() < 0.5]
            left = [one for one in attributes if one not in now or rng.random() < 0.1]
            lines.append(f"type {', '.join([name] + now)};")
            later += [f"typeattribute {name} {', '.join(left)};"] if left else []
        lines += later
        rng.shuffle(lines)
        return lines

    def choice(self, target, never=False):
        """A set: its names with their signs, whether it has `self`, and whether it is every type or all but the set."""
        rng = self.rng
        if never and rng.random() < 0.2:
            return [], False, "*"
        items = [(rng.choice(self.types + self.attributes), rng.random() < 0.25) for _ in range(rng.randint(1, 3))]
        if never and rng.random() < 0.2:
            return items, False, "~"
        if target and rng.random() < 0.25:
            return (items if rng.random() < 0.5 else []), True, ""
        return items, False, ""

    def statement(self, never=False):
        rng = self.rng
        classes = rng.choice([["grant"]] * 6 + [["grant", "event"], ["event"], ["grant", "grant"]])
        perms = rng.sample(PERMISSIONS, rng.randint(1, 3)) if rng.random() < 0.85 else ["*"]
        if "event" in classes and perms != ["*"] and rng.random() < 0.5:
            perms = perms + ["bind"]
        return self.choice(False, never), self.choice(True, never), classes, perms

    def spelled(self, word, statement):
        source, target, classes, perms = statement
        space = self.rng.choice(["", " ", "\t"])
        return (
            f"{word} {self.spelled_set(source)} {self.spelled_set(target)}{space}:{space}"
            f"{braced(classes, self.rng)} {braced(perms, self.rng)}{space};{self.rng.choice(['', '', ' # so;'])}"
        )

    def spelled_set(self, chosen):
        items, has_self, mark = chosen
        if mark == "*":
            return "*"
        words = ["self"] * has_self + [("-" if out else "") + name for name, out in items]
        self.rng.shuffle(words)
        is_one = len(words) == 1 and not words[0].startswith("-") and self.rng.random() < 0.7
        return mark + (words[0] if is_one else "{ " + " ".join(words) + " }")

    # the meaning

    def held(self, chosen):
        """The types that a set has."""
        items, _, mark = chosen
        if mark == "*":
            return set(self.types)
        inside = {name for item, out in items if not out for name in self.named(item)}
        inside -= {name for item, out in items if out for name in self.named(item)}
        return set(self.types) - inside if mark == "~" else inside

    def named(self, word):
        return {word} if word in self.types else {name for name in self.types if word in self.given[name]}

    def triples_of(self, statement):
        source, target, classes, perms = statement
        if "grant" not in classes:
            return set()
        allowed = PERMISSIONS if perms == ["*"] else [one for one in PERMISSIONS if one in perms]
        pairs = {(s, t) for s in self.held(source) for t in self.held(target)}
        pairs |= {(s, s) for s in self.held(source)} if target[1] else set()
        return {(s, t, one) for s, t in pairs for one in allowed}

    def triples(self):
        return {triple for one in self.allows for triple in self.triples_of(one)}

    def text(self):
        return "".join(line + "\n" for line in self.lines)


def braced(words, rng):
    return words[0] if len(words) == 1 and (words[0] == "*" or rng.random() < 0.7) else "{ " + " ".join(words) + " }"


def changed(rng, data):
    """The text with one to three changes of a byte, a word or a line."""
    for _ in range(rng.choice([1, 1, 2, 3])):
        data = rng.choice([change_byte, change_word, change_line])(rng, data)
    return data


def change_byte(rng, data):
    at = rng.randrange(len(data) + 1)
    byte = bytes([rng.choice(b"\n\r\t #;:{}~*-,0129azAZ\xff\x80\x00") if rng.random() < 0.7 else rng.randrange(256)])
    return rng.choice([data[:at] + byte + data[at:], data[:at] + byte + data[at + 1 :], data[:at] + data[at + 1 :], data[:at]])


def change_word(rng, data):
    words = data.split(b" ")
    at = rng.randrange(len(words))
    words[at] = rng.choice([rng.choice(words), b"4294967296", b"99999999999999999999999", b"0", b"self", b"", b"rw"])
    return b" ".join(words)


def change_line(rng, data):
    lines = data.split(b"\n")
    at, other = rng.randrange(len(lines)), rng.randrange(len(lines))
    kind = rng.randrange(3)
    if kind == 0:
        del lines[at]
    elif kind == 1:
        lines.insert(other, lines[at])
    else:
        lines[at], lines[other] = lines[other], lines[at]
    return b"\n".join(lines)
