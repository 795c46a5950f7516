"""Reads the sources of a FLASK policy, and writes what it says of grants as a policy for gthost (contrib/flask.sh).

A domain's calls on itself ask for another type than its calls on other domains of its type: the policy names that type
by `type_transition T T:domain T_self`. gthost asks for T on T in both cases. So each domain of a host needs a type of
its own here, and what the policy says of (T, T_self) is written for (T, T).
"""
import collections
import re
import sys

PERMISSIONS = ["map_read", "map_write", "unmap", "transfer", "setup", "copy", "query"]
TOKEN = re.compile(r'#[^\n]*|"[^"\n]*"|[A-Za-z][\w.\-]*|\d[\w.]*|&&|\|\||==|!=|\n|[^\s\w]|\S')
# Statements that end at a semicolon and say nothing of grants, and what they are about.
ENDED = {
    "role": "roles", "attribute_role": "roles", "roleattribute": "roles", "role_transition": "roles", "user": "users",
    "auditallow": "what is logged", "dontaudit": "what is logged", "auditdeny": "what is logged",
    "type_member": "labels of objects", "type_change": "labels of objects", "range_transition": "levels",
    "sensitivity": "levels", "category": "levels", "level": "levels", "validatetrans": "labels of objects",
    "mlsvalidatetrans": "labels of objects", "policycap": "the format", "expandattribute": "the format",
    "module": "the format", "default_user": "labels of objects", "default_role": "labels of objects",
    "default_type": "labels of objects", "default_range": "levels", "allowxperm": "other classes",
    "neverallowxperm": "other classes", "auditallowxperm": "what is logged", "dontauditxperm": "what is logged",
}
# Statements that end where the next begins.
UNENDED = {
    "sid": "labels of objects", "pirqcon": "devices", "iomemcon": "devices", "ioportcon": "devices",
    "pcidevicecon": "devices", "devicetreecon": "devices", "genfscon": "labels of objects",
    "portcon": "labels of objects", "netifcon": "labels of objects", "nodecon": "labels of objects",
    "fs_use_xattr": "labels of objects",
    "fs_use_task": "labels of objects", "fs_use_trans": "labels of objects", "dominance": "levels",
}
READ = [
    "class", "common", "type", "typealias", "typeattribute", "attribute", "bool", "tunable", "type_transition", "allow",
    "neverallow", "permissive", "constrain", "mlsconstrain", "if", "optional", "require",
]
KEYWORDS = set(READ) | set(ENDED) | set(UNENDED)


class Fault(Exception):
    """Why there is no policy for gthost."""


Token = collections.namedtuple("Token", "text place")
# A set as it is written: its items, each with whether `-` stands before it, and `*` or `~` if that begins it.
Names = collections.namedtuple("Names", "items whole")
# A statement about grants, and the conditions under which it counts.
Rule = collections.namedtuple("Rule", "sources targets permissions place conditions")


def tokens_of(name, text, has_lines):
    """The tokens of a file, each with its place; `#line N "FILE"` of m4 gives the place of the lines after it."""
    line, tokens = 1, []
    for match in TOKEN.finditer(text):
        word = match.group()
        if word == "\n":
            line += 1
        elif not word.startswith("#"):
            tokens.append(Token(word, "%s:%d" % (name, line) if has_lines else name))
        else:
            told = re.match(r'#line (\d+)(?: "([^"]*)")?', word)
            if told:
                line, name = int(told.group(1)) - 1, told.group(2) or name
    return tokens


class Condition:
    """A block: of a boolean expression, or of `optional`, with the names that it requires."""

    def __init__(self, expression, place):
        self.expression, self.place, self.required = expression, place, []


class Parser:
    """Reads the statements of the files of a policy."""

    def __init__(self, tokens):
        self.tokens, self.at = tokens, 0
        self.types, self.attributes, self.booleans, self.aliases = {}, {}, {}, {}
        self.given, self.required, self.asked = [], [], {}
        self.transitions, self.allows, self.nevers, self.constraints = [], [], [], []
        self.blocks, self.grant, self.permissive = [], None, []
        self.left = collections.Counter()

    def peek(self):
        return self.tokens[self.at].text if self.at < len(self.tokens) else ""

    def place(self):
        return self.tokens[min(self.at, len(self.tokens) - 1)].place

    def take(self, wanted=None):
        """The next token, which has to be `wanted` if that is given."""
        if self.at == len(self.tokens):
            raise Fault("%s: the policy ends in a statement" % self.place())
        if wanted is not None and self.peek() != wanted:
            raise Fault('%s: expected "%s" before "%s"' % (self.place(), wanted, self.peek()))
        self.at += 1
        return self.tokens[self.at - 1].text

    def name(self):
        if not re.match(r"[A-Za-z]", self.peek()):
            raise Fault('%s: expected a name before "%s"' % (self.place(), self.peek()))
        return self.take()

    def skip_to(self, end):
        while self.take() != end:
            pass

    def braced(self):
        """The words between braces, those of inner braces among them; or one word."""
        words, depth = [], 0
        while True:
            word = self.take()
            if word == "{":
                depth += 1
            elif word == "}":
                depth -= 1
            elif word in (";", ":"):
                raise Fault('%s: expected a name before "%s"' % (self.tokens[self.at - 1].place, word))
            else:
                words.append(word)
            if depth == 0 and words[-1:] not in (["-"], ["~"]):
                return words

    def names(self):
        """A set of names."""
        words = self.braced()
        whole = words[0] if words[:1] in (["*"], ["~"]) else ""
        items, is_without = [], False
        for word in words[1:] if whole else words:
            if word == "-":
                is_without = True
            else:
                items.append((is_without, word))
                is_without = False
        return Names(items, whole)

    def commas(self):
        """Names with commas between them, up to the semicolon."""
        names = [self.name()]
        while self.peek() == ",":
            self.take()
            names.append(self.name())
        self.take(";")
        return names

    def declare(self, kind, name, value):
        if self.aliases.get(name) or name in self.types or name in self.attributes or name in self.booleans:
            raise Fault("%s: %s is declared twice" % (self.place(), name))
        kind[name] = value
        self.asked[name] = list(self.blocks)

    def read_type(self):
        name = self.name()
        self.declare(self.types, name, None)
        if self.peek() == "alias":
            self.take()
            for alias in self.braced():
                self.declare(self.aliases, alias, name)
        if self.peek() == ",":
            self.take()
            self.given.append((name, self.commas(), self.place(), list(self.blocks)))
        else:
            self.take(";")

    def read_typealias(self):
        name = self.name()
        self.take("alias")
        for alias in self.braced():
            self.declare(self.aliases, alias, name)
        self.take(";")

    def read_typeattribute(self):
        place, name = self.place(), self.name()
        self.given.append((name, self.commas(), place, list(self.blocks)))

    def read_boolean(self):
        name = self.name()
        value = self.take()
        if value not in ("true", "false"):
            raise Fault("%s: expected true or false" % self.place())
        self.declare(self.booleans, name, value == "true")
        self.take(";")

    def read_class(self):
        """A class by its name, or with what it may be asked."""
        name, begin = self.name(), self.at
        if self.peek() == "inherits":
            self.take()
            self.name()
        if self.peek() == "{":
            words = self.braced()
            if name == "grant":
                self.grant = words
        elif self.at != begin:
            return

    def read_transition(self):
        place, sources, targets = self.place(), self.names(), self.names()
        self.take(":")
        classes = self.names()
        result = self.name()
        if self.peek() != ";":
            self.take()
        self.take(";")
        if any(name == "domain" for _, name in classes.items):
            self.transitions.append((sources, targets, result, place, list(self.blocks)))

    def read_rule(self, keyword):
        """A statement about the types of both sides, if it is one, and about grants."""
        place = self.tokens[self.at - 1].place
        sources, targets = self.names(), self.names()
        if self.peek() != ":":
            self.left["roles"] += 1
            self.take(";")
            return
        self.take(":")
        classes, permissions = self.names(), self.names()
        conditions = list(self.blocks)
        if self.peek() == ";":
            self.take()
        if self.peek() == "[":
            conditions.append(self.read_suffix(place))
        if not classes.whole and all(name != "grant" for _, name in classes.items):
            self.left["other classes"] += 1
            return
        rule = Rule(sources, targets, self.permissions_of(permissions, place), place, conditions)
        (self.allows if keyword == "allow" else self.nevers).append(rule)

    def read_suffix(self, place):
        """The condition that sesearch writes after a statement, as `[ a && b ]:True`."""
        self.take("[")
        words = []
        while self.peek() != "]":
            words.append(self.take())
        self.take("]")
        self.take(":")
        return Condition(words, place), self.take() == "True"

    def permissions_of(self, permissions, place):
        """The permissions of grants among those of a statement."""
        if permissions.whole == "*":
            return list(self.grant or PERMISSIONS)
        named = [name for _, name in permissions.items]
        if permissions.whole:
            return [name for name in self.grant or PERMISSIONS if name not in named]
        return named

    def read_constraint(self):
        place, classes = self.place(), self.braced()
        self.skip_to(";")
        if "grant" in classes:
            self.constraints.append(place)

    def read_if(self):
        place = self.place()
        self.take("(")
        words, depth = [], 1
        while depth:
            word = self.take()
            depth += (word == "(") - (word == ")")
            words.append(word)
        self.read_blocks(Condition(words[:-1], place))

    def read_blocks(self, condition):
        """A block, and what stands for it after `else`."""
        for is_met in (True, False):
            self.take("{")
            self.blocks.append((condition, is_met))
            while self.peek() != "}":
                self.statement()
            self.take("}")
            self.blocks.pop()
            if is_met and self.peek() != "else":
                return
            if is_met:
                self.take()

    def read_require(self):
        """The names that a module takes from others."""
        place = self.place()
        self.take("{")
        while self.peek() != "}":
            kind = self.take()
            if kind == "class":
                self.name()
                self.braced()
                self.take(";")
            else:
                self.required.extend((kind, name, place, list(self.blocks)) for name in self.commas())
        self.take("}")

    def statement(self):
        place, keyword = self.place(), self.take()
        if keyword == ";":
            return
        read = {
            "type": self.read_type, "typealias": self.read_typealias, "typeattribute": self.read_typeattribute,
            "bool": self.read_boolean, "tunable": self.read_boolean, "class": self.read_class,
            "type_transition": self.read_transition, "constrain": self.read_constraint,
            "mlsconstrain": self.read_constraint, "if": self.read_if, "require": self.read_require,
        }
        if keyword in read:
            read[keyword]()
        elif keyword in ("allow", "neverallow"):
            self.read_rule(keyword)
        elif keyword == "attribute":
            self.declare(self.attributes, self.name(), place)
            self.take(";")
        elif keyword == "optional":
            self.read_blocks(Condition(None, place))
        elif keyword == "common":
            self.name()
            self.braced()
        elif keyword == "permissive":
            self.permissive += self.braced()
            self.take(";")
        elif keyword in ENDED and self.peek() != "(":
            self.left[ENDED[keyword]] += 1
            self.skip_to(";")
        elif keyword in UNENDED:
            self.left[UNENDED[keyword]] += 1
            while self.peek() and self.peek() not in KEYWORDS and self.peek() != "}":
                self.take()
        elif self.peek() == "(" or keyword == "`" or keyword == "define":
            raise Fault("%s: %s is a macro: expand the sources by m4 first" % (place, keyword))
        else:
            raise Fault('%s: no statement begins with "%s"' % (place, keyword))

    def parse(self):
        while self.peek():
            self.statement()


def is_true(words, booleans, place):
    """The value of a boolean expression."""
    at = 0

    def atom():
        nonlocal at
        word = words[at] if at < len(words) else ""
        at += 1
        if word == "(":
            value = level(0)
            at += 1
            return value
        if word == "!":
            return not level(3)
        if word in ("true", "false"):
            return word == "true"
        if word not in booleans:
            raise Fault('%s: "%s" is not a declared boolean' % (place, word))
        return booleans[word]

    levels = [
        {"||": lambda a, b: a or b}, {"^": lambda a, b: a != b}, {"&&": lambda a, b: a and b},
        {"==": lambda a, b: a == b, "!=": lambda a, b: a != b},
    ]

    def level(depth):
        nonlocal at
        if depth == len(levels):
            return atom()
        value = level(depth + 1)
        while at < len(words) and words[at] in levels[depth]:
            join = levels[depth][words[at]]
            at += 1
            value = join(value, level(depth + 1))
        return value

    return level(0)


class Meaning:
    """What the statements of a policy say."""

    def __init__(self, parsed, counts):
        self.parsed = parsed
        self.off = set()
        self.drop_optional_blocks()
        self.check_required()
        self.types = {name: set() for name in parsed.types if self.is_in(parsed.asked[name])}
        for name, attributes, place, conditions in parsed.given:
            if self.is_in(conditions):
                self.give(name, attributes, place)
        self.self_of, self.others = {}, []
        self.read_transitions()
        self.count_domains(counts)

    def is_declared(self, name):
        parsed = self.parsed
        name = parsed.aliases.get(name, name)
        declared = name in parsed.types or name in parsed.attributes or name in parsed.booleans
        return declared and self.is_in(parsed.asked[name])

    def is_in(self, conditions):
        """Whether a statement under these conditions is in a block `optional` that is dropped."""
        return not any((condition, is_met) in self.off for condition, is_met in conditions)

    def drop_optional_blocks(self):
        """Drops the blocks whose required names are not declared, and those after `else` of the others."""
        blocks = {}
        for kind, name, _, conditions in self.parsed.required:
            if conditions and conditions[-1][0].expression is None and kind in ("type", "attribute", "bool"):
                blocks.setdefault(conditions[-1][0], []).append(name)
        self.off = {(block, False) for block in blocks}
        changed = True
        while changed:
            changed = False
            for block, names in blocks.items():
                if (block, True) not in self.off and not all(self.is_declared(name) for name in names):
                    self.off.add((block, True))
                    self.off.discard((block, False))
                    changed = True

    def check_required(self):
        for kind, name, place, conditions in self.parsed.required:
            if kind in ("type", "attribute", "bool") and self.is_in(conditions) and not self.is_declared(name):
                raise Fault("%s: %s is required, and none of the files declares it" % (place, name))

    def give(self, name, attributes, place):
        name = self.type_of(name)
        if name is None or any(attribute not in self.parsed.attributes for attribute in attributes):
            raise Fault("%s: a type or an attribute is not declared" % place)
        self.types[name].update(attributes)

    def type_of(self, name):
        name = self.parsed.aliases.get(name, name)
        return name if name in self.types else None

    def members(self, name, place):
        """The types that a name in a set stands for."""
        if self.type_of(name) is not None:
            return {self.type_of(name)}
        if name not in self.parsed.attributes or not self.is_in(self.parsed.asked[name]):
            raise Fault("%s: %s is not declared" % (place, name))
        return {each for each, attributes in self.types.items() if name in attributes}

    def expanded(self, names, place):
        """The types of a set, without what `self` adds."""
        with_, without = set(), set()
        for is_without, name in names.items:
            if name != "self":
                (without if is_without else with_).update(self.members(name, place))
        if names.whole == "*":
            return set(self.types)
        return set(self.types) - (with_ - without) if names.whole else with_ - without

    def is_on(self, conditions):
        """Whether a statement counts, by the defaults of the booleans."""
        return self.is_in(conditions) and all(
            condition.expression is None or
            is_true(condition.expression, self.parsed.booleans, condition.place) == is_met
            for condition, is_met in conditions)

    def read_transitions(self):
        for sources, targets, result, place, conditions in self.parsed.transitions:
            if not self.is_on(conditions):
                continue
            made = self.type_of(result)
            if made is None:
                raise Fault("%s: %s is not declared" % (place, result))
            for source in sorted(self.expanded(sources, place)):
                for target in sorted(self.expanded(targets, place)):
                    if source == target:
                        self.self_of[source] = made
                    else:
                        self.others.append((source, target, made))
                if any(name == "self" for _, name in targets.items):
                    self.self_of[source] = made

    def count_domains(self, counts):
        """Makes the types of the host's domains: those of the policy, and more for several domains of a type."""
        selves = {made for name, made in self.self_of.items() if made != name}
        self.shown, self.family = {}, {}
        for name in self.types:
            if name in selves:
                continue
            more = ["%s_%d" % (name, i) for i in range(2, counts.get(name, 1) + 1)]
            for other in more:
                if self.is_declared(other):
                    raise Fault("%s is declared by the policy, so %s can't have so many domains" % (other, name))
            self.family[name] = [name] + more
            self.shown.update((each, name) for each in self.family[name])
        for name in counts:
            if name not in self.family:
                raise Fault("%s=%d: the policy has no such type of domains" % (name, counts[name]))

    def wanted(self, rule, source, targets):
        """The types on which a domain of this type may act, by a rule whose targets are these."""
        of = self.shown[source]
        if any(name == "self" for _, name in rule.targets.items):
            targets = targets | {of}
        asked = self.self_of.get(of, of)
        return {each for each, name in self.shown.items() if (asked if each == source else name) in targets}


class Writer:
    """Writes rules as statements that gthost reads, and remembers which names they need."""

    def __init__(self, meaning, attributes=None):
        self.meaning, self.attributes = meaning, attributes
        self.used, self.named, self.lines, self.repeated = set(), set(), [], set()
        self.empty, self.beyond = [], 0

    def items(self, names, place):
        """A set as gthost has it: the types of the host's domains, and the attributes that such types have."""
        items = []
        for is_without, name in names.items:
            if name == "self":
                continue
            kinds = self.meaning.members(name, place)
            shown = [each for each, kind in self.meaning.shown.items() if kind in kinds]
            is_attribute = self.meaning.type_of(name) is None and (self.attributes is None or name in self.attributes)
            if shown:
                items.extend((is_without, each) for each in ([name] if is_attribute else shown))
        return list(dict.fromkeys(items))

    def spelled(self, items, whole=""):
        words = [("-" if is_without else "") + name for is_without, name in items]
        if whole == "*":
            return "*"
        one = words[0] if len(words) == 1 and words[0][0] != "-" else "{ " + " ".join(words) + " }"
        return whole + one

    def add(self, keyword, sources, targets, rule, permissions):
        text = "%s %s %s:grant %s;" % (keyword, sources, targets, permissions)
        if text not in self.repeated:
            self.repeated.add(text)
            self.lines.append("%s  # %s" % (text, rule.place) if ":" in rule.place else text)

    def write(self, keyword, rule):
        """Writes a rule for those types of domains that may act on some type by it."""
        permissions = [name for name in PERMISSIONS if name in rule.permissions]
        self.beyond += len(set(rule.permissions) - set(permissions))
        meaning, place = self.meaning, rule.place
        froms, targets = meaning.expanded(rule.sources, place), meaning.expanded(rule.targets, place)
        wanted = {each: meaning.wanted(rule, each, targets) for each, name in meaning.shown.items() if name in froms}
        if not any(wanted.values()) or not permissions:
            self.empty.append(rule)
            return
        spelled = "*" if permissions == PERMISSIONS else self.spelled([(False, name) for name in permissions])
        base = {each for each, name in meaning.shown.items() if name in targets}
        self.write_wanted(keyword, rule, spelled, base, wanted)
        self.used.update(each for each, what in wanted.items() if what)
        self.used.update(*wanted.values())
        self.named.update(name for _, name in self.items(rule.targets, place) + self.items(rule.sources, place))

    def write_wanted(self, keyword, rule, permissions, base, wanted):
        """Writes a rule: by one statement, if its sets say what is wanted. `base` is what its target set says. For some
        sources their own type is added to it, and for others taken away."""
        items = self.items(rule.targets, rule.place)
        spelled_out = [(False, each) for each in sorted(base)] if rule.targets.whole else items
        plain = [each for each, what in wanted.items() if what and what == base]
        plus = [each for each, what in wanted.items() if what != base and what == base | {each}]
        if plain:
            targets = self.spelled(items, rule.targets.whole)
            self.add(keyword, self.some(rule, plain, wanted), targets, rule, permissions)
        if plus:
            targets = self.spelled((spelled_out if base else []) + [(False, "self")])
            self.add(keyword, self.some(rule, plus, wanted), targets, rule, permissions)
        for each, what in wanted.items():
            if what and each not in plain and each not in plus:
                is_less = what == base - {each} and not rule.targets.whole
                rest = items + [(True, each)] if is_less else [(False, other) for other in sorted(what)]
                self.add(keyword, each, self.spelled(rest), rule, permissions)

    def some(self, rule, sources, wanted):
        """These sources of a rule, by the words of the rule if all but some of them are meant."""
        items = self.items(rule.sources, rule.place)
        rest = [each for each in wanted if each not in sources]
        if not rest:
            return self.spelled(items, rule.sources.whole)
        if len(rest) < len(sources) and not rule.sources.whole:
            return self.spelled(items + [(True, each) for each in rest])
        return self.spelled([(False, each) for each in sources])

    def declarations(self):
        """The attributes that the statements name, and the types that they are about."""
        meaning = self.meaning
        attributes = [name for name in meaning.parsed.attributes if name in self.named]
        lines = ["attribute %s;" % name for name in attributes]
        for each, name in meaning.shown.items():
            given = [attribute for attribute in attributes if attribute in meaning.types[name]]
            if each in self.used:
                lines.append("type %s;" % ", ".join([each] + given))
        return lines


def told(words):
    """Names, as many as a line holds."""
    words = list(words)
    return ", ".join(words[:6]) + (" and %d more" % (len(words) - 6) if len(words) > 6 else "")


def said(rule):
    """A rule, in a word or two."""
    def spelled(names):
        return names.whole + " ".join(("-" if is_without else "") + name for is_without, name in names.items)
    place = rule.place + " " if ":" in rule.place else ""
    return "%s(%s %s: %s)" % (place, spelled(rule.sources), spelled(rule.targets), " ".join(rule.permissions))


def two_of_a_type(meaning):
    """The types of which one domain may do other things to itself than to a second domain: those that are only for
    itself, and those that are only for the second, as a text for each type."""
    own = {name: set() for name, family in meaning.family.items() if len(family) == 1}
    others = {name: set() for name in own}
    for rule in meaning.parsed.allows:
        if not meaning.is_on(rule.conditions):
            continue
        froms, targets = meaning.expanded(rule.sources, rule.place), meaning.expanded(rule.targets, rule.place)
        has_self = any(each == "self" for _, each in rule.targets.items)
        for name in froms.intersection(own):
            reached = targets | ({name} if has_self else set())
            own[name].update(rule.permissions if meaning.self_of.get(name, name) in reached else [])
            others[name].update(rule.permissions if name in reached else [])
    for name in sorted(own):
        words = ["+" + each for each in PERMISSIONS if each in own[name] - others[name]]
        words += ["-" + each for each in PERMISSIONS if each in others[name] - own[name]]
        if words:
            yield "%s (%s)" % (name, " ".join(words))


def notes(meaning, writer, file):
    """What was left out, and what that means."""
    parsed = meaning.parsed
    yield "%s: %d allow statements of class grant, %d types" % (file, len(parsed.allows), len(writer.used))
    if meaning.self_of:
        yield ("a domain on itself is asked for %s in the hypervisor, and for its own type here: what the policy says "
               "of the first is written for the second" % told(sorted(set(meaning.self_of.values()))))
    several = list(two_of_a_type(meaning))
    if several:
        yield ("this text is for one domain of each type; TYPE=N writes it for N domains of a type. Two domains that "
               "share a type are answered otherwise than in the hypervisor (+ allowed, - denied): %s" % told(several))
    for source, target, made in meaning.others:
        if made in writer.used:
            yield ("%s is the type of a domain of type %s for its device model (%s): in a script, give it to a domain "
                   "on which only the device model acts" % (made, target, source))
    for name, value in sorted(parsed.booleans.items()):
        off = [
            rule for rule in parsed.allows
            if meaning.is_in(rule.conditions) and not meaning.is_on(rule.conditions)
            and any(condition.expression and name in condition.expression for condition, _ in rule.conditions)
        ]
        if off:
            yield "%s is %s by default: left out %s" % (name, "true" if value else "false", told(map(said, off)))
    for (block, is_met) in sorted(meaning.off, key=lambda off: off[0].place):
        if is_met:
            yield "%s: this block is optional, and what it requires is not declared: left out" % block.place
    if parsed.constraints:
        yield ("constraints of class grant are not applied (%s): where one denies a call, gthost may allow it" %
               told(parsed.constraints))
    if parsed.permissive:
        yield "the hypervisor denies nothing to permissive types (%s), and gthost does" % told(parsed.permissive)
    if writer.empty:
        yield "left out, since no domain of this host has anything by them: %s" % told(map(said, writer.empty))
    if writer.beyond:
        yield "permissions that class grant has beyond the seven are left out"
    aside = [each for each in meaning.shown if each not in writer.used]
    if aside:
        yield "types that no statement of class grant is about are not declared: %s" % told(aside)
    if parsed.left:
        yield "left out, since it grants nothing of class grant: " + ", ".join(
            "%s (%d)" % (what, count) for what, count in sorted(parsed.left.items()))


def main(words):
    counts, files, is_never, is_binary = {}, [], False, False
    for word in words:
        if word == "--never":
            is_never = True
        elif word == "--binary":
            is_binary = True
        elif re.match(r"[A-Za-z][\w.-]*=\d+\Z", word):
            counts[word.split("=")[0]] = max(1, int(word.split("=")[1]))
        else:
            files.append(word)
    name = files.pop().rsplit("/", 1)[-1] if is_binary else " ".join(file.rsplit("/", 1)[-1] for file in files)
    tokens = []
    for file in files:
        with open(file, encoding="utf-8", errors="replace") as read:
            tokens += tokens_of(name if is_binary else file.rsplit("/", 1)[-1], read.read(), not is_binary)
    parsed = Parser(tokens)
    parsed.parse()
    meaning = Meaning(parsed, counts)
    writer = Writer(meaning)
    for rule in parsed.allows:
        if meaning.is_on(rule.conditions):
            writer.write("allow", rule)
    lines = writer.declarations() + [""] + writer.lines
    if is_never:
        meaning.shown = {each: kind for each, kind in meaning.shown.items() if each in writer.used}
        nevers = Writer(meaning, writer.named)
        for rule in parsed.nevers:
            if meaning.is_on(rule.conditions):
                nevers.write("neverallow", rule)
        lines = nevers.lines
    print("# What %s says of grants, by contrib/flask.sh." % name)
    print("\n".join(lines))
    for note in notes(meaning, writer, name):
        print("flask.sh: " + note, file=sys.stderr)


if __name__ == "__main__":
    try:
        main(sys.argv[1:])
    except (Fault, OSError) as fault:
        print("flask.sh: %s" % fault, file=sys.stderr)
        sys.exit(2)
