"""How the code of a production is read, and the chain of laws that follows a path through it: what tools/proofs writes with.

A contract says what its function runs, in one of these forms:
  Does e m s a r    reads tokens, may change the room
  Steps m s a r     reads no token
  Peeks e m p a q   changes no room
  told              the answer to a test that changes nothing, by a law of its own
  pure              any other equation of the result
TOLD in hints.py has the laws of the tests, and of acts whose answer is not read.
A call becomes its law with `.ensures`, a branch or an arm rewrites the goal with what it tells, and what is left ends in `ends`.
Where a definition nests its blocks as the source does, the goal is flattened first (FLAT in hints.py).
"""
import glob
import re

LAWS = {"Does": "then _ _ _ _", "Steps": "step _ _ _ _", "Peeks": "peek _ _ _ _ _"}
RUNS = ("Does", "Steps", "Peeks")
WIDTH = 132  # of a line that is written


class Fn:
    """A function of the code, by its head and body. cycle: the name of its cycle of calls, if it is in one."""

    def __init__(self, path, name, params, ret, head, body, told, cycle):
        self.path, self.crate, self.name, self.ret, self.head, self.body, self.cycle = path, path.split("/")[1], name, ret, head, body, cycle
        self.params = [x.strip() for x in params.split(",") if x.strip()]
        self.requires = re.findall(r"requires (?:(\w+) )?\{ (.*?) \}\n", head)
        ensures = re.search(r"ensures \{ (.*?) \}\n", head, re.S)
        ensures = ensures.group(1) if ensures else ""
        form = re.match(r"(Does|Steps|Peeks)\b", ensures)
        laws = [law for text, law in told if text in ensures]
        self.form = form.group(1) if form else "told" if laws else "pure"
        self.law = laws[0] if laws else LAWS.get(self.form)
        # the definition that the contract names, as the code names it
        acts = re.sub(r"^\w+ \(tokens [^()]*\) |^Steps |^result ≡ ", "", ensures)
        m = re.match(r"\(*([\w.]+)", acts)
        self.acts = m.group(1) if m else None

    def kept(self):
        """the room whose length a call keeps"""
        return next((p.split(":")[0] for p in self.params if "&mut [u32]" in p), None)

    def definition(self):
        """(module, name) of the definition that the contract names, if it stands in a module that the file names"""
        if self.acts and "." in self.acts:
            alias, name = self.acts.split(".")
            m = re.search(r"ghost use (\S+) as %s;" % alias, open(self.path, encoding="utf-8").read())
            return (m.group(1), name) if m else None
        return None


def below(crate):
    """a crate and those of the repository that it reaches"""
    deps = {}
    for line in open("crates.txt", encoding="utf-8"):
        name, _, rest = line.split("#")[0].partition(":")
        deps[name.strip()] = rest.split()
    out, todo = [], [crate]
    while todo:
        name = todo.pop()
        if name in deps and name not in out:
            out.append(name)
            todo += deps[name]
    return out


def functions(crate, told=()):
    """name -> [Fn], of a crate and those below it"""
    out = {}
    for path in sorted(p for name in below(crate) for p in glob.glob("crates/%s/src/*.rt" % name)):
        with open(path, encoding="utf-8") as f:
            text = f.read()
        for m in re.finditer(r"(?:#\[cycle\((\w+)\)\]\n *)?(?:pub )?\bfn (\w+)\(([^)]*)\)(?: -> ([^\n]+))?(.*?)\n\s*\{\n", text, re.S):
            indent = re.match(r"[ ]*", text[text.rfind("\n", 0, m.start()) + 1:]).group(0)
            end = re.search(r"\n%s\}\n" % indent, text[m.end() - 1:])
            body = text[m.end() - 1:m.end() - 1 + end.end()] if end else ""
            fn = Fn(path, m.group(2), m.group(3), m.group(4), m.group(0), body, told, m.group(1))
            out.setdefault(m.group(2), []).append(fn)
    return out


def called(fns, name, crate):
    """the function of a name: of the crate itself, or else of another"""
    found = fns.get(name, [])
    return ([f for f in found if f.crate == crate] or found or [None])[0]


def tests(body):
    """the conditions of a body, first in the code first"""
    return re.findall(r"\b(?:if|while) (?!let )(.*?) \{\n", body, re.S)


def matches(body):
    """[(value, keys, end)] of the matches of a body: what each is on, its keys, and where it begins"""
    out = []
    for m in re.finditer(r"\n( *)(?:let \w+ = |return )?match (\w+) \{\n(.*?)\n\1\}|\bif let [^=\n]* = (\w+) \{\n|\blet [^=\n]* = (\w+) else \{\n", body, re.S):
        keys = re.findall(r"^%s    ((?:[\w:]+)(?: \| [\w:]+)*) => " % m.group(1), m.group(3), re.M) if m.group(2) else []
        out.append((m.group(2) or m.group(4) or m.group(5), [k for ks in keys if ks != "_" for k in ks.split(" | ")], m.start() + 1))
    return out


# ---- the places of a function's code, as `rt names` lists them

class Places:
    """The tree of a function's places, and where each of its goals stands in it."""

    def __init__(self, listed, fns):
        self.fns = fns
        self.stem = listed["stem"]
        self.at = {p[0]: i for i, p in enumerate(listed["places"])}
        self.places, self.arms = listed["places"], listed["arms"]
        self.goals = {new: place for (_, new), (place, _) in zip(listed["needs"], listed["asked_at"])}
        self.loops = [label for (_, label), _ in listed["loops"]]

    def callee(self, goal):
        """the function whose `requires` a goal is"""
        for place, before, _, path, _ in self.places:
            if before == self.goals[goal] and path:
                return self.function(path)
        return None

    def function(self, path):
        """the function of a path, as runtime::parser::Parser::at"""
        words = path.split("::")
        found = [f for f in self.fns.get(words[-1], []) if f.crate == words[0]]
        return ([f for f in found if f.path.split("/")[-1][:-3] in words] or found or [None])[0]

    def steps(self, goal, me):
        """The steps before a goal: ('call', path, Fn) | ('if', path, form) | ('key', path, arm) | ('told', path) | ('loop', path) | ('copy',)"""
        way, at = [], self.goals[goal]
        while at:
            way.append(at)
            at = self.places[self.at[at]][1]
        out, conditions = [], tests(me.body)
        for place in reversed(way[:-1]):
            _, _, (old, new), path, _ = self.places[self.at[place]]
            arm = self.arms[self.at[place]]
            told = arm and any(field == "is" and step == old for field, step, _ in arm[2])
            if not known(place):
                continue
            if place.startswith("At-match"):
                n = int(re.match(r"At-match(\d*)", place).group(1) or 1)
                if place.endswith("-rest"):
                    out.append(("key", n, "rest"))
                elif told:
                    out.append(("key", "c.%s.is" % arm[0], n))
            elif told:
                out.append(("told", "c.%s.is" % arm[0]))
            elif arm and place.startswith("After-known_told"):
                continue
            elif path and self.function(path):
                out.append(("call", "c." + new, self.function(path)))
            elif re.match(r"(Then|Else)\d", place):
                which = "true" if place.startswith("Then") else "false"
                out.append(("if", "c.%s.%s" % (new, which), test_form(conditions[int(re.sub(r"\D", "", old)) - 1], which)))
            elif re.match(r"At-\w+$", place):
                out.append(("loop", "c." + new))
            else:
                out.append(("copy",))
        return out


def known(place):
    """whether a place binds something that a proof speaks of"""
    return not re.match(r"After-(shared_)?slice_known|After-room|After-\S+-arg\d*$|After-struct_known|After-row_known", place)


def test_form(condition, which):
    """what a test that holds, or one that does not, is a fact of"""
    for sign, forms in ((" == ", ("eq", "ne")), (" != ", ("ne", "eq")), (" < ", ("lt", "le"))):
        if sign in condition:
            return forms[which == "false"]
    return which


# ---- the chain of laws

FACT = {"true": "%s", "false": "%s", "eq": "(eq-eqb _ _ %s)", "ne": "(ne_eqb _ _ %s)", "lt": "(lt-ltb _ _ %s)", "le": "(le-ltb _ _ %s)"}


class Chain:
    """The term for a list of steps, one law to a line."""

    def __init__(self, me):
        self.text, self.close, self.pure, self.me, self.calls = "", 0, [], me, []

    def open(self, text):
        self.text += text + "\n("
        self.close += 1

    def flush(self):
        for q in self.pure:
            self.open("rw (sym %s)" % q)
        self.pure = []

    def add(self, s):
        if s[0] == "call":
            self.calls.append(s)
            fn = s[2]
            if fn.form == "pure" or fn.form == "told" and self.me.form not in RUNS:
                self.pure.append(s[1] + ".ensures")
                return
            self.flush()
            self.open("%s %s.ensures" % (fn.law, s[1]))
        elif s[0] in ("if", "told"):
            fact = FACT[s[2]] % s[1] if s[0] == "if" else s[1]
            if self.pure:
                fact = "(sym %s ∙ %s)" % (self.pure.pop(), fact)
            self.flush()
            self.open("rw " + fact)
        elif s[0] == "key":
            self.flush()
            if s[2] != "rest":
                self.open("rw " + s[1])
            else:
                name, keys, end = matches(self.me.body)[s[1] - 1]
                for key in keys:
                    self.open("rw (ne_eqb %s %s (search rules))" % (self.value(name, end), key.split("::")[-1].replace("_", "-")))

    def value(self, name, end):
        """how a proof cites a variable of the code, as it is before a place of the body"""
        lets = re.findall(r"\blet \((?:mut )?\w+, (?:mut )?%s\) = .*?(\w+)\(" % name, self.me.body[:end], re.S)
        if not lets:
            return "c.args." + name
        made = [s for s in self.calls if s[2].name == lets[-1]]
        return made[-1][1] + ".result.1" if made else "?"

    def end(self, text):
        return self.text + text + ")" * self.close


def chain(me, path, ret, law, tail_ok=True, flat=()):
    """The term for a path that ends in a return of a `ret`; law: what flattens.
    flat: 'key' or 'match' where the arms of a match are to be flattened, each where more than one call follows"""
    c = Chain(me)
    runs = [k for k, s in enumerate(path) if s[0] == "call" and s[2].form in RUNS]
    last = runs[-1] if runs else -1
    # a pair that is taken apart is not handed on as it is
    apart = last >= 0 and re.match(r"c\.%s-[pq](-|$)" % path[last][2].name, path[last][1]) and path[last][2].ret.startswith("(")
    tail = tail_ok and last >= 0 and path[last][2].ret == ret and not apart and not any(s[0] in ("copy", "if", "told", "key") for s in path[last + 1:])
    for k, s in enumerate(path):
        if s[0] == "call" and s[2].form in RUNS:
            if k == last and tail:
                c.flush()
                body = {"Does": "%s.ensures", "Steps": "any _ _ _ %s.ensures", "Peeks": "peeks _ _ _ _ %s.ensures"}
                return c.end(body[s[2].form] % s[1])
        c.add(s)
        if {"key": "key", "told": "match"}.get(s[0]) in flat and len([r for r in runs if r > k]) > 1:
            c.open(law)
    if tail_ok and ret and path and path[-1][0] == "call" and path[-1][2].form == "pure" and ret.endswith(path[-1][2].ret + ")"):
        # what is returned beside the state is what a function computes
        made = c.pure.pop()
        c.flush()
        c.open("rw " + made)
    c.flush()
    return c.end("ends _ _ _")


def kept(path):
    """that the room has its length, nearest call first"""
    return ["%s.auto.%s" % (s[1], s[2].kept()) for s in reversed(path) if s[0] == "call" and s[2].kept()]


# ---- definitions

def spec_path(module):
    """the file of a module of a crate's definitions"""
    m = re.match(r"Rattle\.(\w+)\.specs\.(\w+)$", module)
    return "crates/%s/specs/%s.antt" % m.groups() if m else None


def definition(path, name):
    """the text of a definition, from its signature to the next item"""
    text = open(path, encoding="utf-8").read()
    m = re.search(r"^( *)((?:unfoldable |abbrev |pub )*)%s :.*?(?=^ *(?:--|unfoldable|abbrev|module|pub|record)|\Z)" % re.escape(name), text, re.M | re.S)
    return m.group(0) if m else ""


def declared(path):
    """the names that a file of definitions declares"""
    return re.findall(r"^(?:unfoldable |abbrev |pub )+(\S+) :", open(path, encoding="utf-8").read(), re.M)


def nested(text):
    """whether a definition has a branch that is not the last statement of its block, so that its binds have to be flattened"""
    lines = text.split("\n")
    for i, line in enumerate(lines):
        b = re.match(r"(\s+)(?:\S+ ← )?(?:cond|when|elim|delimited)\b", line)
        if not b:
            continue
        for later in lines[i + 1:]:
            if not later.strip():
                break
            depth = len(later) - len(later.lstrip())
            if depth < len(b.group(1)):
                break
            if depth == len(b.group(1)) and not later.strip().startswith("]"):
                return True
    return False


def wrapped(text):
    """long lines broken at a space, with what follows further in"""
    out = []
    for line in text.split("\n"):
        deep = " " * (len(line) - len(line.lstrip()) + 4)
        while len(line) > WIDTH and not line.startswith(("use ", "--")):
            at = line.rfind(" (", WIDTH // 2, WIDTH)
            at = at if at > len(deep) else line.rfind(" ", len(deep) + 1, WIDTH)
            if at < 0:
                break
            out.append(line[:at])
            line = deep + line[at + 1:]
        out.append(line)
    return "\n".join(out)
