#!/usr/bin/env python3
"""Compares verdicts with those of a real Gitolite: compare_gitolite.py PROGRAM [CONFS [SEED]]

It needs the command `gitolite` (Debian's package gitolite3) and git, and Python's standard library. For each of CONFS random confs (10, drawn from SEED, 1), each of
a main file, one that it includes and one that a subconf delegates, users first open repositories by patterns, by which some are made, give roles in them and take
them, list them, and ask which of the repositories that are there they may see. Then Gitolite's own `gitolite access` is asked, and PROGRAM by a script of sessions, whether each user may open each repository for
reading and for writing, and create, forward, rewind or delete each ref in it; and which rule denies it. Most confs declare roles by options, and Gitolite's rc file has
them in its hash ROLES then; in some a role is declared no more, or only then, when it comes to these questions. The confs keep to what both decide alike:
docs/ACCESS.md has where they part.
A push that asks changes nothing: it is atomic, and its second command is always refused. It ends with 1 where two answers differ.
"""
import hashlib, os, random, re, shutil, subprocess, sys, tempfile, zlib
from concurrent.futures import ThreadPoolExecutor

ROLES = ["TESTERS", "MANAGERS"]
USERS = ["u1", "u2", "u3", "u4", "TESTERS"]
REPOS = ["r%d" % n for n in range(1, 5)]
WILD = ["w/u1/a", "w/u3/b", "x/c"]
REFS = ["refs/heads/master", "refs/heads/master2", "refs/heads/dev/x", "refs/heads/personal/u2/a", "refs/tags/v1", "refs/tags/w"]
REFEXES = ["", "master", "master$", "dev/", "dev/[a-z]+$", "personal/USER/", "refs/tags/", "refs/tags/v[0-9]", "[a-m]", "refs/heads/p.*/u[23]"]
PERMS = ["-", "-", "R", "R", "RW", "RW", "RW+", "RW+", "RWC", "RW+C", "RWD", "RW+D", "RWCD", "RW+CD", "RWDC", "RW+DC"]
ADMIN = "repo gitolite-admin\n    RW+ = admin\n"
ZERO = bytes(20)


# ---- confs: files by name


class Declared:
    """Which of ROLES a conf declares: at the visits, behind them, and of these in repositories of patterns alone; a word that is never a role is a user's name."""

    def __init__(self, draws):
        self.first = set(draws.choice([[], ["TESTERS"], ["MANAGERS"], ROLES, ROLES]))
        self.then = self.first ^ {draws.choice(ROLES)} if draws.random() < 0.3 else self.first
        self.ever = [it for it in ROLES if it in self.first | self.then]
        self.wild = [it for it in self.ever if draws.random() < 0.4]
        self.noise = draws.random() < 0.5
        self.off = draws.choice(["0", "0", "yes", "01"])

    def names(self):
        return [*USERS[:4], *(it for it in ROLES if it not in self.ever)]

    def line(self, draws):
        """A line that declares a role or doesn't, and that the last block sets right."""
        return "    option role.%s = %s" % (draws.choice(ROLES), draws.choice(["0", "1"]))

    def last(self, now):
        """The last blocks, by which just the roles of `now` are declared."""
        for role in ROLES:
            if role in now:
                yield from ["repo " + ("w/..* x/..*" if role in self.wild else "@all"), "    option role.%s = 1" % role]
            elif self.noise or role in self.ever:
                yield from ["repo @all", "    option role.%s = %s" % (role, self.off)]


def draw_confs(draws):
    """A conf of groups of users and of repositories, blocks by names, groups and patterns, and rules; some blocks in a file of their own, some delegated. Twice: as it
    is at the visits, and behind them; each with the roles that it declares. A role is no member of a group: docs/ACCESS.md has what it is there."""
    roles = Declared(draws)
    names = roles.names()
    groups = {"@g%d" % n: draws.sample(names, draws.randint(1, 3)) for n in range(2)}
    fleets = {"@f%d" % n: draws.sample(REPOS, draws.randint(1, 3)) for n in range(2)}
    fleets["@s"] = draws.choice([draws.sample(REPOS, 2), draws.sample(REPOS, 2), ["r..*"]])
    lines = ["%s = %s" % (name, " ".join(members)) for name, members in [*groups.items(), *fleets.items()]]
    lines += ["@g2 = @g0 " + draws.choice(names), ADMIN.rstrip("\n"), "repo " + " ".join(REPOS), "    R = nobody"]
    users = [*names, *groups, "@g2", "@all", *(it for it in roles.ever if it not in roles.wild)]
    words = [*REPOS, *REPOS, *fleets, "@all", "r[12]", "r[2-4]", "r..*", "x/..*"]
    ours = draws.sample(names, 2)
    parts = {
        "more.conf": [line for _ in range(draws.randint(0, 2)) for line in draw_block(draws, words, users, roles)],
        "s.conf": ["@ours = " + " ".join(ours)] + [line for _ in range(draws.randint(1, 3)) for line in draw_block(draws, [*REPOS, "@s", "@f0", "@f1"], [*users, "@ours"], roles)],
    }
    blocks = [draw_block(draws, words, users, roles) for _ in range(draws.randint(3, 6))]
    blocks += [draw_wild_block(draws, word, users, roles) for word in draws.sample(["w/CREATOR/[a-z]+", "w/..*", "x/[a-c]"], 2)]
    blocks += [['include "more.conf"'], ['subconf "s.conf"']]
    draws.shuffle(blocks)
    for now in roles.first, roles.then:
        parts["gitolite.conf"] = [*lines, *(line for block in blocks for line in block), *roles.last(now)]
        yield {name: "".join(line + "\n" for line in part) for name, part in parts.items()}, sorted(now)


def draw_block(draws, words, users, roles):
    lines = ["repo " + " ".join(draws.sample(words, draws.randint(1, 2)))]
    if draws.random() < 0.2:
        lines.append("    option deny-rules = %d" % draws.choice([0, 1, 1]))
    if roles.noise and draws.random() < 0.3:
        lines.append(roles.line(draws))
    return lines + [draw_rule(draws, PERMS, users) for _ in range(draws.randint(1, 4))]


def draw_rule(draws, perms, users):
    refexes = " ".join(draws.sample(REFEXES, draws.randint(1, 2))).strip()
    return "    %s %s = %s" % (draws.choice(perms), refexes, " ".join(draws.sample(users, min(len(users), draws.randint(1, 2)))))


def draw_wild_block(draws, word, users, roles):
    """A block by a pattern. Who may make a repository by it may read it then, and each role has a rule there: docs/ACCESS.md has what happens elsewhere."""
    rules = ["    R = READERS", "    RW = WRITERS", draw_rule(draws, PERMS, ["CREATOR", "READERS", "WRITERS", *roles.ever, *users])]
    rules += [draw_rule(draws, PERMS, [role]) for role in roles.ever]
    if draws.random() < 0.5:
        rules.append(draw_rule(draws, ["RW", "RW+", "RW+CD"], ["CREATOR"]))
    if roles.noise:
        rules.append(roles.line(draws))
    draws.shuffle(rules)
    return ["repo " + word, "    RW+ = CREATOR", "    C = %s" % " ".join(draws.sample(users, 2)), *rules]


def text_of(conf):
    return "".join("---- %s\n%s" % it for it in sorted(conf.items()))


# ---- what is asked: a letter as `gitolite access` takes it, and a ref


def questions():
    yield "R", "any"
    yield "W", "any"
    for ref in REFS:
        for kind, letter in (("create", "C"), ("forward", "W"), ("rewind", "+"), ("delete", "D")):
            # a tag that is there is moved by rewinding alone
            yield ("+" if kind == "forward" and ref.startswith("refs/tags/") else letter), (kind, ref)


def draw_visits(draws, declared):
    """What is done before: who opens which repository to read it, and who gives whom a role in it or takes it, or lists them; and then each asks what there is to see.
    Half of what is asked of roles is asked by `CREATOR`. Only roles that are there are taken: docs/ACCESS.md has what is said of others."""
    visits = [("open", user, repo) for user in USERS for repo in WILD]
    draws.shuffle(visits)
    for _ in range(15):
        kind, repo, user = draws.choice(["+", "+", "+", "+", "-", "list"]), draws.choice(WILD), draws.choice([*USERS, *["CREATOR"] * 5])
        role = draws.choice(["READERS", "WRITERS", *(declared if kind == "-" else ROLES), *declared])
        visits.append(("list", user, repo) if kind == "list" else ("change", user, repo, kind, role, draws.choice(USERS)))
    return visits + [("look", user) for user in USERS] + [("list", "CREATOR", repo) for repo in WILD]


# ---- Gitolite


def gitolite_home(home):
    """A new Gitolite, whose admin is `admin`, in a folder."""
    how = dict(env=dict(os.environ, HOME=home), stdout=subprocess.DEVNULL, stderr=subprocess.DEVNULL)
    subprocess.run(["git", "config", "--global", "user.email", "a@b"], check=True, **how)
    subprocess.run(["git", "config", "--global", "user.name", "a"], check=True, **how)
    subprocess.run(["gitolite", "setup", "-a", "admin"], check=True, **how)


class Gitolite:
    def __init__(self, home, conf, roles=()):
        self.home, self.env = home, dict(os.environ, HOME=home)
        with open(home + "/.gitolite.rc") as it:
            rc, found = re.subn(r"(?s)\bROLES => \{.*?\}", "ROLES => {%s}" % " ".join("%s => 1," % role for role in ["READERS", "WRITERS", *roles]), it.read())
        assert found == 1
        with open(home + "/.gitolite.rc", "w") as it:
            it.write(rc)
        for name, text in conf.items():
            with open("%s/.gitolite/conf/%s" % (home, name), "w") as it:
                it.write(text)
        self.warned = self.run("gitolite", "compile").stderr
        self.places = {name: self.run("gitolite", "query-rc", name).stdout.strip() for name in ["GL_BINDIR", "GL_LIBDIR"]}

    def run(self, *words, check=True, **more):
        how = dict(stdout=subprocess.PIPE, stderr=subprocess.PIPE, text=True)
        env = dict(self.env, **more.pop("env", {}))
        return subprocess.run(words, check=check, env=env, **how, **more)

    def folder(self, repo):
        return "%s/repositories/%s.git" % (self.home, repo)

    def shell(self, user, command):
        """What Gitolite makes of a command that comes by ssh, from who sends nothing more than a flush."""
        asked = dict(SSH_CONNECTION="127.0.0.1 1 127.0.0.1 22", SSH_ORIGINAL_COMMAND=command)
        return self.run(self.places["GL_BINDIR"] + "/gitolite-shell", user, check=False, env=asked, input="0000")

    def update(self, user, repo, ref, old, new):
        """What the update hook makes of a change whose objects are there."""
        env = dict(self.places, GL_REPO=repo, GL_USER=user, GIT_DIR=".")
        return self.run("hooks/update", ref, old.hex(), new.hex(), check=False, cwd=self.folder(repo), env=env)

    def access(self, letter, ref, repos, users):
        pairs = "".join("%s %s\n" % (repo, user) for repo in repos for user in users)
        for line in self.run("gitolite", "access", "%", "%", letter, ref, input=pairs).stdout.splitlines():
            yield line.split("\t")

    def creator(self, repo):
        if not os.path.isdir(self.folder(repo)):
            return USERS[0]
        with open(self.folder(repo) + "/gl-creator") as it:
            return it.read().strip()

    def visit(self, what):
        """Whether it was done, or the lines of a look or a list. A repository that is made by who may not read it is taken away again: here none is made then."""
        kind, user, *what = what
        if kind == "look":
            lines = (line.partition("\t") for line in self.run("gitolite", "info", "-p", env=dict(GL_USER=user)).stdout.splitlines() if "\t" in line)
            return sorted("%s\t%s" % (" ".join(letters.split()), repo) for letters, _, repo in lines)
        repo, *change = what
        if kind != "open":
            ran = self.run("gitolite", "perms", repo, *(change if kind == "change" else ["-l"]), check=False, env=dict(GL_USER=user))
            return ran.returncode == 0 and (kind == "change" or ran.stdout.splitlines())
        there = os.path.isdir(self.folder(repo))
        ran = self.shell(user, "git-upload-pack '%s'" % repo)
        if ran.returncode and not there and os.path.isdir(self.folder(repo)):
            shutil.rmtree(self.folder(repo))
        return ran.returncode == 0


def ask_gitolite(home, confs, visits):
    """The visits, with the creators' names, and what is answered: to each of them, in order; and by question, repository and user, the verdicts: the words behind
    DENIED, with the letter, or None where it is allowed."""
    there, visited = Gitolite(home, *confs[0]), []
    for kind, user, *what in visits:
        visit = (kind, there.creator(what[0]) if user == "CREATOR" else user, *what)
        visited.append((visit, there.visit(visit)))
    if confs[1] != confs[0]:
        there = Gitolite(home, *confs[1])
    repos, told = REPOS + [it for it in WILD if os.path.isdir(there.folder(it))], dict(enumerate(said for _, said in visited))
    asked = {(letter, what if what == "any" else what[1]): None for letter, what in questions()}
    with ThreadPoolExecutor(os.cpu_count()) as pool:
        seen = dict(zip(asked, pool.map(lambda it: list(there.access(*it, repos, USERS)), asked)))
    for letter, what in questions():
        for repo, user, said in seen[letter, what if what == "any" else what[1]]:
            found = re.fullmatch(r"(\S+) \S+ \S+ \S+ DENIED by (.*)", said)
            told[what if what != "any" else letter, repo, user] = found and "%s %s" % found.groups()
    for repo in WILD:
        shutil.rmtree(there.folder(repo), ignore_errors=True)
    return [visit for visit, _ in visited], told


# ---- sessions


def packet(line):
    return b"%04x%s" % (len(line) + 4, line)


def name_of(kind, body):
    return hashlib.sha1(b"%s %d\0%s" % (kind, len(body), body)).digest()


def entry(kind, body):
    size, head = len(body) >> 4, []
    first = {b"commit": 1, b"tree": 2, b"blob": 3, b"tag": 4}[kind] << 4 | len(body) & 15
    while size:
        head.append(first | 128)
        first, size = size & 127, size >> 7
    return bytes([*head, first]) + body


def pack(objects):
    text = b"PACK\0\0\0\2" + len(objects).to_bytes(4, "big") + b"".join(entry(*it) for it in objects)
    return text + hashlib.sha1(text).digest()


def tree_of(files, objects):
    """The id of the tree of these files, each with its mode and text by its path; the objects are added by their names, but for what a submodule names."""
    entries, below = {}, {}
    for path, (mode, text) in files.items():
        first, slash, rest = path.partition("/")
        if slash:
            below.setdefault(first, {})[rest] = (mode, text)
            continue
        it = (b"blob", text)
        if mode != b"160000":
            objects[name_of(*it)] = it
        entries[first.encode()] = b"%s %s\0%s" % (mode, first.encode(), name_of(*it))
    for name, inner in below.items():
        entries[name.encode() + b"/"] = b"40000 %s\0%s" % (name.encode(), tree_of(inner, objects))
    tree = b"tree", b"".join(line for _, line in sorted(entries.items()))
    objects[name_of(*tree)] = tree
    return name_of(*tree)


def write_objects(folder, objects):
    """Puts objects into a repository of git's."""
    for name, (kind, body) in objects.items():
        os.makedirs("%s/objects/%s" % (folder, name.hex()[:2]), exist_ok=True)
        with open("%s/objects/%s/%s" % (folder, name.hex()[:2], name.hex()[2:]), "wb") as it:
            it.write(zlib.compress(b"%s %d\0%s" % (kind, len(body), body)))


EMPTY = (b"tree", b"")


def commit(text, *parents, tree=EMPTY):
    lines = b"tree %s\n" % name_of(*tree).hex().encode() + b"".join(b"parent %s\n" % it.hex().encode() for it in parents)
    return b"commit", lines + b"author a <a> 1 +0000\ncommitter a <a> 1 +0000\n\n" + text


ROOT = commit(b"root")
HERE = commit(b"here", name_of(*ROOT))
NEXT = commit(b"next", name_of(*HERE))
OBJECTS = {"create": [HERE, ROOT, EMPTY], "forward": [NEXT, HERE, ROOT, EMPTY], "rewind": [], "delete": None}
VALUES = {"create": (ZERO, name_of(*HERE)), "forward": (name_of(*HERE), name_of(*NEXT)), "rewind": (name_of(*HERE), name_of(*ROOT)), "delete": (name_of(*HERE), ZERO)}


def push(user, repo, commands, objects, words):
    lines = [b"%s %s %s" % (old.hex().encode(), new.hex().encode(), ref.encode()) for old, new, ref in commands]
    lines[0] += b"\0" + words
    text = packet(b"%s git-receive-pack '%s'" % (user.encode(), repo.encode())) + b"".join(map(packet, lines)) + b"0000"
    return text + (pack(objects) if objects is not None else b"")


def conf_push(conf, before):
    """The push of a conf, and its commit."""
    blobs = [(name.encode(), (b"blob", text.encode())) for name, text in sorted(conf.items())]
    folder = (b"tree", b"".join(b"100644 %s\0%s" % (name, name_of(*blob)) for name, blob in blobs))
    root = (b"tree", b"40000 conf\0" + name_of(*folder))
    made = commit(b"conf", *[before] if before else [], tree=root)
    objects = [made, root, folder, *dict(blobs).values()]
    return push("admin", "gitolite-admin", [(before or ZERO, name_of(*made), "refs/heads/master")], objects, b"report-status"), name_of(*made)


def question(user, repo, kind, ref):
    old, new = VALUES[kind]
    return push(user, repo, [(old, new, ref), (name_of(*ROOT), ZERO, "refs/heads/a..b")], OBJECTS[kind], b"report-status atomic")


def open_conf(repos):
    """A conf by which `root` may push anything to these repositories."""
    return {"gitolite.conf": ADMIN + "repo %s\n    RW+ = admin\n    RW+CD = root\n" % " ".join(repos)}


def visit(what):
    kind, user, *what = what
    if kind == "open":
        return packet(b"%s git-upload-pack '%s'" % (user.encode(), what[0].encode())) + b"0000"
    return packet(" ".join({"look": [user, "info"], "list": [user, "perms", "-l", *what], "change": [user, "perms", *what]}[kind]).encode())


def script_of(confs, visits, repos):
    """The sessions, each with what it asks, or None where it only prepares the hub; `repos` are those that are there behind the visits."""
    (first, _), (then, _) = confs
    yield None, (made := conf_push(open_conf(REPOS), None))[0]
    yield None, (now := conf_push(first, made[1]))[0]
    for number, what in enumerate(visits):
        yield number, visit(what)
    if then != first:
        yield None, (now := conf_push(then, now[1]))[0]
    for repo in repos:
        for user in USERS:
            yield ("R", repo, user), visit(("open", user, repo))
    for kinds in (["create"], ["forward", "rewind", "delete"]):
        for kind in kinds:
            for ref in REFS:
                for repo in repos:
                    for user in USERS:
                        yield ((kind, ref), repo, user), question(user, repo, kind, ref)
        if kinds == ["create"]:
            yield None, (back := conf_push(open_conf([*REPOS, "w/..*", "x/..*"]), now[1]))[0]
            for repo in repos:
                yield None, push("root", repo, [(ZERO, name_of(*HERE), ref) for ref in REFS], [HERE, ROOT, EMPTY], b"report-status")
            yield None, conf_push(then, back[1])[0]


def verdict(repo, user, ref, reply):
    """What a reply to a question says: a denial's letter and rule, None where the rules allow it, or that the repository isn't opened."""
    said = re.search(rb"ERR (\S+) any \S+ \S+ DENIED by ([^\n]*)", reply)
    if said:
        return ("opening", tell(said, user))
    if ref == "R":
        return ("opening", None)
    said = re.search(rb"ng %s (\S+) \S+ \S+ \S+ DENIED by ([^\n]*?)\n?(?=[0-9a-f]{4})" % re.escape(ref[1].encode()), reply)
    if said:
        return ("ref", tell(said, user))
    if re.search(rb"ng %s atomic push refused" % re.escape(ref[1].encode()), reply):
        return ("ref", None)
    sys.exit("no verdict for %s %s %s: %r" % (repo, user, ref, reply[-300:]))


def tell(said, user):
    rule = re.sub(r" \(\S+ line \d+\)$", "", said.group(2).decode())
    return "%s %s" % (said.group(1).decode(), rule.replace("/USER/", "/%s/" % user))


def replies(program, sessions):
    """What each session asks, with its reply; one that prepares the hub has to be served, and nothing of it refused."""
    sessions = list(sessions)
    text = b"".join(b"session %d\n%s\n" % (len(it), it) for _, it in sessions)
    ran = subprocess.run([os.path.abspath(program), "script", "--admin", "admin"], input=text, stdout=subprocess.PIPE, check=True)
    at = 0
    for number, (what, _) in enumerate(sessions, 1):
        end = ran.stdout.index(b"\n", at)
        words = ran.stdout[at:end].split()
        assert words[1] == b"%d" % number, words
        reply, at = ran.stdout[end + 1 : end + 1 + int(words[3])], end + 2 + int(words[3])
        if what is None and (words[2] != b"served" or b"ng " in reply):
            sys.exit("session %d prepares nothing: %r" % (number, reply[-300:]))
        yield what, words[2].decode(), reply


def ask_program(program, confs, visits, repos):
    told = {}
    for what, end, reply in replies(program, script_of(confs, visits, repos)):
        if what is None:
            continue
        if isinstance(what, int):
            kind = visits[what][0]
            lines = re.findall(rb"(?s)[0-9a-f]{4}([^\n]*)\n", reply)
            if kind == "open":
                told[what] = end == "served"
            elif kind == "look":
                told[what] = sorted(line.decode() for line in lines if line.startswith(b"R"))
            elif kind == "change":
                told[what] = lines in ([b"perms: changed"], [b"perms: already so"])
            else:
                told[what] = lines != [b"perms: not a wild repository of yours"] and [line.decode() for line in lines]
        else:
            ref, repo, user = what
            stage, said = verdict(repo, user, ref, reply)
            told[(("W" if ref != "R" else "R") if stage == "opening" else ref, repo, user)] = said
            if stage == "ref":
                told["W", repo, user] = None
    return told


def main(program, confs="10", seed="1"):
    draws, asked, denied, made, given, differ = random.Random(int(seed)), 0, 0, 0, 0, 0
    with tempfile.TemporaryDirectory(prefix="compare-gitolite-") as home:
        gitolite_home(home)
        for _ in range(int(confs)):
            drawn = list(draw_confs(draws))
            visits, theirs = ask_gitolite(home, drawn, draw_visits(draws, drawn[0][1]))
            repos = [it for it in [*REPOS, *WILD] if ("R", it, USERS[0]) in theirs]
            made += len(repos) - len(REPOS)
            for what, said in ask_program(program, drawn, visits, repos).items():
                asked, denied = asked + 1, denied + (said is False or isinstance(said, str))
                given += isinstance(what, int) and visits[what][0] == "list" and said is not False and sum(line.split()[0] in ROLES for line in said)
                if theirs[what] != said:
                    differ += 1
                    print("%s: Gitolite says %s, the program %s, of\n%s" % (visits[what] if isinstance(what, int) else what, theirs[what], said, text_of(drawn[not isinstance(what, int)][0])))
    print("%d confs, %d repositories made, %d times a declared role listed, %d answers, %d of them refusals: %d differ" % (int(confs), made, given, asked, denied, differ))
    return 1 if differ or not asked else 0


if __name__ == "__main__":
    sys.exit(main(*sys.argv[1:]))
