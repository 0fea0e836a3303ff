"""What a Gitolite has, brought to the server: repositories, who made them, roles, keys and the conf.

The account's home has `repositories/` with a bare repository for each, in which files `gl-creator` and `gl-perms` say who made it and who has which
role, and `repositories/gitolite-admin.git` has the conf and the keys. While all this is pushed a conf of the import's own is in force, by which the admin and
the makers of repositories may do all; the last push brings Gitolite's own.
"""
import pathlib
import re
import subprocess
import sys

from .names import NAME_BYTES, is_user

ADMIN = "gitolite-admin"
ROLE = re.compile(r"[A-Za-z0-9_-]{1,64}")


class Gitolite:
    def __init__(self, home, way):
        root = home / "repositories"
        if not root.is_dir():
            sys.exit("there is no folder %s" % root)
        self.way = way
        self.paths = {str(path.relative_to(root)).removesuffix(".git"): path for path in sorted(root.rglob("*.git")) if (path / "objects").is_dir()}
        self.admin_path = self.paths.pop(ADMIN, None)
        self.creators = {name: read(path / "gl-creator").strip() for name, path in self.paths.items() if (path / "gl-creator").exists()}
        self.roles = {name: read_roles(self.paths[name] / "gl-perms") for name in self.creators}

    def bring(self):
        from .settings import CONF, read_names

        admin = read_names(CONF)["ADMIN"]
        faults = self.faults()
        if faults:
            sys.exit("\n".join(faults))
        with self.way.clone(admin, ADMIN) as where:
            before = {path: (where / path).read_text() for path in ("conf/gitolite.conf",) if (where / path).exists()}
            self.way.write(where, {"conf/gitolite.conf": self.conf(admin)})
            self.way.push(admin, where, "while a Gitolite is brought here")
            done = True
            for name, path in self.paths.items():
                done &= self.push_repository(admin, name, path)
            done &= self.push_admin(admin, where, before)
        sys.exit(0 if done else "some of it wasn't brought: see above, mend it, and run this again")

    def faults(self):
        """What can't be brought, before anything is pushed."""
        faults = ["%s is no name of a repository here" % ascii(name) for name in self.paths if not NAME_BYTES.issuperset(name)]
        for name, creator in self.creators.items():
            if not is_user(creator):
                faults.append("%s was made by %s, which is no user's name here" % (name, ascii(creator)))
        return faults + ["there is no repository gitolite-admin"] * (self.admin_path is None)

    def conf(self, admin):
        """A conf by which each repository is as it was: named, or made by its maker."""
        lines = ["repo %s" % ADMIN, "    RW+ = %s" % admin]
        plain = [name for name in self.paths if name not in self.creators]
        for name in plain:
            lines += ["repo %s" % name, "    RW+ = %s" % admin]
        if self.creators:
            roles = sorted({role for rows in self.roles.values() for role, _ in rows} - {"READERS", "WRITERS"})
            lines += ["repo [a-zA-Z0-9_].*", "    C = %s" % " ".join(sorted(set(self.creators.values()))), "    RW+ = CREATOR"]
            lines += ["    option role.%s = 1" % role for role in roles]
        return "\n".join([*lines, ""])

    def push_repository(self, admin, name, path):
        user = self.creators.get(name, admin)
        try:
            if subprocess.run(["git", "-c", "safe.directory=*", "for-each-ref", "--count=1"], cwd=path, stdout=subprocess.PIPE, check=True).stdout:
                self.way.git(user, "push", "-q", "here:" + name, "+refs/*:refs/*", cwd=path)
            elif name in self.creators:
                self.way.git(user, "ls-remote", "here:" + name)
            for role, member in self.roles.get(name, ()):
                self.way.ask(user, "perms %s + %s %s" % (name, role, member))
        except subprocess.CalledProcessError as fault:
            print("%s: not all of it: %s" % (name, fault), file=sys.stderr)
            return False
        print("%s: brought%s" % (name, ", made by %s" % user if name in self.creators else ""))
        return True

    def push_admin(self, admin, where, before):
        """Gitolite's own history of the conf, behind which its rules and keys hold."""
        tip = subprocess.run(["git", "-c", "safe.directory=*", "rev-parse", "master"], cwd=self.admin_path, stdout=subprocess.PIPE, check=True, text=True)
        try:
            self.way.git(admin, "push", "-q", "here:" + ADMIN, "+%s:refs/heads/master" % tip.stdout.strip(), cwd=self.admin_path)
        except subprocess.CalledProcessError:
            self.way.write(where, before or {"conf/gitolite.conf": "repo %s\n    RW+ = %s\n" % (ADMIN, admin)})
            self.way.push(admin, where, "the rules from before the import")
            print("gitolite-admin: its conf is refused, so the rules from before are in force", file=sys.stderr)
            return False
        print("gitolite-admin: brought, and its rules and keys are in force")
        return True


def read(path):
    return pathlib.Path(path).read_text(errors="replace")


def read_roles(path):
    """Pairs of a role and a user: lines `ROLE USER ..`."""
    if not path.exists():
        return []
    rows = [line.partition("#")[0].split() for line in read(path).splitlines()]
    return [(row[0], user) for row in rows if row and ROLE.fullmatch(row[0]) for user in row[1:]]
