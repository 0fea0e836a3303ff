"""Names of users and repositories (docs/CONF.md, "Words"; docs/SESSIONS.md, "The first packet")."""
LETTERS = "ABCDEFGHIJKLMNOPQRSTUVWXYZabcdefghijklmnopqrstuvwxyz"
USER_BYTES = frozenset(LETTERS + "0123456789-._@+")
ROLES = "CREATOR", "READERS", "WRITERS"
NAME_BYTES = USER_BYTES | {"/"}


def is_user(text):
    return 1 <= len(text) <= 64 and USER_BYTES.issuperset(text) and text[0] not in "-._@+" and text not in ROLES


def repository_of(command):
    """The repository that `git-receive-pack 'NAME.git'` names, as the server reads it; empty where it names none."""
    name = command.partition(" ")[2]
    if len(name) > 1 and name[0] == name[-1] == "'":
        name = name[1:-1]
    if not NAME_BYTES.issuperset(name):
        return ""
    return name.removeprefix("/").removesuffix(".git")
