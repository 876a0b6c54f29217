"""Makes the files that lie in the folder of a run, and compares them with those that must be there afterwards."""
import functools
import os
import socket
import stat
import tempfile

NOBODY = 65534
NAMED_USERS = {"root": 0, "nobody": NOBODY}
FILE_MODE, FOLDER_MODE, UMASK = 0o644, 0o755, 0o022
KINDS = {stat.S_IFREG: "file", stat.S_IFDIR: "folder", stat.S_IFLNK: "link", stat.S_IFIFO: "FIFO",
         stat.S_IFSOCK: "socket", stat.S_IFCHR: "device"}


def user_of(case):
    """The user and the group that the program runs as: nobody's where that is wanted and this runs as root."""
    is_nobody = case.choices["user"] == "nobody" or case.choices["rights"]
    return (NOBODY, NOBODY) if is_nobody and os.geteuid() == 0 else (os.geteuid(), os.getegid())


@functools.lru_cache(maxsize=None)
def has_all_rights():
    """Whether this runs as root, who may make devices and give files away. Some containers do not allow it."""
    if os.geteuid() != 0:
        return False
    with tempfile.TemporaryDirectory() as folder:
        try:
            make_special(os.path.join(folder, "device"), "device")
            os.chown(os.path.join(folder, "device"), NOBODY, NOBODY)
        except OSError:
            return False
    return True


def is_out_of_reach(case):
    """Whether a case needs rights that this user does not have. Where root has not all rights, no case of another user
    is run as root in its place."""
    named = case.named
    asks = (case.choices["user"] == "root" or bool(named["owner"] or named["owner-after"])
            or "device" in named["special"].values())
    return not has_all_rights() and (asks or (case.choices["user"] == "nobody" and os.geteuid() == 0))


class Entry:
    """What has a name in the folder: its kind, its bytes or what it leads to, its permissions, and whose it is."""

    def __init__(self, kind, content, mode, owner, node=None):
        self.kind, self.content, self.mode, self.owner, self.node = kind, content, mode, owner, node


def read(path, mode):
    """The bytes of a file of this mode, which need not allow it."""
    is_readable = os.access(path, os.R_OK)
    if not is_readable:
        os.chmod(path, 0o600)
    with open(path, "rb") as file:
        content = file.read()
    if not is_readable:
        os.chmod(path, mode)
    return content


def entry_of(path):
    found = os.lstat(path)
    kind, content = KINDS.get(stat.S_IFMT(found.st_mode), "something else"), b""
    mode, owner = stat.S_IMODE(found.st_mode), (found.st_uid, found.st_gid)
    if kind == "file":
        content = read(path, mode)
    elif kind == "link":
        content, mode = os.fsencode(os.readlink(path)), None
    return Entry(kind, content, mode, owner, (found.st_dev, found.st_ino))


def entries(folder):
    """All that lies in the folder and in those inside, by its name."""
    found = {}
    for place, folders, files in os.walk(folder):
        for name in folders + files:
            path = os.path.join(place, name)
            found[os.path.relpath(path, folder)] = entry_of(path)
    return found


def make_special(path, kind):
    if kind == "FIFO":
        os.mkfifo(path)
    elif kind == "socket":
        with socket.socket(socket.AF_UNIX) as it:
            it.bind(path)
    else:
        # that of /dev/null
        os.mknod(path, stat.S_IFCHR | 0o644, os.makedev(1, 3))


def make_names(folder, case):
    """Makes what is wanted, with the permissions that a new file or folder has."""
    for name, content in case.before.items():
        path = os.path.join(folder, name)
        os.makedirs(os.path.dirname(path), exist_ok=True)
        with open(path, "wb") as file:
            file.write(content)
        os.chmod(path, FILE_MODE)
    if case.folder:
        os.mkdir(os.path.join(folder, case.folder))
    for name, kind in case.named["special"].items():
        make_special(os.path.join(folder, name), kind)
        os.chmod(os.path.join(folder, name), FILE_MODE)
    for name, target in case.named["hard"].items():
        os.link(os.path.join(folder, target), os.path.join(folder, name))
    for name, target in case.named["link"].items():
        path = os.path.join(folder, name)
        os.makedirs(os.path.dirname(path), exist_ok=True)
        os.symlink(folder + target if target.startswith("/") else target, path)


def make(folder, case):
    """Makes the files that lie in the folder before the run. They are those of the program's user, and so is the
    folder, but where nobody may write in it. Returns them."""
    make_names(folder, case)
    if case.choices["user"] and os.geteuid() == 0:
        for name in [".", *entries(folder)]:
            os.lchown(os.path.join(folder, name), *user_of(case))
    for name, owner in case.named["owner"].items():
        os.chown(os.path.join(folder, name), *owner)
    for name, mode in case.named["mode"].items():
        os.chmod(os.path.join(folder, name), mode)
    os.chmod(folder, 0o555 if case.choices["rights"] else FOLDER_MODE)
    return entries(folder)


def expected(case, before):
    """What must be there after the run: what was before, but for what the case says."""
    umask = UMASK if case.umask is None else case.umask
    wanted = {name: Entry(it.kind, it.content, it.mode, it.owner) for name, it in before.items()}
    for name, content in case.after.items():
        if name not in wanted:
            wanted[name] = Entry("file", content, 0o666 & ~umask, user_of(case))
        wanted[name].content = content
    for name, mode in case.named["mode-after"].items():
        wanted[name].mode = mode
    for name, owner in case.named["owner-after"].items():
        wanted[name].owner = owner
    return wanted


def bytes_faults(what, wanted, found):
    """What is wrong with the bytes of a file, or with what a link leads to."""
    if found == wanted:
        return []
    at = len(os.path.commonprefix([wanted, found]))
    return [f"{what} differs from byte {at} on",
            f"    expected {len(wanted)} bytes, there {wanted[at:at + 16].hex(' ')}",
            f"    found    {len(found)} bytes, there {found[at:at + 16].hex(' ')}"]


def entry_faults(name, wanted, found):
    if found.kind != wanted.kind:
        return [f"{name} is a {found.kind}, not a {wanted.kind}"]
    faults = bytes_faults(f"the {found.kind} {name}", wanted.content, found.content)
    if found.mode != wanted.mode:
        faults.append(f"the mode of {name} is {found.mode:04o}, not {wanted.mode:04o}")
    if found.owner != wanted.owner:
        faults.append(f"the user and group of {name} are {found.owner}, not {wanted.owner}")
    return faults


def hard_link_faults(case, found):
    """What is wrong with names of one file: they are still those of one, but where they are parted."""
    faults = []
    for name, other in case.named["hard"].items():
        is_one = name in found and other in found and found[name].node == found[other].node
        if is_one == (name == case.parted):
            faults.append(f"{name} and {other} are {'one file' if is_one else 'two files'}")
    return faults


def faults_between(case, before, found):
    """What is wrong with the files after a run."""
    wanted = expected(case, before)
    faults = [f"the {wanted[name].kind} {name} is missing" for name in sorted(wanted) if name not in found]
    faults += [f"there is a {found[name].kind} {name}" for name in sorted(found) if name not in wanted]
    for name in sorted(found):
        if name in wanted:
            faults += entry_faults(name, wanted[name], found[name])
    return faults + hard_link_faults(case, found)
