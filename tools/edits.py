"""What tools/refusals and tools/twins share: edits of crates, and copies of the crates in which they are tried.

A copy lies outside the checkout, where `rt ci` takes no file that it does not know. `rt check` there begins with what checks of the
same texts kept in other checkouts on this machine, so mostly what an edit changes is proved."""
import glob
import os
import re
import shutil
import subprocess
import tempfile

ROOT = os.path.dirname(os.path.dirname(os.path.abspath(__file__)))


def named(folder, wanted=()):
    """The edits of all crates in their folder `folder`, as CRATE/LABEL: those of the crates and with the names that are wanted."""
    for path in sorted(glob.glob(os.path.join(ROOT, "crates", "*", folder, "*.edit"))):
        crate, label = path.split(os.sep)[-3], os.path.basename(path)[: -len(".edit")]
        if not wanted or crate in wanted or crate + "/" + label in wanted:
            yield crate + "/" + label


def text_of(folder, name):
    """What stands in an edit, or nothing where there is none of that name."""
    crate, label = name.split("/")
    path = os.path.join(ROOT, "crates", crate, folder, label + ".edit")
    if not os.path.exists(path):
        return ""
    with open(path, encoding="utf-8") as file:
        return file.read()


def parts(text):
    """The files that an edit changes, one for each change, the texts that go and those that come, as rt reads them."""
    file, old, found = "", None, []
    for line in text.split("\n"):
        if line.startswith("file: "):
            file = line[len("file: ") :].strip()
        elif line.startswith("old: "):
            old = line[len("old: ") :]
        elif line.startswith("new:") and file and old:
            found.append((file, old, line[len("new:") :].removeprefix(" ")))
            old = None
    return found


class Copy:
    """A copy of crates.txt and of all crates, with nothing of what rt keeps in them."""

    def __init__(self):
        self.folder = tempfile.mkdtemp(prefix="huepaxochi-edits-")
        shutil.copy(os.path.join(ROOT, "crates.txt"), self.folder)
        unread = shutil.ignore_patterns("out", "must-fail", "right")
        shutil.copytree(os.path.join(ROOT, "crates"), os.path.join(self.folder, "crates"), ignore=unread)

    def remove(self):
        shutil.rmtree(self.folder, ignore_errors=True)

    def check(self, crate, edit):
        """Checks a crate under an edit: whether it is proved, and all that rt said. The texts are then as they were. Where the edit
        cannot be made, it says so, and nothing is proved."""
        folder, kept = os.path.join(self.folder, "crates", crate), {}
        try:
            for name, old, new in parts(edit):
                path = os.path.join(folder, name)
                with open(path, encoding="utf-8") as file:
                    text = file.read()
                kept.setdefault(path, text)
                if text.count(old) != 1:
                    return None, "the text to change stands in %s %d times, and not once" % (name, text.count(old))
                with open(path, "w", encoding="utf-8") as file:
                    file.write(text.replace(old, new))
            done = subprocess.run(["rt", "check", "--jobs", "1"], cwd=folder, stdin=subprocess.DEVNULL, stdout=subprocess.PIPE, stderr=subprocess.STDOUT)
            log = done.stdout.decode("utf-8", "replace")
            return bool(done.returncode == 0 and re.search(r"^logic=proved", log, re.M)), log
        finally:
            for path, text in kept.items():
                with open(path, "w", encoding="utf-8") as file:
                    file.write(text)
