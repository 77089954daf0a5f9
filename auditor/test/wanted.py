"""What a person wants of the files of a day, and harm that nobody wants: for trials."""

import os

from quick import node_of, remove
from storming import Storm

# What a disk, a crash or a slip does. A person wants what was there before.
HARM = ("rot", "rot_with_mode", "empty", "cut", "zeros", "vanish", "replace")


def things_on(root):
    """What stands below a directory, by name: the bytes of files that aren't empty, and the targets of symlinks."""
    made = {}
    for path in root.rglob("*"):
        if path.is_symlink() or path.is_file() and path.stat().st_size:
            if ".stfolder" not in path.parts and not path.name.startswith(".syncthing."):
                made[str(path.relative_to(root))] = tuple(node_of(path))
    return made


class WantedStorm(Storm):
    """A storm that knows what its users want: what they wrote last, by name. Whoever writes, renames or deletes has seen what stood there, so that
    isn't wanted any more. What harm leaves is wanted by nobody."""

    def __init__(self, devices, generator):
        super().__init__(devices, generator)
        self.wanted, self.origin = {}, {}

    def text(self):
        """Bytes that no other file has, so that one can tell where they are."""
        return (f"t{self.random.getrandbits(64):016x}" + "x" * self.random.randrange(40)).encode()

    def link(self, path, *_):
        remove(path)
        path.symlink_to(f"target-{self.random.getrandbits(64):016x}")

    def make_all(self):
        super().make_all()
        for device in self.devices:
            self.want(things_on(device.files))

    def want(self, things):
        for name, thing in things.items():
            self.wanted.setdefault(thing, name)

    def change(self, device, name, when):
        before, count = things_on(device.files), len(self.log)
        super().change(device, name, when)
        if len(self.log) > count:
            self.note(device, self.log[count][4] in HARM, before, things_on(device.files))

    def note(self, device, is_harm, before, after):
        """Notes what a change did to what is wanted. Who writes over what was harmed has done without it."""
        came = {name: thing for name, thing in after.items() if before.get(name) != thing}
        went = {name: thing for name, thing in before.items() if after.get(name) != thing and thing not in after.values()}
        if is_harm:
            for name, thing in went.items():
                self.origin.setdefault((device.name, name), thing)
            return
        for name, thing in went.items():
            self.wanted.pop(thing, None)
        for name in {*came, *went}:
            self.wanted.pop(self.origin.pop((device.name, name), None), None)
        self.want(came)

    def harm(self, device, way, name):
        """Does some harm to a name, and says whether something was there that can be harmed so."""
        path = device.files / name
        above = [one for one in path.parents if device.files in one.parents]
        if path.is_symlink() or not path.exists() or any(one.is_symlink() for one in above):
            return False
        if way not in ("vanish", "replace") and not (path.is_file() and path.stat().st_size > 2):
            return False
        before = things_on(device.files)
        getattr(self, way)(path)
        self.log.append(["harm", device.name, name, way])
        self.note(device, True, before, things_on(device.files))
        return True

    def overwritten(self, path, data):
        """These bytes stand there, mostly under the recorded time."""
        times = path.stat()
        path.write_bytes(data)
        if self.random.random() < .7:
            os.utime(path, ns=(times.st_atime_ns, times.st_mtime_ns))

    def empty(self, path, *_):
        self.overwritten(path, b"")

    def cut(self, path):
        times, data = path.stat(), path.read_bytes()
        path.write_bytes(data[:len(data) // 2])
        os.utime(path, ns=(times.st_atime_ns, times.st_mtime_ns))

    def zeros(self, path):
        self.overwritten(path, bytes(path.stat().st_size))

    def vanish(self, path):
        remove(path)

    def replace(self, path):
        remove(path)
        path.write_text("a file of nobody")
