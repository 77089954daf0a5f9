"""Random changes on the disks of real devices, for a storm."""

import os
import subprocess
import time

from quick import remove

FILES = [f"f{number:02}" for number in range(34)]
LINKS = [f"l{number}" for number in range(6)]
EMPTY = [f"e{number}" for number in range(4)]
DIRECTORIES = [f"d{number}" for number in range(7)]
CHILDREN = ["a", "b", "s/c"]
NEW = [f"new{number}" for number in range(6)]
ALL = FILES + LINKS + EMPTY + DIRECTORIES + [f"{above}/{below}" for above in DIRECTORIES for below in CHILDREN] + NEW
COMMON = [f"common-{number}" for number in range(4)]
MODES = [0o600, 0o640, 0o755, 0o700]
CHANGES = {
    "file": {"edit": 8, "touch": 4, "delete": 5, "rot": 3, "mode": 3, "fill": 1.5, "link": 1.2, "rename": 1.5, "rename_over": .5, "copy": 2,
             "copy_anew": 1.5, "edit_with_mode": .7, "empty": .4, "rot_with_mode": .6},
    "symlink": {"link": 4, "delete": 3, "edit": 2, "fill": 1, "rename": .7},
    "directory": {"delete": 3, "edit": 2.5, "link": 1, "mode": 2, "rename": 1, "add": 2, "clear": 1},
    "nothing": {"edit": 4, "fill": 1, "link": 1, "copy": 4, "copy_anew": 2},
}


class Storm:
    """Changes of devices' disks by a random generator."""

    def __init__(self, devices, random):
        self.devices, self.random = devices, random
        self.begin = int(time.time()) - 200000
        self.log = []

    def text(self):
        """Some bytes, rarely those of another file."""
        if self.random.random() < .15:
            return self.random.choice(COMMON).encode()
        return (f"t{self.random.getrandbits(64):016x}" + "x" * self.random.randrange(40)).encode()

    def stamp(self, path):
        """Gives an old time, which others may have, too; or leaves the present one."""
        if self.random.random() < .25:
            return
        seconds = self.begin + 1000 * self.random.randrange(1, 60 if self.random.random() < .6 else 6)
        stamp = seconds * 10**9 + (self.random.randrange(10**9) if self.random.random() < .3 else 0)
        os.utime(path, ns=(stamp, stamp), follow_symlinks=False)

    def put(self, path):
        """Writes a file."""
        path.write_bytes(self.text())
        self.stamp(path)

    def make_all(self):
        """Makes each name on some device."""
        for name in FILES:
            self.put(self.files() / name)
        for name in LINKS:
            (self.files() / name).symlink_to(f"target-{self.random.randrange(3)}")
        for name in EMPTY:
            (self.files() / name).mkdir()
        for name in DIRECTORIES:
            above = self.files() / name
            (above / "s").mkdir(parents=True)
            for below in CHILDREN:
                self.put(above / below)

    def files(self):
        return self.random.choice(self.devices).files

    def change(self, device, name, when):
        """Changes a name on a device's disk in some way."""
        path = device.files / name
        above = path.parent
        while above != device.files:
            if above.is_symlink() or above.exists() and not above.is_dir():
                return
            above = above.parent
        path.parent.mkdir(parents=True, exist_ok=True)
        kind = "symlink" if path.is_symlink() else "directory" if path.is_dir() else "file" if path.is_file() else "nothing"
        ways = CHANGES[kind]
        way = self.random.choices(list(ways), list(ways.values()))[0]
        self.log.append([when, device.name, name, kind, way])
        getattr(self, way)(path, device, name)

    def edit(self, path, *_):
        if not path.is_file() or path.is_symlink():
            remove(path)
        self.put(path)

    def edit_with_mode(self, path, *more):
        self.edit(path)
        self.mode(path)

    def empty(self, path, *_):
        path.write_bytes(b"")
        self.stamp(path)

    def touch(self, path, *_):
        if self.random.random() < .8:
            self.stamp(path)
        else:
            os.utime(path)

    def delete(self, path, *_):
        remove(path)

    def rot(self, path, *_):
        data, times = bytearray(path.read_bytes()), path.stat()
        if data:
            data[self.random.randrange(len(data))] ^= 1
            path.write_bytes(bytes(data))
            os.utime(path, ns=(times.st_atime_ns, times.st_mtime_ns))

    def rot_with_mode(self, path, *_):
        self.rot(path)
        self.mode(path)

    def mode(self, path, *_):
        path.chmod(self.random.choice(MODES if path.is_file() else [0o700, 0o750]))

    def fill(self, path, *_):
        """Puts a directory there, which has something or nothing."""
        remove(path)
        path.mkdir()
        if self.random.random() < .6:
            for name in self.random.sample(["x", "y", "z"], self.random.randrange(1, 3)):
                self.put(path / name)

    def link(self, path, *_):
        remove(path)
        path.symlink_to(f"target-{self.random.randrange(3)}")

    def rename(self, path, *_):
        self.move(path, path.with_name(f"{path.name}-{self.random.choice('pq')}"))

    def rename_over(self, path, device, _):
        self.move(path, device.files / self.random.choice(FILES))

    def move(self, path, to):
        if to != path:
            remove(to)
            path.rename(to)
            self.log[-1].append(to.name)

    def copy(self, path, device, name):
        self.copy_with(path, device, name, "-a")

    def copy_anew(self, path, device, name):
        self.copy_with(path, device, name, "-RP")

    def copy_with(self, path, device, name, flags):
        others = [other for other in self.devices if other is not device and os.path.lexists(other.files / name)]
        if others:
            other = self.random.choice(others)
            self.log[-1].append(other.name)
            remove(path)
            subprocess.run(["cp", flags, str(other.files / name), str(path)], check=True)

    def add(self, path, *_):
        self.put(path / f"n{self.random.choice('12')}")

    def clear(self, path, *_):
        for one in list(path.iterdir()):
            remove(one)
