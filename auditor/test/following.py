"""An operator who has an answer alone, and follows what it says from its first line down, step by step, literally."""

import json
import os
import re
import subprocess
from pathlib import Path

from exporting import auditor
from quick import remove, rest, start, stop
from syncthing import FOLDER

HEAD = re.compile(r"^(\S.*?)  \(in docs[,)]")
MANY = re.compile(r"^[\d,]+ names in docs: ")
LINE = re.compile(r"^(?:not settled: |also: )?(\w+) docs (.+) on (\d+)")


class Answer:
    """An answer as a person reads it, with the lists that the text leaves to --json."""

    def __init__(self, program, devices):
        homes = [word for device in devices for word in ("--home", device.home)]
        words = [program, "check", *homes, "--syncaudit", auditor()]
        ran = subprocess.run(words, capture_output=True, text=True)
        self.status, self.text = ran.returncode, ran.stdout + ran.stderr
        self.is_wrong = self.status == 1
        if self.is_wrong:
            told = subprocess.run([*words, "--json"], capture_output=True, text=True)
            self.folder = json.loads(told.stdout)["folders"][0]
            self.outlook = self.folder["outlook"]
            self.parts = self.text.split("\n\n")
            self.lines = subprocess.run([*words, "--lines"], capture_output=True, text=True).stdout.splitlines()

    def part(self, begin):
        """The part of the text that begins so; nothing where there is none."""
        return next((one for one in self.parts if one.startswith(begin)), "")

    def entries(self):
        """The entries in their order: the names of each, and all that it tells to do."""
        told = [self.entry(one) for one in self.parts if HEAD.match(one.lstrip("\n")) or MANY.match(one.lstrip("\n"))]
        alone = {name for names, _, is_many in told if not is_many for name in names}
        for names, advice, is_many in told:
            yield (self.like(names, alone) if is_many else names), advice

    def entry(self, text):
        """One entry."""
        lines = text.lstrip("\n").splitlines()
        advice = [one.rstrip(".") for one in re.split(r"\s*\n  to do: ", re.sub(r"\n         +", " ", "\n".join(lines)))[1:]]
        advice = [re.sub(r"\s+", " ", one) for one in advice]
        head = HEAD.match(lines[0])
        if head:
            return [unquoted(head[1])], advice, False
        first, = [line for line in lines if line.startswith("  the first: ")]
        names = re.sub(r", and [\d,]+ more .*", "", first[len("  the first: "):])
        return [unquoted(one) for one in names.split(" ")], advice, True

    def like(self, names, alone):
        """All names of an entry of many, as --lines has them: those with the same reasons on the same devices that have no entry of their own."""
        reasons = {}
        for line in self.lines:
            found = LINE.match(line)
            if found:
                reasons.setdefault(unquoted(found[2]), set()).add((found[1], found[3]))
        first = reasons.get(names[0])
        return sorted({*names, *(name for name, why in reasons.items() if name not in alone and why == first)})


def unquoted(word):
    """A name as a shell reads it."""
    return word[1:-1] if word.startswith("'") else word


class Operator:
    """Someone who follows an answer on devices that are stopped. After each step 'judge' is called with what was done."""

    def __init__(self, devices, room, judge, generator):
        self.devices, self.judge, self.random = devices, judge, generator
        self.by_label = {device.id[:7]: device for device in devices}
        self.by_id = {device.id: device for device in devices}
        self.saved = Path(room) / "saved"
        self.saved.mkdir(exist_ok=True)
        self.count = 0
        self.used, self.has_chosen = set(), False

    def follow(self, answer):
        """Follows an answer."""
        self.answer, self.done = answer, set()
        steps = answer.part("to do in ")
        if steps:
            self.follow_steps(steps)
        elif "do what the steps and the entries below say to do before Syncthing starts" in answer.text:
            self.follow_entries(is_before)
        if answer.part("to choose in "):
            self.choose()
        self.follow_entries(lambda words: True)
        self.run(self.devices, "let all run at last")

    def follow_steps(self, text):
        """The numbered steps. The lists of names are those of --json, whose plans stand in the same order."""
        plans = iter(self.answer.outlook["plans"])
        plan = None
        for line in text.splitlines()[1:]:
            if line.startswith("  for "):
                plan = next(plans)
                continue
            found = re.match(r"^ +[\d,]+\. (.*)$", line)
            if found:
                self.numbered(found[1], plan)

    def numbered(self, words, plan):
        """One numbered step."""
        device = re.match(r"on (\w+): (.*)$", words)
        if words.startswith("start Syncthing on all its devices"):
            self.run(self.devices, words)
        elif words.startswith("do what the entries below say to do before Syncthing starts or scans"):
            self.follow_entries(is_before)
        elif words.startswith("audit again, once they are idle. What may be chosen"):
            self.used.add("audit_before_a_choice")
        elif device:
            for name in plan["names"]:
                self.plan_step(self.by_label[device[1]], device[2], name)
            self.judge(words)
        else:
            raise AssertionError(f"no such step is known: {words}")

    def plan_step(self, device, words, name):
        """What a step of a plan says, for a name."""
        copied = re.match(r"copy (?:it|each) from (\w+), as it is there", words)
        if re.match(r"copy (it|each) elsewhere", words):
            self.save(device, name)
        elif copied:
            self.copy(self.by_label[copied[1]], device, name)
        elif re.match(r"touch (it|each)$", words):
            os.utime(device.files / name)
        elif re.match(r"delete (it|each|what stands there in (its place|their places))$", words):
            remove(device.files / name)
        else:
            raise AssertionError(f"no such step is known: {words}")

    def save(self, device, name):
        """Copies what stands at a name elsewhere."""
        path = device.files / name
        if os.path.lexists(path):
            self.count += 1
            to = self.saved / f"{self.count}-{device.name}" / name
            to.parent.mkdir(parents=True)
            subprocess.run(["cp", "-a", path, to], check=True)

    def copy(self, source, device, name):
        """Copies a name whole, once what stands there is taken away."""
        to = device.files / name
        assert os.path.lexists(source.files / name), f"{name} isn't on {source.name}, from where it is to be copied"
        assert to.parent.is_dir(), f"{name} can't be copied to {device.name}: the directory above isn't there"
        remove(to)
        subprocess.run(["cp", "-a", source.files / name, to], check=True)

    def run(self, devices, words):
        """Has devices run until they are idle. Those that ran go on running."""
        stopped = [device for device in devices if not device.process]
        start(stopped)
        if stopped:
            rest([device for device in self.devices if device.process])
        self.judge(words)

    def stop(self):
        stop(self.devices)

    def choose(self):
        """Takes one of the choices, or none."""
        choices = self.answer.outlook["choices"]
        if self.random.random() < .4:
            return
        choice = self.random.choice(choices)
        device = self.by_id[choice["device"]]
        label = f"{choice['act']} on {device.name}"
        self.used.add(choice["act"])
        self.has_chosen = True
        for loss in choice["loses"] + choice.get("goes", []):
            for thing in loss["loses"]:
                self.save(self.by_id[thing["devices"][0]], loss["name"])
        self.judge("save what is lost by " + label)
        if choice["act"] == "send-and-receive":
            self.stop()
            device.set_up(device.linked, "sendreceive")
            self.run(self.devices, label)
            return
        self.run(self.devices, "let all run before " + label)
        for one in self.devices:
            one.scan()
        rest(self.devices)
        self.judge("have all scan before " + label)
        device.api("POST", f"db/{choice['act']}?folder={FOLDER}")
        rest(self.devices)
        self.judge(label)

    def follow_entries(self, is_asked):
        """What the entries tell to do, from the first one down."""
        for names, advice in self.answer.entries():
            for words in advice:
                if is_asked(words) and (tuple(names), words) not in self.done:
                    self.done.add((tuple(names), words))
                    self.advised(names, words)

    def advised(self, names, words):
        """One 'to do' of an entry."""
        for pattern, act in ADVICE:
            found = re.match(pattern, words)
            if found:
                self.used.add(act.__name__)
                act(self, names, found)
                self.judge(f"{' '.join(names[:3])}: {words}")
                return
        raise AssertionError(f"no such advice is known: {words}")


def is_before(words):
    """Whether something is to be done before Syncthing starts or scans."""
    return not re.match(r"nothing\b(?!, if it may go|, if they may go)|to have again what", words)


def nothing(*_):
    """Nothing is to be done."""


def run_all(operator, *_):
    """Lets Syncthing run on all devices."""
    operator.run(operator.devices, "run all")


def save_all(operator, names, _):
    """Copies elsewhere what stands on any device."""
    for name in names:
        for device in operator.devices:
            operator.save(device, name)


def save_on(operator, names, found):
    """Copies elsewhere what stands on these devices."""
    for name in names:
        for label in found[1].split(", "):
            operator.save(operator.by_label[label], name)


def put_from_elsewhere(operator, names, found):
    """Puts on these devices what another name has that is to be deleted."""
    source = operator.by_label[found[2]]
    operator.save(source, unquoted(found[1]))
    saved = operator.saved / f"{operator.count}-{source.name}" / unquoted(found[1])
    was_running = any(one.process for one in operator.devices)
    operator.stop()
    for label in found[3].split(", "):
        to = operator.by_label[label].files / names[0]
        to.parent.mkdir(parents=True, exist_ok=True)
        subprocess.run(["cp", "--preserve=timestamps", saved, to], check=True)
    if was_running:
        operator.run(operator.devices, "run again")


def save_all_and_put(operator, names, _):
    """Copies elsewhere what is to stay, and puts what one device has on all."""
    save_all(operator, names, None)
    operator.stop()
    for name in names:
        holders = [device for device in operator.devices if os.path.lexists(device.files / name)]
        chosen = operator.random.choice(holders) if holders else None
        for device in operator.devices if chosen else []:
            if device is not chosen and (device.files / name).parent.is_dir():
                operator.copy(chosen, device, name)


def put_back(operator, names, found):
    """Puts back what a device recorded, if that is wanted: rarely."""
    if operator.random.random() < .7:
        return
    device, source = operator.by_label[found[1]], operator.by_label[found[3]]
    was_running = any(one.process for one in operator.devices)
    stop([device])
    for name in names:
        if found[2]:
            operator.save(device, name)
        if found[4] == "with":
            subprocess.run(["cp", "--preserve=timestamps", source.files / name, device.files / name], check=True)
        else:
            operator.save(device, name)
            (device.files / name).parent.mkdir(parents=True, exist_ok=True)
            operator.copy(source, device, name)
    if was_running:
        operator.run(operator.devices, "run again")


def same_mode(operator, names, found):
    """Gives a name one mode on all devices."""
    for label in found[1].split(", "):
        for name in names:
            path = operator.by_label[label].files / name
            if path.exists() and not path.is_symlink():
                path.chmod(0o755 if path.is_dir() else 0o644)


NEEDED = r"(?:[\w]{7}(?:, [\w]{7})*)"
ADVICE = [
    (r"look among old versions and backups: no audited device has what is recorded", nothing),
    (r"before Syncthing starts on any of these devices, copy (\S+) of (\w{7}) elsewhere: it has what is recorded here, and is to be deleted\. "
     r"Then copy that to (" + NEEDED + r") under this name", put_from_elsewhere),
    (r"take the steps for (?:it|them) above, under 'to do in'", nothing),
    (r"choose for the whole folder what stands above", nothing),
    (r"leave (?:it|them) so, or choose something for the whole folder, as another audit says", nothing),
    (r"nothing, if (?:it|they) may go\. If not, copy (?:it|them) elsewhere", save_all),
    (r"nothing, if .* (?:is|are) to keep what others delete", nothing),
    (r"nothing, if the (?:changes?|older files?) (?:is|are) wanted", nothing),
    (r"nothing but the start with which the steps above end", nothing),
    (r"nothing: let Syncthing run on all", run_all),
    (r"copy elsewhere what is to stay\. Then, while Syncthing is stopped on all", save_all_and_put),
    (r"before Syncthing starts or scans on any of these devices, copy elsewhere what is to stay of what stands on (" + NEEDED + ")", save_on),
    (r"before Syncthing starts or scans on any of these devices, copy elsewhere what is to stay", save_all),
    (r"to have again what (\w{7}) recorded, (copy elsewhere what stands there, if it may be right, and )?copy (?:it|them) from (\w{7}) to \w{7} (with|as)", put_back),
    (r"'chmod' (?:it|them) to the mode that is right on (.*?), before Syncthing scans there", same_mode),
]
