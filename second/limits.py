"""Cuts in which something is as great as it may be, or greater."""

import copy


def directories(count):
    """As many records, whose sequences rise."""
    return [{"name": f"d{number}", "type": 1, "modified_s": 1000, "modified_by": 1, "version": [[1, 1]], "sequence": number}
            for number in range(1, count + 1)]


def nodes_of(records):
    """What a store has of directories and symlinks."""
    return [{name: record[name] for name in ("name", "type", "modified_s", "target") if name in record}
            for record in records]


def give(cut, **lists):
    """Gives the first device these lists, and so many sequences."""
    cut["folders"][0]["devices"][0] |= {"max": 5000} | lists


def two_devices(cut):
    """The two least devices of the first folder, in order; another one is added where it has one."""
    devices = cut["folders"][0]["devices"]
    if len(devices) == 1:
        devices.append(devices[0] | {"device": 7, "views": [], "own": [], "store": [], "pulls": []})
    return sorted(one["device"] for one in devices)[:2]


def own(cut, count):
    records = directories(count)
    give(cut, own=records, store=nodes_of(records))


def stored(cut, count):
    give(cut, own=[], store=nodes_of(directories(count)))


def viewed(cut, count):
    two_devices(cut)
    other = cut["folders"][0]["devices"][1]["device"]
    give(cut, views=[{"of": other, "index_id": 10, "max": 5000, "records": directories(count)}])


def pulled(cut, count):
    give(cut, pulls=directories(count))


def sent_with(cut, messages):
    a, b = two_devices(cut)
    cut["links"] = [{"a": a, "b": b, "up": True, "epoch": 1, "to_b": messages}]


def announced(cut, count):
    sent_with(cut, [{"folder": cut["folders"][0]["folder"], "full": True, "records": directories(count)}])


def sent(cut, count):
    sent_with(cut, [{"folder": cut["folders"][0]["folder"], "full": False, "records": []} for _ in range(count)])


def shared(cut, count):
    """As many folders."""
    first = cut["folders"][0]
    cut["folders"] = [first] + [copy.deepcopy(first) | {"folder": f"f{number}"} for number in range(1, count)]


def sharing(cut, count):
    """As many different devices, in three folders, some in two of them."""
    share = {"kind": "send-receive", "index_id": 1, "max": 0}
    cut["folders"] = [{"folder": f"f{folder}", "devices": [share | {"device": device} for device in range(1, count + 1)
                                                           if device % 3 == folder or device % 4 == folder]}
                      for folder in range(3)]
    cut["links"] = []


def named(cut, count):
    records = [directories(1)[0] | {"name": "\u00e9" * (count // 2) + "x" * (count % 2)}]
    give(cut, own=records, store=nodes_of(records))


def targeted(cut, count):
    records = [directories(1)[0] | {"type": 4, "target": "\u00e9" * (count // 2) + "x" * (count % 2)}]
    give(cut, own=records, store=nodes_of(records))


def counted(cut, count):
    records = [directories(1)[0] | {"version": [[device, 1] for device in range(1, count + 1)]}]
    give(cut, own=records, store=nodes_of(records))


def called(cut, count):
    """A folder's name of as many letters."""
    cut["folders"][0]["folder"] = "f" * count
    cut["links"] = []


def cut_in_blocks(cut, count):
    record = {"type": 0, "size": 131072 * count, "blocks": ["AB" * 32] * count}
    give(cut, own=[directories(1)[0] | record])


def hashed(cut, count):
    record = {"type": 0, "size": 16777216, "blocks": ["ab" * 32] * count}
    give(cut, own=[directories(1)[0] | record])


def sized(cut, size, block_size):
    """A file of this size, which says this block size and has as many hashes as blocks of it."""
    record = {"type": 0, "size": size, "block_size": block_size, "blocks": ["ab" * 32] * -(-size // block_size)}
    give(cut, own=[directories(1)[0] | record])


def with_small_blocks(cut, size):
    sized(cut, size, 131072)


def with_middle_blocks(cut, size):
    sized(cut, size, 262144)


def with_large_blocks(cut, size):
    sized(cut, size, 524288)


SMALL_GROWTHS = [(pulled, 64), (shared, 16), (sharing, 16), (named, 1024), (targeted, 1024), (counted, 16), (called, 64),
                 (cut_in_blocks, 128), (hashed, 128)]
# Of documents of version 2: the greatest file of each block size, and one below.
SIZED_GROWTHS = [(with_small_blocks, 16777216), (with_small_blocks, 262143998), (with_small_blocks, 262143999),
                 (with_middle_blocks, 262143999), (with_middle_blocks, 262144000), (with_middle_blocks, 524287999),
                 (with_large_blocks, 524287999), (with_large_blocks, 524288000), (with_large_blocks, 536870912)]
LARGE_GROWTHS = [(own, 4096), (stored, 4096), (viewed, 4096), (announced, 1000), (sent, 1024)]


def grow(cut, growth, beyond):
    """Makes something of the cut as great as it may be, or so much greater."""
    make, most = growth
    make(cut, most + beyond)
