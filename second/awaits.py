"""When a name awaits what one device has to do, read a second time: a scan, an override, or a revert. All that is known
elsewhere leads up to what the device will have then, and nothing at any other device stands in its way."""

import prevails
from prevails import Name, Sharer, has_no_local_change, has_own_content, is_at_most, is_clean
from verdict import content, is_below


def elsewhere(at: Name, device: Sharer) -> list[dict]:
    """The valid records of the name but the device's own one: others' own, and what any has from elsewhere."""
    own = [other.own[at.name] for other in at.devices if other is not device and at.name in other.own]
    foreign = [entry for other in at.devices for entry in other.foreign(at.name)]
    return [entry for entry in own + foreign if not entry["invalid"]]


def leads_up_to(records: list[dict], version: dict) -> bool:
    """They are one chain with one content at each version, and all are at most this version."""
    return all(is_at_most(one["version"], version) for one in records) and all(
        (is_at_most(one["version"], other["version"]) or is_at_most(other["version"], one["version"]))
        and (one["version"] != other["version"] or content(one) == content(other))
        for one in records for other in records)


def is_in_order(at: Name, device: Sharer) -> bool:
    """The own record is no local change, and the file is clean and has its content."""
    return all(holds(at, device) for holds in (has_no_local_change, is_clean, has_own_content))


def makes_way(at: Name, device: Sharer, version: dict, goes: bool) -> bool:
    """The device would take a record above this version, a deletion if the name goes."""
    takes = not device.sends_only or (goes and at.name not in device.own)
    counted = version.get(device.number, 0) <= device.own_version(at.name).get(device.number, 0)
    return is_in_order(at, device) and takes and counted


def awaits_record(at: Name, device: Sharer, version: dict) -> bool:
    """The name awaits a record that the device makes of what it holds, above this version."""
    goes = at.name not in device.store
    return leads_up_to(elsewhere(at, device), version) and all(
        makes_way(at, other, version, goes) for other in at.devices if other is not device)


def awaits_scan(at: Name, device: Sharer) -> bool:
    """The file isn't clean, and nothing that is known elsewhere is beyond the device's own record."""
    return not is_clean(at, device) and awaits_record(at, device, device.own_version(at.name))


def merged(one: dict, other: dict) -> dict:
    """The greater counter of both at each device."""
    return {device: max(one.get(device, 0), other.get(device, 0)) for device in one | other}


def awaits_override(at: Name, device: Sharer) -> bool:
    """Whichever foremost record of those that it has seen the device overrides, nothing is beyond both merged."""
    seen = [entry for entry in device.viewed.get(at.name, ()) if not entry["invalid"]]
    foremost = [one for one in seen if not any(is_below(one["version"], other["version"]) for other in seen)]
    return is_in_order(at, device) and all(
        awaits_record(at, device, merged(device.own_version(at.name), one["version"])) for one in foremost)


def awaits_revert(at: Name, device: Sharer) -> bool:
    """All others let the top in, no record counts any change of the device's, and what has no version is a deletion."""
    others = [other for other in at.devices if other is not device]
    return (prevails.has_top(at) and prevails.is_in_line(at) and prevails.agrees(at)
            and all(is_in_order(at, other) and prevails.takes_changes(at, other) and prevails.counts_own(at, other)
                    for other in others)
            and all(not entry["version"].get(device.number) for entry in at.records)
            and all(content(entry) == "deleted" for entry in at.records if not entry["version"]))
