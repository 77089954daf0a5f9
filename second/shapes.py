"""The shapes of documents: which members a tree has, and of which kind each is. Ranges are asked afterwards
(things.py)."""


def is_whole(value):
    return isinstance(value, int) and not isinstance(value, bool)


def is_text(value):
    return isinstance(value, str)


def is_flag(value):
    return isinstance(value, bool)


def is_list(shape):
    return lambda value: isinstance(value, list) and all(shape(item) for item in value)


def is_object(must, may=()):
    may = dict(may)

    def shape(value):
        return (isinstance(value, dict) and all(name in must or name in may for name in value)
                and all(name in value and must[name](value[name]) for name in must)
                and all(may[name](value[name]) for name in may if name in value))
    return shape


def is_pair(value):
    return isinstance(value, list) and len(value) == 2 and all(is_whole(item) for item in value)


IS_RECORD = is_object(
    {"name": is_text, "type": is_whole, "modified_s": is_whole, "modified_by": is_whole, "version": is_list(is_pair),
     "sequence": is_whole},
    {"size": is_whole, "modified_ns": is_whole, "deleted": is_flag, "invalid": is_flag, "block_size": is_whole,
     "blocks": is_list(is_text), "target": is_text})
HAS_NODE_MEMBERS = is_object(
    {"name": is_text, "type": is_whole, "modified_s": is_whole},
    {"modified_ns": is_whole, "text": is_text, "hex": is_text, "target": is_text})


def is_node(value):
    return (HAS_NODE_MEMBERS(value) and not ("text" in value and "hex" in value)
            and (value["type"] != 4 or "target" in value))


def is_sized_record(value):
    """A record that says its block size where it is of a file that isn't deleted."""
    return IS_RECORD(value) and (value["type"] != 0 or value.get("deleted", False) or "block_size" in value)


def is_check(is_record):
    """A check document of such records."""
    is_view = is_object({"of": is_whole, "index_id": is_whole, "max": is_whole, "records": is_list(is_record)})
    is_share = is_object({"device": is_whole, "kind": is_text, "index_id": is_whole, "max": is_whole},
                         {"own": is_list(is_record), "store": is_list(is_node), "views": is_list(is_view),
                          "pulls": is_list(is_record)})
    is_folder = is_object({"folder": is_text, "devices": is_list(is_share)})
    is_message = is_object({"folder": is_text, "full": is_flag, "records": is_list(is_record)})
    is_link = is_object({"a": is_whole, "b": is_whole, "up": is_flag, "epoch": is_whole},
                        {"to_a": is_list(is_message), "to_b": is_list(is_message)})
    is_cut = is_object({"folders": is_list(is_folder)}, {"links": is_list(is_link)})
    is_row = is_object({"folder": is_text, "device": is_whole, "record": is_record})
    return is_object({"version": is_whole, "cut": is_cut, "certificate": is_list(is_row)})


# A check document, by its version.
IS_CHECK = {1: is_check(IS_RECORD), 2: is_check(is_sized_record)}
