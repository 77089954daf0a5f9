"""A second reading of check documents: written apart from the program and from its definitions in specs/, for comparing
the program's answers with."""

import json_text
from placed import find_bad_link, find_bad_record, find_bad_sequence, find_twice_in, find_unshared
from shapes import IS_CHECK, is_whole
from things import Fault, cut_and_rows

MOST_BYTES = 67108864


def tree(document):
    """The value that a document's bytes are; of a longer document nothing else is looked at."""
    if len(document) > MOST_BYTES:
        raise Fault(184)
    try:
        return json_text.value_of(document)
    except json_text.NotJson:
        raise Fault(181) from None


def version_of(value):
    """The version that the tree of a document says, 1 or 2."""
    if not isinstance(value, dict) or not is_whole(value.get("version")) or value["version"] not in (1, 2):
        raise Fault(182)
    return value["version"]


def read_tree(value):
    """What the tree of a check document says, or the fault for which it is refused."""
    if not IS_CHECK[version_of(value)](value):
        raise Fault(183)
    read = cut_and_rows(value)
    for find in (find_twice_in, find_unshared, find_bad_record, find_bad_sequence, find_bad_link):
        find(read)
    return read


def read_check(document):
    return read_tree(tree(document))


def read_cut(document):
    """What a check document says of its cut, whatever certificate stands there or none; the list of rows is empty."""
    value = tree(document)
    return read_tree(value | {"certificate": []} if isinstance(value, dict) else value)
