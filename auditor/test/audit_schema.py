#!/usr/bin/env python3
"""Says whether lines on standard input, each a JSON document, are what auditor/audit.schema.json says; needs python3-jsonschema.

    syncthing-audit check --json .. | auditor/test/audit_schema.py

The status is 0 where all are, 1 where one isn't, and 77 where jsonschema is missing.
"""

import json
import sys
from pathlib import Path

SCHEMA = Path(__file__).resolve().parents[1] / "audit.schema.json"
STATUS_MISSING = 77


def faults(validator, line):
    """What is wrong with a document."""
    return [f"{fault.json_path}: {fault.message}" for fault in validator.iter_errors(json.loads(line))]


def main():
    try:
        from jsonschema import Draft202012Validator
    except ImportError:
        sys.exit(STATUS_MISSING)
    schema = json.loads(SCHEMA.read_text())
    Draft202012Validator.check_schema(schema)
    lines = sys.stdin.read().splitlines()
    told = [fault for line in lines for fault in faults(Draft202012Validator(schema), line)]
    print(f"{len(lines)} documents", *told, sep="\n")
    sys.exit(1 if told or not lines else 0)


main()
