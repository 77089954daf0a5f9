#!/usr/bin/env python3
"""Writes a settled stream of rows: files of one block on so many devices, each of which has a view of each other one.

    make_rows.py NAMES [DEVICES] > STREAM
"""

import json
import sys


def main(names, devices=3):
    every = range(1, devices + 1)
    views = [[{"of": other, "index_id": 10 + other, "max": names, "records": []} for other in every if other != device]
             for device in every]
    shares = [{"device": device, "kind": "send-receive", "index_id": 10 + device, "max": names, "views": views[device - 1]}
              for device in every]
    print(json.dumps({"version": 1, "cut": {"folders": [{"folder": "docs", "devices": shares}]}}, separators=(",", ":")))
    cells = [[device, 1, 1, 0, [[other, 1] for other in every if other != device]] for device in every]
    told = json.dumps(cells, separators=(",", ":"))
    write = sys.stdout.write
    for number in range(1, names + 1):
        name = f"photos/{number // 1000:06}/IMG_{number:09}.jpg"
        write(f'["docs","{name}",[{{"name":"{name}","type":0,"size":5,"modified_s":{1000 + number},"modified_by":1,'
              f'"version":[[1,1]],"sequence":{number},"blocks":["2cf24dba5fb0a30e26e83b2ac5b9e29e1b161e5c1fa7425e73043362938b9824"]}}],'
              f'[{{"name":"{name}","type":0,"modified_s":{1000 + number},"text":"hello"}}],{told}]\n')


if __name__ == "__main__":
    main(*map(int, sys.argv[1:]))
