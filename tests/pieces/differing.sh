# Which block 'explain' shows of files of several blocks: the first at which they differ. Read by pieces.sh.
# shellcheck shell=bash disable=SC2154 # pieces.sh has the functions that stand in no file of this folder

# rotten RECORDED STORED [BEHIND]: a check document of two devices that record the first file; device 2 has the second one on its
# disk, and records the third one where it is told. A letter of a word is a block of that letter, and the last block is ten bytes long.
rotten() {
  python3 - "$@" << 'END'
import hashlib, json, sys

BLOCK = 131072


def file_of(word):
    return "".join(letter * BLOCK for letter in word[:-1]) + word[-1] * 10


def record_of(text, version):
    blocks = [text[place:place + BLOCK] for place in range(0, len(text), BLOCK)]
    return {"name": "film", "type": 0, "size": len(text), "modified_s": 5, "modified_by": 1, "version": [[1, version]], "sequence": 1,
            "blocks": [hashlib.sha256(block.encode()).hexdigest() for block in blocks]}


recorded, stored = (file_of(word) for word in sys.argv[1:3])
winner = record_of(recorded, 2)
behind = record_of(file_of(sys.argv[3]), 1) if sys.argv[3:] else winner
devices = [{"device": number, "kind": "send-receive", "index_id": 10 + number, "max": 1, "own": [own],
            "store": [{"name": "film", "type": 0, "modified_s": 5, "text": text}]}
           for number, own, text in ((1, winner, recorded), (2, behind, stored))]
print(json.dumps({"version": 1, "cut": {"folders": [{"folder": "docs", "devices": devices}]},
                  "certificate": [{"folder": "docs", "device": 1, "record": winner}]}))
END
}

# hash_of LETTER COUNT: the first digits of the SHA-256 of as many such letters.
hash_of() {
  head -c "$2" /dev/zero | tr '\0' "$1" | sha256sum | cut -c 1-8
}

# blocks_shown RECORDED STORED [BEHIND]: what 'explain' says of the blocks of the winner, of the record, and of the file on the disk.
blocks_shown() {
  { rotten "$@" | "$program" explain || true; } | sed -n '/^StoreDiffers /,$s/^  .* blocks, \(sha256 .*\), time .*/\1/p' | paste -s -d ';'
}

# shows BLOCK HASH HASH: how the block is told of the winner and of the record with the first hash, and of the file with the other.
shows() {
  echo "sha256 of $1 $2;sha256 of $1 $2;sha256 of $1 $3"
}

whole=131072
expect 'files that differ in the second block' "$(shows 'block 1 (the first is 0)' "$(hash_of b 10)" "$(hash_of c 10)")" \
  "$(blocks_shown ab ac)"
expect 'files that differ in the second and the third block' \
  "$(shows 'block 1 (the first is 0)' "$(hash_of b $whole)" "$(hash_of c $whole)")" "$(blocks_shown abd ace)"
expect 'files that differ in the first block' "$(shows 'the first' "$(hash_of a $whole)" "$(hash_of c $whole)")" \
  "$(blocks_shown ab cb)"
# Of three files that differ at two places all show the first of these, whichever file differs there.
block=$(printf 'sha256 of block %s (the first is 0) ' 1)
expect 'a record that differs before the file on the disk does' \
  "$block$(hash_of b $whole);$block$(hash_of x $whole);$block$(hash_of b $whole)" "$(blocks_shown abcd abye axcd)"
expect 'a file on the disk that differs before the record does' \
  "$block$(hash_of b $whole);$block$(hash_of b $whole);$block$(hash_of x $whole)" "$(blocks_shown abcd axcd abye)"
