#!/usr/bin/env bash
# keeper.sh WORDS..: stands in for the program PROGRAM: keeps what comes in, up to what the program reads at most, as a file
# of the folder KEPT whose name begins with the first word, and runs the program on it with these words.
kept=$(mktemp "$KEPT/$1.XXXXXXXX")
head -c 67108865 > "$kept"
exec "$PROGRAM" "$@" < "$kept"
