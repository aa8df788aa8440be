#!/bin/sh
# Tells whether the worked rows have the text of each file here: a row of rows/ has that of NAME.txt as its input, and that of
# NAME.out as its output. Those of a folder here are read elsewhere.
unset CDPATH
cd "$(dirname "$0")" || exit 1
# (no file has the byte 1: each is read as one record)
exec awk -v RS='\001' '
    FILENAME ~ /\.rows$/ { rows = rows "\n" $0; next }
    {
        sign = FILENAME ~ /\.out$/ ? ">" : "<"
        sub(/\n$/, "")
        gsub(/\n/, "\n" sign " ")
        block = "\n" sign " " $0 "\n"
        while (sub("\n" sign " \n", "\n" sign "\n", block)) {}
        if (index(rows, block)) next
        print FILENAME ": no row has it"
        differ = 1
    }
    END { exit differ }
' ../rows/*.rows *.txt *.out
