#!/bin/sh
# A prover for the tests: check --crate-name NAME ROOT .. --incremental FOLDER. A crate is proved unless
# one of its files has a word that says otherwise, and an edited one is checked over what was saved.
folder=${4%/src/*}
for saved; do :; done
if grep -rq edited "$folder" && [ ! -f "$saved/left" ]; then
    echo "nothing was saved"
    exit 2
fi
mkdir -p "$saved" && touch "$saved/left"
if grep -rq unparsed "$folder"; then
    echo "$folder/src/lib.rt:1:1: error: expected an item"
    exit 1
fi
if grep -rq untyped "$folder"; then echo "$folder/specs/Named.antt:1:1: error: no type"; fi
if grep -rq 'untyped\|unequal' "$folder"; then
    echo "$folder/proofs/Lib.antt:2:3: error: not equal"
    echo "logic=not-proved"
    exit 1
fi
echo "logic=proved"
