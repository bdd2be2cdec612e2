#!/usr/bin/env python3
"""Respells the names that tools/respell.py passed over: those declared further in, inside a module of parameters.

Run at the top, after tools/respell.py. It changes nothing where it has been run.
"""
import glob
import re

NAMES = {
    "restated-stored": "restated_stored",
    "put-rows": "put_rows",
    "framed-by": "framed_by",
    "conversion-is": "conversion_is",
    "conversion-done": "conversion_done",
    "registerAfter": "register_after",
    "itemText": "item_text",
    "findingsAfter": "findings_after",
    "findingsBefore": "findings_before",
    "of-class": "of_class",
    "lines-by": "lines_by",
    "indexSize": "index_size",
    "gapSize": "gap_size",
    "fromValue": "from_value",
    "firstSize": "first_size",
    "behindItem": "behind_item",
    "behindFirst": "behind_first",
    "appended-stored": "appended_stored",
    "without-findings": "without_findings",
    "pair-shaped": "pair_shaped",
    "nothing-found": "nothing_found",
    "table-by": "table_by",
    "recordsAfter": "records_after",
    "noteAfter": "note_after",
    "commonAfter": "common_after",
    "next-table": "next_table",
    "tallied-at": "tallied_at",
    "noted-by": "noted_by",
    "two-legs": "two_legs_of",
    "look-line": "look_line",
    "holds-line": "holds_line",
    "count-line": "count_line",
    "length-line": "length_line",
    "put-found": "put_found",
    "stands-found": "stands_found",
}
TOKEN = r"[^\s(){}\[\];,.@\"`]+"

for pattern in ("specs/**/*.antt", "proofs/**/*.antt", "must-fail/*.edit"):
    for path in glob.glob(f"crates/*/{pattern}", recursive=True):
        text = open(path, encoding="utf8").read()
        new = re.sub(TOKEN, lambda found: NAMES.get(found[0], found[0]), text)
        if new != text:
            open(path, "w", encoding="utf8").write(new)
