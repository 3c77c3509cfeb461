#!/usr/bin/env python3
"""Brings the names of this repository's definitions and lemmas to the spelling of today's Rattle.

usage: python3 tools/respell.py [FOLDER]    once, at the top of the repository (or of FOLDER), after the toolchain's port.py

Names of definitions, fields, variables and lemmas are in snake case; a dash joins two names, and a plain word is joined by an
underscore; a fact keeps the capital of its type. Names of functions in src/, of types and of modules, strings, inputs
and outputs stay as they are. It rewrites whole names only, in the .antt and .rt files of crates/ (in .rt files these names stand
in clauses and ghost lines alone) and in README.md and docs/, and stops before it writes anything where two names would fall
together.
"""

import os
import re
import sys

NAMES = {
    # definitions, fields and variables
    "afterPoint": "after_point",
    "bothEqual": "both_equal",
    "builtIn": "built_in",
    "bytesLeft": "bytes_left",
    "cutAt": "cut_at",
    "decimalOf": "decimal_of",
    "decimalType": "decimal_type",
    "dropBlanks": "drop_blanks",
    "dropEndBlanks": "drop_end_blanks",
    "equalSwitches": "equal_switches",
    "equalValue": "equal_value",
    "fieldsOf": "fields_of",
    "findingText": "finding_text",
    "heldBytes": "held_bytes",
    "inBytes": "in_bytes",
    "isBlank": "is_blank",
    "isDecimal": "is_decimal",
    "isDigit": "is_digit",
    "isMinus": "is_minus",
    "isNumeral": "is_numeral",
    "isPlus": "is_plus",
    "isPoint": "is_point",
    "letterValue": "letter_value",
    "lineText": "line_text",
    "linesOf": "lines_of",
    "linesText": "lines_text",
    "noType": "no_type",
    "onlyType": "only_type",
    "orElse": "or_else",
    "outcomeNumber": "outcome_number",
    "outcomeOf": "outcome_of",
    "ownName": "own_name",
    "ownUri": "own_uri",
    "readOn": "read_on",
    "rowOf": "row_of",
    "rowOutcome": "row_outcome",
    "rowText": "row_text",
    "sameInteger": "same_integer",
    "sameName": "same_name",
    "scaleWith": "scale_with",
    "startsBlank": "starts_blank",
    "startsMinus": "starts_minus",
    "summaryOf": "summary_of",
    "summaryText": "summary_text",
    "switchOf": "switch_of",
    "typeNumbered": "type_numbered",
    "typeOf": "type_of",
    "valueType": "value_type",
    "wordValue": "word_value",
    "xmlSchemaDatatypes": "xml_schema_datatypes",
    # lemmas of datatypes
    "both-reflexive": "both_equal_reflexive",
    "both-symmetric": "both_equal_symmetric",
    "both-transitive": "both_equal_transitive",
    "dropBlanks-blank": "drop_blanks_blank",
    "dropBlanks-none": "drop_blanks_none",
    "dropBlanks-solid": "drop_blanks_solid",
    "dropEndBlanks-blank": "drop_end_blanks_blank",
    "dropEndBlanks-none": "drop_end_blanks_none",
    "dropEndBlanks-push": "drop_end_blanks_push",
    "dropEndBlanks-solid": "drop_end_blanks_solid",
    "lawful-at": "lawful_at",
    "noType-lawful": "no_type-LawfulType",
    "same-slices": "same_slices",
    "sameBytes-equivalence": "bytes_eq-Equivalence",
    "typeNumbered-lawful": "type_numbered-LawfulType",
    "valueType-lawful": "value_type-LawfulType",
    # lemmas of builtin
    "collapse-first": "collapse_first",
    "collapse-none": "collapse_none",
    "coming-blanks": "coming_blanks",
    "coming-gap": "coming_gap",
    "coming-next": "coming_next",
    "coming-none": "coming_none",
    "coming-solid": "coming_solid",
    "dropBlanks-reverse": "drop_blanks-reverse",
    "dropBlanks-through": "drop_blanks_through",
    "dropBlanks-to": "drop_blanks_to",
    "dropEndBlanks-after": "drop_end_blanks_after",
    "eq-decides": "eq-Decides",
    "reverse-around": "reverse_around",
    "same-items": "same_items",
    "same-strings": "same_strings",
    "squeeze-gap": "squeeze_gap",
    "squeeze-more": "squeeze_more",
    # lemmas of decimals
    "cut-zero": "cut_zero",
    "equal-by-parts": "equal_by_parts",
    "equalValue-decides": "equal_value-Decides",
    "equalValue-equivalence": "equal_value-Equivalence",
    "equalValue-reflexive": "equal_value_reflexive",
    "equalValue-same": "equal_value_same",
    "equalValue-symmetric": "equal_value_symmetric",
    "equalValue-transitive": "equal_value_transitive",
    "level-reflexive": "Level_reflexive",
    "level-symmetric": "Level_symmetric",
    "level-transitive": "Level_transitive",
    "minus-first": "minus_first",
    "not-longer": "not_longer",
    "plus-first": "plus_first",
    "points-few": "points_few",
    "pos-left": "pos_left",
    "reads-none-right": "reads_none_right",
    "sameInteger-decides": "same_integer-Decides",
    "signed-from": "signed_from",
    "signed-times": "signed_times",
    "ten-pos": "ten_pos",
    # lemmas of switches
    "equalSwitches-equivalence": "equal_switches-Equivalence",
    # lemmas of parameters
    "cut-there": "cut_there",
    "cutAt-first": "cut_at_first",
    "cutAt-none": "cut_at_none",
    "end-counts": "end_counts",
    "end-text": "end_text",
    "fields-first": "fields_first",
    "fields-none": "fields_none",
    "fields-some": "fields_some",
    "finding-joined": "finding_joined",
    "lacks-first": "lacks_first",
    "line-joined": "line_joined",
    "lines-first": "lines_first",
    "lines-last": "lines_last",
    "row-just-two": "row_just_two",
    "row-more-tabs": "row_more_tabs",
    "row-no-tab": "row_no_tab",
    "row-one-tab": "row_one_tab",
    "row-two-tabs": "row_two_tabs",
    "step-different": "step_different",
    "tally-more": "tally_more",
}

# A definition has the name of the function in src/ whose answer it gives, and its variables those of that function's parameters.
FUNCTIONS = {"is_blank", "same_name", "own_name", "own_uri"}

# Names that the toolchain's script had already respelt.
RESPELT = {"cut_at", "fields_of", "lines_of", "or_else", "read_on", "row_of", "type_of"}

NAME = re.compile(r"(?<![\w'-])[A-Za-z][\w']*(?:-[\w']+)*(?![\w'-])")


def files(top):
    for folder, _, names in os.walk(os.path.join(top, "crates")):
        if os.sep + "out" in folder:
            continue
        for name in sorted(names):
            if name.endswith((".antt", ".rt")):
                yield os.path.join(folder, name)
    yield os.path.join(top, "README.md")
    for name in sorted(os.listdir(os.path.join(top, "docs"))):
        if name.endswith(".md") and not name.startswith("PORT"):
            yield os.path.join(top, "docs", name)


def respelt(text):
    return NAME.sub(lambda m: NAMES.get(m.group(), m.group()), text)


def main():
    top = sys.argv[1] if len(sys.argv) > 1 else "."
    texts = {}
    for path in files(top):
        with open(path, encoding="utf-8") as f:
            texts[path] = f.read()
    if len(set(NAMES.values())) < len(NAMES):
        raise SystemExit("respell: two names have one new spelling")
    taken = {m.group() for path, text in texts.items() if path.endswith((".antt", ".rt")) for m in NAME.finditer(text)}
    both = sorted((set(NAMES.values()) & taken) - FUNCTIONS - RESPELT)
    if both:
        raise SystemExit("respell: these names are taken: " + ", ".join(both))
    for path, text in texts.items():
        new = respelt(text)
        if new != text:
            with open(path, "w", encoding="utf-8") as f:
                f.write(new)
            print(path)


main()
