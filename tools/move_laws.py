#!/usr/bin/env python3
"""Names the laws of scalar, record and holdings where they now stand: in proofs/, and no more in specs/.

usage: python3 tools/move_laws.py     at the top of the repository; a second run changes nothing

What has to be believed stands in specs/, what is checked in proofs/. A module of the table below has its laws in
crates/CRATE/proofs/MODULE.antt; the names beside it, definitions that contracts cite, stay in crates/CRATE/specs. The
script rewrites the import lines of specs/, proofs/ and src/ of every crate: one that names both kinds becomes two lines.
It moves no file, and tells what it cannot do: an alias of a module of which both kinds are used, a contract that names a
law, and a file of specs/ that would name proofs/ of its own crate.
"""

import glob
import os
import re
import sys

# Of each crate the modules whose laws moved, each with the names that stay.
MOVED = {
    "scalar": {
        "AnswerLaws": "",
        "Bits": "",
        "ByChart": "",
        "CharLeads": "",
        "ChartLaws": "entry_runs spread",
        "Decoded": "halves four_of decoded_from decoded pair_in four_in",
        "DoubleLaws": "",
        "FormLaws": "",
        "Greedy": "",
        "Halves": "",
        "Ieee": "",
        "NumberAt": "",
        "NumberLaws": "tried",
        "NumberLengths": "",
        "NumberTheorems": "",
        "Pairs": "",
        "Refusals": "",
        "Rows": "",
        "RuleLaws": "",
        "ScalarLaws": "",
        "Signed": "",
        "Sorts": "",
        "StringLengths": "Parts parts parts_after",
        "TextAt": "",
        "TextLaws": "",
        "TextShort": "short_to",
        "TextTheorems": "",
        "TextUnits": "weights",
        "Thousandths": "",
        "UnderRules": "",
    },
    "record": {
        "ForReader.ChartHeads": "",
        "ForReader.ReadDefinitions": "names_left below plain",
        "ForReader.ReadLengths": "",
        "ForReader.ReadLoops": "rest closes stops past parts",
        "ForReader.ReadMessages": "",
        "ForReader.ReadParts": "",
        "ForReader.ReadValues": "heading",
        "ForReader.ReadingAt": "marks from numbered ReadingAt ReadTo RefusedAt reading_of run front on through topped",
        "ForReader.Retelling": "HeldRows",
        "ForWriter.BareItems": "NoneIn",
        "ForWriter.RowItems": "",
        "ForWriter.WritingAt": "holding claimed_by plainly row_at claim_at claimed_from claimed At End WritingAt WrittenTo NoMessage"
        " writing_of walk behind on_written",
        "ForWriter.WrittenContents": "left done",
        "ForWriter.WrittenItems": "ended",
        "ForWriter.WrittenMessages": "Rights Wrong",
        "ForWriter.WrittenNames": "names_left",
        "ForWriter.WrittenValues": "below",
        "Laws.Answering": "",
        "Laws.Back": "",
        "Laws.Bounds": "",
        "Laws.Claimed": "of_kind same_row checked item_at items_of ended record_of",
        "Laws.ClaimedLengths": "",
        "Laws.Derives": "",
        "Laws.Extent": "",
        "Laws.Forest": "",
        "Laws.HopLaws": "",
        "Laws.InThousandths": "",
        "Laws.ItemLengths": "",
        "Laws.KnownArray": "classes_slot types_slot references_slot known_size known_in Kept defined_in",
        "Laws.MainSpelling": "",
        "Laws.Meaning": "",
        "Laws.NamedContents": "",
        "Laws.Nesting": "",
        "Laws.Numbering": "",
        "Laws.Parses": "",
        "Laws.Places": "",
        "Laws.Refusals": "",
        "Laws.RowLaws": "row_of",
        "Laws.RowLengths": "list_length object_length number_length row_length length_under few_length more_length",
        "Laws.Short": "Spells Short at_most both_put then_spells bytes_spell code_spells map_spells few_spells list_spells",
        "Laws.Spans": "",
        "Laws.TableLaws": "Sound All",
        "Laws.Takes": "Taken none_taken taken Series Takes anything Drops",
        "Laws.ThousandthRows": "",
        "Laws.ValueHeads": "",
        "Laws.Widths": "",
        "Theorems.AnswerTheorems": "",
        "Theorems.CallCases": "",
        "Theorems.Called": "",
        "Theorems.HopTheorems": "",
        "Theorems.ItemTheorems": "",
        "Theorems.LengthTheorems": "",
        "Theorems.RowTheorems": "",
        "Theorems.SameTheorems": "",
        "Theorems.Samples": "",
    },
    "holdings": {
        "AdditionLaws": "",
        "BatchLaws": "",
        "EntryLaws": "Entries wholes",
        "FaultLaws": "",
        "FileLaws": "",
        "NumberLaws": "",
        "Proved": "",
        "Proved.AddAllCalls": "",
        "Proved.AddCalls": "",
        "Proved.AnyOrder": "",
        "Proved.Layout": "",
        "Proved.ListCalls": "",
        "Proved.OneByOne": "",
        "Proved.OneVersion": "",
        "Samples": "",
        "VersionSamples": "",
    },
}

# In proofs/ the names of files may not differ from those of src/ in the case of letters alone.
RENAMED = {("scalar", "Refusals"): "RefusalLaws"}

USE = re.compile(
    r"^(?P<lead>\s*(?:ghost )?use )Rattle\.(?P<crate>\w+)\.(?P<in>specs|proofs)\.(?P<path>[\w.]+?)"
    r"(?:\.\{(?P<names>[^{}]*)\}| as (?P<alias>\w+))?(?P<end>;?)$"
)


def rewritten(path, text, said):
    """Returns the text with its import lines rewritten, and adds to said what has to be done by hand."""
    out = []
    _, own, part = path.split("/")[:3]
    for line in text.split("\n"):
        it = USE.match(line)
        crate, module = (it["crate"], it["path"]) if it else ("", "")
        if it and it["in"] == "proofs":
            module = {law: old for (c, old), law in RENAMED.items() if c == crate}.get(module, module)
        law = RENAMED.get((crate, module), module)
        if module not in MOVED.get(crate, {}) or not os.path.isfile(f"crates/{crate}/proofs/{law.replace('.', '/')}.antt"):
            out.append(line)
            continue
        paths = {"specs": f"Rattle.{crate}.specs.{module}", "proofs": f"Rattle.{crate}.proofs.{law}"}
        stays = set(MOVED[crate][module].split())
        if it["names"] is not None:
            named = [n.strip() for n in it["names"].split(",")]
        else:
            alias = it["alias"] or module.split(".")[-1]
            named = sorted(set(re.findall(r"(?<![\w.])" + alias + r"\.([^\s(){}.;,]+)", text.replace(line, ""))))
        kinds = {to: [n for n in named if (n.split(" as ")[0] in stays) == (to == "specs")] for to in ("specs", "proofs")}
        if kinds["proofs"] and part == "src":
            said.append(f"{path}: a contract names laws: {crate} {module}: {', '.join(kinds['proofs'])}")
        if it["names"] is None:
            if kinds["specs"] and kinds["proofs"]:
                said.append(f"{path}: an alias of a module of which both kinds are used: {line.strip()}")
                out.append(line)
            else:
                to = "specs" if kinds["specs"] else "proofs"
                out.append(line.replace(paths[it["in"]], paths[to]))
            continue
        for to in ("specs", "proofs"):
            if kinds[to]:
                out.append(f"{it['lead']}{paths[to]}.{{{', '.join(kinds[to])}}}{it['end']}")
    if part == "specs":
        said += [f"{path}: specs/ names proofs/ of its own crate: {it.strip()}" for it in out if f"use Rattle.{own}.proofs." in it]
    return "\n".join(out)


def main():
    said, changed = [], 0
    for form in ("specs/**/*.antt", "proofs/**/*.antt", "src/**/*.rt"):
        for path in sorted(glob.glob(f"crates/*/{form}", recursive=True)):
            with open(path, encoding="utf-8", newline="") as f:
                text = f.read()
            new = rewritten(path, text, said)
            if new != text:
                changed += 1
                with open(path, "w", encoding="utf-8", newline="") as f:
                    f.write(new)
    for it in said:
        print(it)
    print(f"{changed} files changed, {len(said)} left to do by hand")
    sys.exit(1 if said else 0)


main()
