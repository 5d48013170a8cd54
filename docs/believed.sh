#!/bin/sh
# The files that have to be believed, in reading order, with their lines (wc -l: comments, imports and blank lines
# counted).
cd "$(dirname "$0")/../crates" || exit 1
echo '1 to 7: the definitions that the promises of the public functions use'
wc -l flow/specs/RefusalNumbers.antt flow/specs/Flow.antt wire/specs/BigEndian.antt scalar/specs/Scalars.antt \
    scalar/specs/Answers.antt scalar/specs/Refusals.antt record/specs/Model/Kinds.antt record/specs/Model/Items.antt \
    record/specs/Model/Containers.antt record/specs/Model/Reading.antt record/specs/Model/Rows.antt record/specs/Model/Claims.antt \
    record/specs/Model/Shortest.antt record/specs/Model/Answers.antt record/specs/Model/Calls.antt \
    reader/specs/Answers.antt writer/specs/Answers.antt hessian/specs/Packed.antt
echo '8: the grammar'
wc -l flow/specs/Grammar.antt scalar/specs/Grammar.antt record/specs/Model/Grammar.antt
echo 'the demands, and their terms'
wc -l record/specs/Theorems/Demands.antt hessian/specs/Demands.antt record/specs/Model/Terms.antt \
    record/specs/Model/Same.antt record/specs/Model/Hops.antt
echo '9: the holdings file'
wc -l holdings/specs/Files.antt holdings/specs/Answers.antt holdings_file/specs/Answers.antt hessian/specs/Holdings.antt
echo 'its theorems, and their terms'
wc -l holdings/specs/Theorems.antt holdings/specs/Terms.antt hessian/specs/HoldingsTheorems.antt
