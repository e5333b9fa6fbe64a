#!/bin/sh
# Counts the lines of src/ in which a place of one of the eight points of docs/DESIGN-PASS.md may stand.
# Usage, at the top of the repository: tools/places.sh [-v] [COMMIT]. With -v the lines are printed too; without a commit it reads the last one.
if [ "$1" = -v ]; then
    lines=yes
    shift
fi
at=${1:-HEAD}

count() { # WHAT PATTERN
    found=$(git grep -nE "$2" "$at" -- 'crates/*/src/*.rt')
    echo "$1: $(printf '%s' "$found" | grep -c '')"
    [ -z "$lines" ] || printf '%s\n' "$found" | sed "s/^$at:crates./    /"
}

count '1 enums' '^ *(pub(\([a-z]*\))? )?enum '
count '1 numbers for kinds or refusals' '(layer|row|verdict|answer|end|miss): (u32|\(u32)|(Verdict|Refused)\(u32\)|\), u32\)|letter: char'
count '1 values that stand for none' 'unwrap_or\(0\)|\(0, 0|=> 0,'
count '2 functions' '^ *(pub(\([a-z]*\))? )?(final |const |extern "C" )*fn '
count '3 loops' '^ *(while|for|loop)\b'
count '4 orders, conversions, copies and prints by hand' 'fn (number|letter|is_before|before|digits|same|worked)\b|Job \{ \.\.|JobId \{$|= TaskCounts \{$|(task|number) != |^[^/]* as (u8|u16|u32|u64|usize)\b'
count '6 arrays' '\[[A-Za-z0-9:_ {},]+; [A-Z0-9][A-Z0-9_]*\]'
count '6 lengths beside them' '\b(len|count|rows): usize'
count '7 switches and tables' 'match (call|self|letter|\()|dyn |fn\(|Box<|impl Fn'
echo '5 clauses of the same words in three places or more:'
git grep -hE '^ *(requires|ensures)' "$at" -- 'crates/*/src/*.rt' | sed -E 's/^ *(requires|ensures)\*? *[a-z_]* *\{ //; s/ *\};?$//' | sort | uniq -c | sort -rn | awk '$1 > 2'
answers=$(git ls-tree -r --name-only "$at" -- crates | grep 'Answers.antt$')
lemmas=$(git ls-tree -r --name-only "$at" -- crates | grep 'proofs/[A-Za-z]*.antt$')
echo "8 answers: $(for f in $answers; do git show "$at:$f"; done | grep -cE '^pub [^ ]+ : goal'), in $(echo "$answers" | wc -w) files; lines of lemmas: $(for f in $lemmas; do git show "$at:$f"; done | wc -l)"
