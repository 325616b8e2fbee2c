#!/bin/bash
# The places that docs/DESIGN-PASS.md counts, over the sources of the checkout: `tools/places.sh` counts, `tools/places.sh POINT` lists.
set -euo pipefail
cd "$(dirname "$0")/.."

sources() { find crates/*/src -name '*.rt' | sort; }

lines() { sources | xargs grep -nE "$1" || true; }

functions() { sources | xargs grep -hoE '^ *(pub(\([a-z]+\))? )?(const )?(extern "C" )?fn \w+' | sed -E 's/.*fn //'; }

# 1: enums; flags and numbers beside a value; numbers of refusals; functions of such numbers; numbers for kinds and starts; a number for none
point1() {
    lines '^ *(pub(\([a-z]+\))? )?enum '
    lines '^ *(pub )?(number|inside|negative|more): (u8|bool),'
    grep -nE '^pub const [A-Z_]+: u8 = [0-8];' crates/answers/src/*.rt || true
    lines 'fn \w*(number|refused)\w*\(.*(-> u8$|number: u8\))|coded: u8'
    lines '\b(kind|start|letter): u(8|32)\b'
    lines '_ => u32::MAX'
}

# 2: names that two functions have, and names that differ in the kind, the band, the law or the direction alone
point2() {
    functions | sort | uniq -d
    functions | sort -u | sed -E 's/encoder|decoder/CODER/; s/(en|de)cod(e|ing)/CODE/; s/low|high/BAND/; s/quant[lh]/quantBAND/; s/pcm[ua]/PCM/
        s/filte[pz]/filteX/; s/uppol[12]/uppolX/; s/unpack|pack/PACK/; s/from_bytes|to_bytes/BYTES/' | sort | uniq -d
}

# 3: loops that are no `for`
point3() { lines '^ *(while|loop) '; }

# 4: equality, copying, conversion and printing by hand, and what the library has as a method
point4() {
    lines 'fn (least|clamp|saturate|plus|magnitude|absolute|is_plain|is_word|wide|sample|bits|letter_of|start_of|one_if|clear|copy|keep|untouched|size_of|by_sign|signed_by|signed_gain|has_byte|has_digit|place_of|fold|taken_in|within)\b'
}

# 5: facts that three or more contracts ask, and functions of five or more parameters
point5() {
    sources | xargs grep -hE '^ *requires' | sed -E 's/^ *requires \w* ?\{ ?//; s/ \}$//' | sed 's/) × (/\n/g; s/^(//; s/)$//' | sort | uniq -c | sort -rn | awk '$1 > 2'
    sources | xargs perl -0ne 'while (/fn (\w+)(<[^>]*>)?\(([^{]*?)\)\s*(->|\n|\{)/g) { my ($name, $list) = ($1, $3); my $n = grep { /\S/ } split /,/, $list; print "$ARGV: $name takes $n\n" if $n > 4 }'
}

# 6: arrays of a fixed size
point6() { lines '\[0([iu](8|16|64))?; '; }

# 7: functions that take a function, and switches on a name
point7() { lines 'Fn(Once|Mut)?\(|dyn |match name'; }

# 8: files and lines of proofs, and lines of code
point8() {
    find crates/*/proofs -name Answers.antt
    find crates/*/proofs -name Invariants.antt
}

if [ $# = 1 ]; then
    "point$1"
    exit
fi
for point in 1 2 3 4 5 6 7 8; do
    echo "$point: $("point$point" | wc -l)"
done
echo "lines of answers and invariants: $(point8 | xargs cat | wc -l), of lemma files: $(cat crates/*/proofs/*.antt | wc -l), of code: $(sources | xargs cat | wc -l)"
