#!/bin/sh
# Shows candidates for forms of an older Rattle in src/, point by point: docs/DESIGN-PASS.md says what each point is and what was found.
# tools/older_forms.sh [POINT]; duplicates, where it is on the PATH, lists repeated runs of lines.
cd "$(dirname "$0")/.." || exit 1
show() { grep -rnE "$1" crates/*/src; }
point() {
    echo "== $1"
    case $1 in
    1)
        show '^(pub )?enum '
        show '[)] -> (bool|u8)( \{)?$'
        show '[(,] *[a-z_]+: bool'
        show '=> [0-9]+,$'
        ;;
    2)
        show '^ *(pub(\([a-z]+\))? )?fn '
        copies=$(mktemp -d)
        for file in $(find crates -path '*/src/*.rt'); do
            mkdir -p "$copies/$(dirname "$file")"
            cp "$file" "$copies/${file%.rt}.rs"
        done
        ! command -v duplicates >/dev/null || duplicates --most 60 --min-lines 5 --repo "$copies"
        rm -rf "$copies"
        ;;
    3) show '^ *while |for [a-z_]+ in .*\.\.|\.enumerate\(\)|(\+|-)= 1;' ;;
    4)
        show 'fn (number|name|words|sign_of|pen_code|call_of|done|answered|named|changed|as_held|right_half|same|is_spelled|reads|characters_of|[a-z]+_of|[a-z_]*hex[a-z_]*|print_[a-z]+)\b'
        show '(/|%) 256\) as u8'
        show '^pub const PLAIN'
        ;;
    5) grep -rhoE '(requires|ensures) [a-z_]* ?\{.*' crates/*/src | sort | uniq -c | sort -rn | awk '$1 > 1' ;;
    6)
        show '\[[A-Za-z0-9]+; [A-Z_0-9]+\]'
        show '(len|count|used|width): usize,$'
        show 'low < high'
        ;;
    7) show '^ *match (call|operation|edit|removal|motion|stretch|action|\(modifiers, key\)|event|verb|key) \{' ;;
    8) for crate in crates/*/; do [ ! -d "$crate/proofs" ] || echo "$crate $(find "$crate/proofs" -name '*.antt' -exec cat {} + | wc -l)"; done ;;
    esac
}
for n in ${1:-1 2 3 4 5 6 7 8}; do point "$n"; done
