#!/bin/sh
# Counts the places in src/ (tests apart) that docs/DESIGN-PASS.md speaks of, by their spelling.
# Run it at the top of a checkout; with -l it lists the lines.
places() {
    printf '%-3s %3d  %s\n' "$1" "$(printf '%s\n' "$src" | xargs grep -nE "$2" | wc -l)" "$2"
    if [ "$list" = -l ]; then printf '%s\n' "$src" | xargs grep -nE "$2"; fi
}
list=$1
src=$(git ls-files 'crates/*/src/*.rt' | grep -v _tests/)
places 1a '^(pub )?enum '
places 1b 'Option<Refusal>|fn code\(|fn fault\(self'
places 1c '\b(kind|layer|number|code): u8|kind (==|>=|>) [0-9]|match kind'
places 1d 'let mut [a-z_]+ = (true|false)'
places 2a '^(pub )?struct '
places 2b '^impl'
places 3a 'for [a-z_]+ in [^{]*\.\.'
places 3b '\[[a-z_]+( [-+] [0-9]+)?\]'
places 4a ' as (u8|u16|u32|u64|usize|char)\b'
places 4b 'fn (code|fault|fields|of|fresh|raw|within|word|fields_at|formula_bytes|trailer|print_stop)\('
places 5a '(requires|ghost)[^{]*\{.*×'
places 5b 'requires'
places 6a 'Vec<|: \[[A-Za-z0-9]+; ?[0-9]+\]|&mut \[u8\]'
places 7a 'match (half\(|kind|self\.kind)|dyn |\bfn\('
