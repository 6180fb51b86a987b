#!/usr/bin/env bash
# Lists, for the repository in the folder given (this one, without one), the lines of src/ that docs/DESIGN-PASS.md counts.
set -u
cd "${1:-$(dirname "${BASH_SOURCE[0]}")/..}" || exit 1
look() { grep -rnE "$1" crates/*/src --include=*.rt | grep -vE '^crates/[a-z_]*tests/'; }
title() { printf '\n== %s\n' "$1"; }

title '1a enums'
look '^ *(pub(\([a-z]+\))? )?enum '
title '1b numbers for kinds or refusals'
look '=> \([0-9]+, |number: u8'
title '1c a number that stands for none'
look '== text\.len\(\)|^ *text\.len\(\)$'
title '1d results and options taken apart by hand, or dropped'
look 'Ok\(\(\)\) =>|let Ok\(|if let Err|Ok\([a-z]+\) => (Some|Ok|Answer)|Some\([a-z]+\) => Some|let _ = |unwrap_or\(0\)|== text\.len\(\) \{'
title '2 functions of one name in two places, and pairs of opposites'
look '^ *(pub(\([a-z]+\))? )?fn ' | sed -E 's/.*fn ([a-z_]+).*/\1/' | sort | uniq -d | grep -vE '^(fmt|new|from|try_from|read|write|save|restore|depth|spare|put|take|held|spill_amount|fill_amount|overflowed|underflowed)$'
look 'fn (spill_size|fill_size|note_overflow|note_underflow|with_bit|without_bit|advanced_mask|retreated_mask|advance|retreat|read_pair|pair_front)\b'
title '3 loops'
look '^ *(for|while|loop)\b.*\{'
title '4 conversions, comparisons and printing by hand'
look 'fn (refusal|acceptance|reading|zero|get|is_same|both|room_of|capacity_of|read_number|read_call|read_flat|read_setup|words_text|frame_line|frame_lines|outs_line)\b|impl fmt::Display|fn new\([a-z]+: u32(, [a-z]+: u32)?\)'
title '5a clauses in three functions or more'
grep -rhoE '^\s*(requires|ensures)( [a-z_]+)? \{.*\}' crates/*/src --include=*.rt | sed -E 's/^\s*(requires|ensures)( [a-z_]+)? //; s/beside\.old/beside/g; s/ring\.old/ring/g' | sort | uniq -c | sort -rn | awk '$1 >= 3'
title '5b parameters that go together in three functions or more'
grep -rhoE '(heap|alloc): Global, [a-z]+: [^,)]*, requests: &\[u8\]|(heap|alloc): Global, text: &mut String' crates/*/src --include=*.rt | sort | uniq -c | awk '$1 >= 3'
for words in 'text: &mut String' 'beside: (&mut )?F,' 'requests: &\[u8\]'; do printf '%s  %s\n' "$(look "$words" | wc -l)" "$words"; done
title '6 buffers with a length beside, fixed tables'
look '^ *len: usize|: \[[A-Za-z0-9]+; [0-9]+\],|\}; [0-9]+\]'
title '7 switches on what to do'
look 'match (call|setup|setup\.policy|store)\b|\bdyn |Box<|: fn\('
