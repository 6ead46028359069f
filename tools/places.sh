#!/usr/bin/env bash
# Counts the places of each point of docs/DESIGN-PASS.md in crates/*/src of the repository at DIR (the present folder, if none is given).
# places.sh [DIR] prints a line for each count; places.sh DIR POINT prints the places of that count.
set -uo pipefail
dir=${1:-.}
cd "$dir" || exit 1
src=$(ls -d crates/*/src)
# Each count: its name, and the command that lists its places.
own_enums() { grep -rnE '^(pub )?enum ' $src; }
number_fields() { grep -rnE '^    pub number: u8' $src; }
number_answers() { grep -rnE -- '-> u8( |$)' $src | grep -vE 'fn (digit|tens|value|inside|byte_at)\('; }
number_parameters() { grep -rnE '[( ]number: u8[,)]' $src; }
numbers_of_refusals() { grep -rnoE 'refusal::[A-Z_]+\b|[( ]number != 0' $src; }
flags_with_a_value() { grep -rnE 'let mut (going|good|found|more) = (true|false)|^    (pub )?(befores|afters|more|kind): ' $src; }
same_names() {
    grep -roE '^ *(pub )?(fn|extern "C" fn) [a-z_0-9]+' $src | sed -E 's/(pub |extern "C" )//g; s/: +fn /: /' | sort -u |
        awk -F': *' '{ n[$2]++; f[$2] = f[$2] " " $1 } END { for (k in n) if (n[k] > 1) print k ":" f[k] }' | sort
}
same_shapes() {
    local copy
    copy=$(mktemp -d)
    for d in $src; do mkdir -p "$copy/$d"; cp "$d"/*.rt "$copy/$d/"; done
    python3 - "$copy" <<'PY'
import re, sys, glob, collections
# functions whose bodies are the same once names and numbers are blanked
shapes = collections.defaultdict(list)
for f in sorted(glob.glob(sys.argv[1] + '/crates/*/src/*.rt')):
    text = open(f).read()
    for m in re.finditer(r'^( *)(?:pub )?(?:extern "C" )?fn (\w+)', text, re.M):
        end = re.search(r'^' + m.group(1) + r'\}', text[m.start():], re.M)
        whole = text[m.start():m.start() + end.end()] if end else ''
        body = re.search(r'^' + m.group(1) + r'\{\n(.*)', whole, re.M | re.S)
        lines = [l for l in (body.group(1) if body else '').split('\n') if l.strip() and not l.strip().startswith('//')]
        if len(lines) > 4:
            key = re.sub(r'\b[A-Za-z_]\w*\b|\b\d\w*\b', 'x', '\n'.join(l.strip() for l in lines))
            shapes[key].append(f.split('/crates/')[1].replace('/src/', '/') + ':' + m.group(2))
for key, places in shapes.items():
    if len(places) > 1:
        print(' ~ '.join(places))
PY
    rm -rf "$copy"
}
loops() { grep -rnE '^ *(loop|while .*) \{$' $src; }
counters() { grep -rnE '^ *([a-z]+) \+= 1;|^ *j = k;' $src; }
compared_by_hand() { grep -rnE '\.0 (==|!=|<|<=) [a-z_.]+\.0' $src; }
zeros_by_hand() { grep -rnE '(Date|Volume|Rate|Delay|Level|Edition|Rule|Mode|Strict)\(0\)' $src; }
printed_by_hand() { grep -rnE '^fn (digit|tens)|tens\(|digit\(' $src; }
refusals_by_ladder() { grep -rnE -A1 '^ +if .* \{$' $src | grep -E 'return false;$'; }
clauses_of_three() {
    grep -rhoE '^ *(requires|ensures)( [a-z_0-9]+)? \{ .* \}' $src | sed -E 's/^ *(requires|ensures)( [a-z_0-9]+)? /\1 /; ' |
        sort | uniq -c | awk '$1 >= 3' | sort -rn
}
counts_beside() { grep -rnE '^ *(pub )?(mut )?(count|m|n|rate_count|delay_count|classes): usize,|[( ](count|m|n): usize[,)]' $src; }
arrays_by_value() { grep -rnE '[( ][a-z]+: \[[A-Za-z0-9]+; [^]]*\][,)]|^ +[a-z]+: \[[A-Za-z0-9]+; [^]]*\],$' $src; }
switches() { grep -rnE 'match (kind|held)' $src; }
answer_files() { find crates -path '*/out' -prune -o -path '*/proofs/*' \( -name Answers.antt -o -name Proof.antt \) -print | sort; }
proof_lines() { find crates -path '*/out' -prune -o -path '*/proofs/*' -name '*.antt' -print0 | xargs -0 cat; }
all='own_enums number_fields number_answers number_parameters numbers_of_refusals flags_with_a_value same_names same_shapes loops counters compared_by_hand zeros_by_hand printed_by_hand refusals_by_ladder clauses_of_three counts_beside arrays_by_value switches answer_files proof_lines'
if [ $# -gt 1 ]; then "$2"; exit; fi
for name in $all; do printf '%-22s %s\n' "$name" "$("$name" | wc -l)"; done
