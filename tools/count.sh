#!/usr/bin/env bash
# Counts what docs/DESIGN-PASS.md counts, in the checkout that it is run in: one line a point, `-l` with the lines themselves.
src() { find crates -path '*/src/*.rt' -not -path '*/out/*' | sort; }
show() {
    echo "$1: $(wc -l <<<"$2")"
    if [ "${list:-}" = 1 ]; then sed 's/^/    /' <<<"$2"; fi
}
[ "${1:-}" = -l ] && list=1
show '1 enums, flags, numbers' "$(src | xargs grep -nE '^(pub(\([a-z]+\))? )?enum |^pub const NO_|^    (pub(\([a-z]+\))? )?[a-z_]+: bool,$|(number|kind): u8|-> bool$|-> anyhow::Result<bool>|Err\(Refusal::in_')"
show '2 names that twins have' "$(src | xargs grep -nE '^ *(pub(\([a-z]+\))? )?(fn (refused|in_plan|in_trace|number|small|bad_hop|busy|share|load|room|check_room|eligible|eligible_from|check_arrival|begin|add_hops|add_parties|add_lines|hop_text|party_text|line_text|run_one|run_two|run_three|plan_of|trace_of|admit|admits|arrival|holds|trial)\b|(struct|enum) (Edf|Sp|Make|Kind|Labels|Trails|Crossings|Day|Draft|Plan|Follow|Trace)\b|impl Scheduler for (Edf|Sp)\b)')"
show '3 loops' "$(src | xargs grep -nE "^ *('[a-z]+: )?(for|while|loop) ")"
show '3 of these, by an index or a count' "$(src | xargs grep -nE "^ *('[a-z]+: )?(while|for [a-z_]+ in [^ ]*\.\.)|\.enumerate\(\)|^ *[a-z]+ (\+=|= [a-z]+\.saturating_add\()")"
show '4 arms on an Option or a Result' "$(src | xargs grep -nE '(None|Err\([^)]*\)) => ')"
show '4 conversions' "$(src | xargs grep -nE 'fn (number|of|kind_of|small|place_of|is)\(|a < b \|\||as u64|as_str\(\)\.lines|unreachable\(\)')"
show '5 clauses that stand three times or more' "$(src | xargs grep -hoE '(requires|ensures)( [a-z]+)? \{ [^}]*\}' | sed -E 's/(requires|ensures)( [a-z]+)? //' | sort | uniq -c | awk '$1>=3')"
show '6 arrays, counts and Vecs' "$(src | xargs grep -nE '^    (pub(\([a-z]+\))? )?[a-z_]+: (\[.*; ?[0-9]+\]|usize|Vec<)')"
show '7 arms on a make or a command' "$(src | xargs grep -nE '^ *(Make|Kind)::[A-Z][a-z]+ => self|verb == ')"
echo "8 answers: $(find crates -path '*/proofs/*' -name '*.antt' -not -path '*/out/*' | xargs grep -hE '^[^ ]+ : goal\.|^pub [^ ]+ : goal\.|^abbrev pub [^ ]+ : goal\.' | wc -l) in $(find crates -path '*/proofs/*' -name '*.antt' -not -path '*/out/*' | wc -l) files of $(find crates -path '*/proofs/*' -name '*.antt' -not -path '*/out/*' | xargs cat | wc -l) lines"
