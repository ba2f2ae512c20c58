#!/usr/bin/env bash
# Each rule stands in the enum, in the tables of names and codes, and in docs/RULES.md, and all have one order. Where RULES.md names a
# rule's predicate, it is a definition of some specs/ and stands in some src/ or as its row of a table, and what is said to try it is there.
cd "$(dirname "$0")/../.." || exit 1
rules=$(ls crates/*/src/rule.rt)
home=${rules%/src/rule.rt}
listed() { grep -oE "$1" "$2" | grep -oE '[UAGSPT][0-9]+' | awk '!seen[$0]++' | tr '\n' ' '; }
enum=$(sed -n '/^pub enum Rule/,/^}/p' "$rules" | grep -oE '^ +[UAGSPT][0-9]+,' | tr -d ' ,' | tr '\n' ' ')
names=$(listed '^name_of [UAGSPT][0-9]+ ' "$home/specs/RuleNames.antt")
codes=$(listed '^code_of [UAGSPT][0-9]+ ' "$home/specs/RuleCodes.antt")
table=$(listed '^\| [UAGSPT][0-9]+ \|' docs/RULES.md)
# what stored runs print; kdc_replay has it in hexadecimal digits
printed=$(cat crates/*/stdout; printf '%b' "$(sed -n 's/^out \([0-9a-f]*\)$/\1/p' crates/kdc_replay/stdout | sed 's/../\\x&/g')")
status=0
fault() { echo "rules: $*"; status=1; }
[ -n "$enum" ] || fault "no variant of Rule was found in $rules"
for list in names codes table; do
    [ "${!list}" = "$enum" ] || fault "the order or the rules of $list differ from the enum's: ${!list}"
done

decided=0
while IFS='|' read -r _ rule _ _ _ predicate tries _; do
    rule=${rule// /}
    [ -n "${predicate// /}" ] || continue
    decided=$((decided + 1))
    name=$(grep -oE '`[a-z0-9_]+`' <<<"$predicate" | head -n 1 | tr -d '`')
    [ -n "$name" ] || { grep -q '^ as [UAGSPT]' <<<"$predicate" || fault "$rule: no predicate in: $predicate"; continue; }
    grep -rqE "^ *(abbrev |unfoldable )?pub $name :" crates/*/specs || fault "$rule: $name is no definition"
    grep -rqw "$name" --include='*.rt' crates/*/src || grep -rqE "\($rule, [^)]*\b$name\b" crates/*/specs ||
        fault "$rule: $name is neither in a file of src/ nor in a row of a table"
    [ -n "${tries// /}" ] || fault "$rule: nothing tries it"
    if grep -q 'stored run' <<<"$tries"; then
        grep -qE "^(deny|refused|none|as|tgs|self|proxy) $rule$" <<<"$printed" || fault "$rule: no stored run prints it"
    fi
    for edit in $(grep -oE 'edits? `[^;]*' <<<"$tries" | sed 's/ of `[a-z_]*`//g' | grep -oE '`[a-z0-9_]+`' | tr -d '`'); do
        ls crates/*/must-fail/"$edit.edit" >/dev/null 2>&1 || fault "$rule: there is no edit $edit"
    done
    for test in $(grep -oE 'tests? `[^;]*' <<<"$tries" | sed 's/ of `[a-z_]*`//g' | grep -oE '`[a-z0-9_]+`' | tr -d '`'); do
        grep -rqw "fn $test" --include='*.rt' crates/*/src || fault "$rule: there is no test $test"
    done
done < <(grep -E '^\| [UAGSPT][0-9]+ \|.*\|.*\|.*\|.*\|.*\|$' docs/RULES.md | awk -F'|' 'NF == 8')
[ $status -eq 0 ] && echo "rules: $(wc -w <<<"$enum") rules, in one order in the enum, the names, the codes and docs/RULES.md; $decided of them with a predicate and what tries it"
exit $status
