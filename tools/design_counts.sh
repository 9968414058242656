#!/bin/sh
# Counts, in src/ of every crate, the places that docs/DESIGN-PASS.md speaks of. Run it at the top of a checkout; -v lists the places.
list=false
[ "$1" = -v ] && list=true

count() {
    found=$(grep -nE "$2" crates/*/src/*.rt)
    printf '%-58s %d\n' "$1" "$(printf '%s' "$found" | grep -c .)"
    $list && [ -n "$found" ] && printf '%s\n' "$found"
    return 0
}

count '1a flags, numbers of refusals and verdicts in fields' '^    pub(\(crate\))? (refusal|number|right|more|l_unlimited|w_unlimited|unlimited|verdict): '
count '1b own enums' '^(pub(\(crate\))? )?enum '
count '1c searches that answer the end for none' 'ensures .*LowestOr'
count '1d flags beside a value among parameters' '(\(|, |^    )(some|[a-z_]*unlimited): bool'
count '1e functions that answer a number for a refusal' 'ensures .*FirstOf .* result 0 }'
count '2 twins, by their names' '(fn|struct) (lesser|lesser_limit|greater|deeper|analyse_small|analyse_large|least_delay|most_delay|delay_limit|delay_bound|delays_beyond|delays_right|down|up|round_down|round_up|too_short|wrong_lists|EventField|DelayField|event_and_comma|delay_and_comma|delay_and_end|refused|unread)\b'
count '3 loops by while or loop' '^ *(while|loop)( |$)'
count '4a comparisons, choices and conversions written by hand' 'fn (lesser|lesser_limit|greater|deeper|below|prior|left|as_numbers|begins_with|digit_at|digit|plain|numeral_of|meets|handed_on|most_delay|least_delay|none_left|cut_off|capped|difference|step_outside|both_known|too_short|wrong_lists)\b'
count '4b structs and enums without PartialEq' '^#\[derive\((Clone, Copy|Drop)\)\]'
count '5 functions that take the rule lists one by one' '^    sources: &\[usize\],'
count '6a arrays in the stack' '\[[^]]*; [0-9A-Z_:]+\]'
count '6b counts beside an array' '^    pub count: usize'
count '7 tables of functions, switches on a step' 'dyn |fn\(|[^a-zA-Z]Fn(Once|Mut)?\('
printf '%-58s %d\n' '8a answer files' "$(find crates -name Answers.antt -not -path "*/out/*" | wc -l)"
printf '%-58s %d\n' '8b lines of answers' "$(find crates -name Answers.antt -not -path "*/out/*" -exec cat {} + | wc -l)"
printf '%-58s %d\n' '8c invariant files' "$(find crates -name Invariants.antt -not -path "*/out/*" | wc -l)"
printf '%-58s %d\n' '8d lines of laws (proofs/*.antt)' "$(cat crates/*/proofs/*.antt | wc -l)"
