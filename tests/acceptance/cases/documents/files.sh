cd "$1"
# Those that are read.
printf '[{"ph":"X","name":"a","ts":1,"dur":2}]' > array.json
printf '[]' > array_of_none.json
printf '{"otherData":1,"traceEvents":[{"ph":"X","name":"a","ts":1,"dur":2},{"ph":"X","name":"a","ts":1,"dur":2}],"metadata":{}}' > object.json
printf ' { "traceEvents" : [ {"ph":"X","name":"a","ts":1,"dur":2} ] } ' > object_with_blanks.json
printf '{"traceEvents":5,"traceEvents":[{"ph":"X","name":"a","ts":1,"dur":2}]}' > last_of_two_members.json
printf '[{"ph":"X","name":"a","ts":1,"dur":2}' > no_bracket.json
printf '[{"ph":"X","name":"a","ts":1,"dur":2},' > no_bracket_but_a_comma.json
printf '[{"ph":"X","name":"a","ts":1,"dur":2} , ' > comma_and_blanks.json
printf '[{"ph":"X","name":"a","ts":1,"dur":2}],' > comma_behind_the_bracket.json
printf '[{"ph":"X","name":"a","ts":1,"dur":2}] , ' > comma_and_blanks_behind_it.json
printf '[' > bracket_alone.json
printf '[,' > bracket_and_comma.json
printf ' [ \t\r\n' > bracket_and_blanks.json
# Those that are refused.
printf '' > nothing.json
printf ' ' > blanks.json
printf '[{"ph":"X","name":"a","ts":1,"dur":2},]' > comma_and_bracket.json
printf '[{"ph":"X","name":"a","ts":1,"dur":2},,' > two_commas.json
printf '[{"ph":"X","name":"a","ts":1,"dur":2}]]' > two_brackets.json
printf '[{"ph":"X","na' > cut_event.json
printf '[{' > cut_brace.json
printf '{"traceEvents":[{"ph":"X","name":"a","ts":1,"dur":2}' > cut_object.json
printf '{"traceEvents":[{"ph":"X","name":"a","ts":1,"dur":2}]},' > comma_behind_an_object.json
printf '{"traceEvents":[{"ph":"X","name":"a","ts":1,"dur":2}],' > comma_for_a_member.json
printf '\357\273\277[]' > byte_order_mark.json
printf '[\377]' > no_text.json
printf '["\303' > cut_letter.json
printf ',' > comma_alone.json
printf '5' > number.json
printf 'null' > null.json
printf '"[]"' > text.json
printf '{}' > object_of_none.json
printf '{"traceEvents":5}' > member_that_is_a_number.json
printf '{"traceEvents":"[]"}' > member_that_is_a_text.json
printf '{"traceEvents":{}}' > member_that_is_an_object.json
printf '{"traceEvents":[{"ph":"X","name":"a","ts":1,"dur":2}],"traceEvents":null}' > last_of_two_members_is_none.json
# Arrays and objects that nest 127 deep, and 128.
repeat() { yes "$1" | head -n "$2" | tr -d '\n'; }
printf '%s%s' "$(repeat '[' 127)" "$(repeat ']' 127)" > arrays_127_deep.json
printf '%s%s' "$(repeat '[' 128)" "$(repeat ']' 128)" > arrays_128_deep.json
printf '[{"ph":"X","name":"a","ts":1,"dur":2,"k":%s1%s}]' "$(repeat '{"k":' 125)" "$(repeat '}' 125)" > objects_127_deep.json
printf '[{"ph":"X","name":"a","ts":1,"dur":2,"k":%s1%s}]' "$(repeat '{"k":' 126)" "$(repeat '}' 126)" > objects_128_deep.json
