# Inputs of the greatest sizes, and of one more. cases/check sources it.

# ---- parts of an input

# A text so many times.
times() { printf "%0$1d" 0 | sed "s/0/$(printf '%s' "$2" | sed 's/[&\\/]/\\&/g')/g"; }

# So many lines with a text, a number from 0, and a text.
numbered() {
    local number
    for ((number = 0; number < $1; number++)); do printf '%s\n' "$2$number$3"; done
}

# So many times the same line.
lines() { yes "$2" | head -n "$1"; }

# So many spaces.
spaces() { head -c "$1" /dev/zero | tr '\0' ' '; }

# Runs the program on standard input, which it accepts: of what it writes the first line is stated, beside the status.
accept() {
    local name=$1 status=$2 ended
    printf '%s\n' "$3" > "$stated"
    timeout "$seconds" "$program" replay > "$folder/whole"
    ended=$?
    head -n 1 "$folder/whole" > "$wrote"
    if [ "$ended" -eq "$status" ] && cmp -s "$wrote" "$stated"; then passed=$((passed + 1)); else differs "$name" "$ended" "$status"; fi
}

# Runs the program on standard input, which has this fault.
refuse_input() { run_text "$1" 3 "fault line $2"$'\n' replay; }

settled='settle 1 moment 0'
full='{"do":"lab","kind":"full"}'
node_a='{"do":"node","name":"a"}'
node_b='{"do":"node","name":"b"}'
link='{"do":"link","a":"a","b":"b"}'
settle='{"do":"settle"}'
get='{"do":"get","node":"a","key":"x"}'
turn='{"do":"turn","lane":0,"at":0}'
up='{"do":"up","link":0}'
silent='{"do":"settle","show":"none"}'
set_key='{"do":"set","node":"a","version":1,"hex":"","key":"'
own_key='{"do":"own","node":"a","key":"k",'

# ---- the length of a line, a key, a value, a script; the depth of lists

# A settle in so many bytes, and behind it what is given.
settle_in() { printf '%s' '{"do":"settle"'; spaces "$(($1 - 15))"; printf '%s' "}$2"; }

accept "a line of 65,536 bytes" 0 "$settled" < <(echo "$lab"; settle_in 65536 $'\n')
refuse_input "a line of 65,537 bytes" "2 number 11 TooLong" < <(echo "$lab"; settle_in 65537 $'\n')
accept "a line of 65,536 bytes with its CR" 0 "$settled" < <(echo "$lab"; settle_in 65535 $'\r\n')
refuse_input "a line of 65,537 bytes with its CR" "2 number 11 TooLong" < <(echo "$lab"; settle_in 65536 $'\r\n')
accept "a blank line of 100,000 bytes" 0 "$settled" < <(spaces 100000; echo; echo "$lab")
refuse_input "a blank line of 100,000 bytes, a laboratory, and no command" "3 number 4 UnknownCommand" \
    < <(spaces 100000; echo; echo "$lab"; echo '{"do":"fly"}')
refuse_input "65,537 bytes that are no JSON" "2 number 2 BadJson" < <(echo "$lab"; times 65537 x)

# A settle with a field that is a list nested so deep in it.
nested() { printf '%s' '{"do":"settle","x":'; times "$1" '['; times "$1" ']'; echo '}'; }

refuse_input "lists nested 126 deep in an object" "2 number 6 BadField" < <(echo "$lab"; nested 126)
refuse_input "lists nested 127 deep in an object" "2 number 2 BadJson" < <(echo "$lab"; nested 127)
refuse_input "a number of 40 digits" "2 number 6 BadField" < <(echo "$lab"; echo '{"do":"tick","to":'"$(times 40 1)"'}')

# A node, and a set of a key of so many bytes.
key_of() { echo "$lab"; echo "$node_a"; echo "$set_key$(times "$1" k)"'"}'; }

accept "a key of 128 bytes" 0 "$settled" < <(key_of 128)
refuse_input "a key of 129 bytes" "3 number 11 TooLong" < <(key_of 129)

# A node, and an own of a value: the field and its text.
value_of() { echo "$lab"; echo "$node_a"; echo "$own_key\"$1\":\"$2\"}"; }

accept "4,096 bytes in hexadecimal" 0 "$settled" < <(value_of hex "$(times 4096 0f)")
refuse_input "4,097 bytes in hexadecimal" "3 number 11 TooLong" < <(value_of hex "$(times 4097 0f)")
accept "a text of 4,096 bytes in 2,048 characters" 0 "$settled" < <(value_of text "$(times 2048 é)")
refuse_input "a text of 4,097 bytes" "3 number 11 TooLong" < <(value_of text "w$(times 2048 é)")

# A script of so many acts.
acts() {
    printf '%s\n' "$lab" "$node_a" "$node_b" "$link"
    echo '{"do":"script","link":0,"from":"a","acts":["drop"'"$(times "$(($1 - 1))" ',"pass"')"']}'
}

accept "256 acts" 0 "$settled" < <(acts 256)
refuse_input "257 acts" "5 number 13 BadScript" < <(acts 257)

# ---- how many nodes, keys, prefixes, settles, lines, turns

nodes() { echo "$lab"; numbered "$1" '{"do":"node","name":"n' '"}'; }

accept "64 nodes" 0 "$settled" < <(nodes 64)
refuse_input "65 nodes" "66 number 10 TooMany" < <(nodes 65)

# A laboratory with one node, and so many keys.
keys_at() { echo "$1"; echo "$node_a"; numbered "$2" "$set_key" '"}'; }

accept "512 keys, and one of them again" 0 "$settled" < <(keys_at "$lab" 512; numbered 1 "$set_key" '"}')
refuse_input "513 keys" "515 number 10 TooMany" < <(keys_at "$lab" 513)
accept "512 keys with those of a node's records" 0 "$settled" < <(keys_at "$full" 510; echo "${set_key}adj:a\"}")
refuse_input "513 keys with those of a node's records" "513 number 10 TooMany" < <(keys_at "$full" 511)
refuse_input "a misplaced node whose records are too many keys" "512 number 10 TooMany" < <(keys_at "$full" 509; echo "$node_b")

# A full laboratory with one node, and so many prefixes.
prefixes() { echo "$full"; echo "$node_a"; numbered "$1" '{"do":"advertise","node":"a","prefix":"10.' '.0.0/16"}'; }

accept "32 prefixes of a node" 0 "$settled" < <(prefixes 32)
refuse_input "33 prefixes of a node" "35 number 10 TooMany" < <(prefixes 33)
accept "1,000 settles and a tick, and then the settle that no limit counts" 0 "$settled" \
    < <(echo "$lab"; lines 1000 "$settle"; echo '{"do":"tick","to":0}')
refuse_input "1,001 settles" "1002 number 10 TooMany" < <(echo "$lab"; lines 1001 "$settle")

# A laboratory with one node, and so many questions.
gets() { echo "$lab"; echo "$node_a"; lines "$1" "$get"; }

accept "10,000 lines" 0 "$settled" < <(gets 9998)
refuse_input "10,001 lines, and a blank one that isn't counted" "10002 number 10 TooMany" \
    < <(echo "$lab"; echo "$node_a"; echo; lines 9999 "$get")
accept "10,000 lines and a turn" 8 "bad turn 0" < <(gets 9998; echo "$turn")

# A laboratory and so many turns.
turns() { echo "$lab"; lines "$1" "$turn"; }

run_text "500,000 turns" 8 $'bad turn 0\n' replay < <(turns 500000)
run_text "500,001 turns" 3 $'fault line 500002 number 10 TooMany\n' replay < <(turns 500001)

# ---- how many bytes

# A laboratory and a line of spaces, so many bytes in all.
filled() { echo "$lab"; spaces "$(($1 - 29))"; }

run_text "33,554,432 bytes" 0 $'settle 1 moment 0\nend\n' replay < <(filled 33554432)
run_text "33,554,433 bytes" 3 $'fault line 2 number 11 TooLong\n' replay < <(filled 33554433)
run_text "40,000,000 bytes" 3 $'fault line 2 number 11 TooLong\n' replay < <(filled 40000000)

# One byte more than the greatest scenario has is read. So a line that ends just there is too long, and of one that ends
# behind it the rest isn't read, and what is left of it is no JSON.
run_text "a line that ends with byte 33,554,433" 3 $'fault line 3 number 11 TooLong\n' replay \
    < <(filled 33554417; echo; printf '%s' "$settle")
run_text "a line that crosses byte 33,554,433" 3 $'fault line 3 number 2 BadJson\n' replay \
    < <(filled 33554418; echo; printf '%s' "$settle")

# ---- how much a run may do

# 64 stores, and four links from the first to each of six others.
star() {
    nodes 64
    local number
    for number in $(seq 0 23); do
        echo '{"do":"link","a":"n0","b":"n'"$((number % 6 + 1))"'","aif":"a'"$number"'","bif":"b'"$number"'"}'
    done
}

# Each of 24 links takes a turn as it comes up, and two stores hear of it. Each of the two starts a sync, whose four
# messages are each a turn at the link and one at a store: 19 turns a link, and 456 in all. A tick is a turn at each of 64
# stores and 24 links, so 5,676 ticks take 499,488. Each further `up` is one turn, so 56 of them make 500,000.
ticks() {
    star
    numbered 5677 '{"do":"tick","to":' '}' | tail -n +2
    lines "$1" "$up"
    echo "$silent"
}

run_text "a run of 500,000 turns" 0 $'settle 1 moment 5676\nend\n' replay < <(ticks 56)
run_text "a run of 500,001 turns" 4 $'unsettled in settle 1\n' replay < <(ticks 57)

# The same turns, given: they are enough for the one, and one more is missing for the other.
"$program" --trace replay < <(ticks 56) | grep '"turn"' > "$folder/turns"
run_text "500,000 given turns" 0 $'settle 1 moment 5676\nend\n' replay < <(ticks 56; cat "$folder/turns")
run_text "a turn is missing behind 500,000" 8 $'bad turn 500000\n' replay < <(ticks 57; cat "$folder/turns")

# A set of a key of 128 bytes and a value of 4,096 weighs 4,416, and its flood 4,480 at each of 24 links and again behind
# it: 219,456. A link that comes up weighs 64, and 96 at each end; of the two syncs that follow, each of the four messages
# weighs 96 at the link and again behind it, since no store holds a key: 1,792 a link, and 43,008 in all. With 4,892 sets,
# 27 sets that aren't taken, and 13 times a further `up` of 64 that makes 2^30.
great_key=$(times 128 k)
great_text=$(times 4096 w)
great_set() { echo '{"do":"set","node":"n0","key":"'"$great_key"'","version":'"$1"',"text":"'"$great_text"'"}'; }
weights() {
    star
    echo "$silent"
    local version
    for version in $(seq 1 4892); do great_set "$version"; done
    lines 27 "$(great_set 1)"
    lines "$1" "$up"
    echo "$silent"
}

run_text "a run that weighs 2^30" 0 $'settle 1 moment 0\nsettle 2 moment 0\nend\n' replay < <(weights 13)
run_text "a run that weighs 2^30 and 64" 4 $'unsettled in settle 2\n' replay < <(weights 14)

# ---- a long journal

# A store of which a key is set 1,500 times, and which then shows the last value.
overwritten() {
    nodes 2
    echo '{"do":"link","a":"n0","b":"n1"}'
    echo "$silent"
    numbered 1501 '{"do":"set","node":"n0","key":"x","hex":"07","version":' '}' | tail -n +2
    echo '{"do":"settle","show":"stores"}'
    echo '{"do":"get","node":"n1","key":"x"}'
    echo "$silent"
}
long_journal='settle 1 moment 0
settle 2 moment 0
store n0 entries 1500 stale 0
key x 1500 n0 07 0 -
store n1 entries 1500 stale 0
key x 1500 n0 07 0 -
settle 3 moment 0
get n1 x value 1500 n0 07 0
end
'
run_text "journals of 1,500 entries" 0 "$long_journal" replay < <(overwritten)

# ---- the farthest route

# A line of 64 nodes, of which each link has the greatest metric at both ends: 63 times 2,147,483,647.
far_line() {
    echo '{"do":"lab","kind":"full"}'
    local number
    for number in $(seq 0 63); do echo '{"do":"node","name":"n'"$number"'"}'; done
    for number in $(seq 0 62); do
        echo '{"do":"link","a":"n'"$number"'","b":"n'"$((number + 1))"'","am":2147483647,"bm":2147483647}'
    done
    echo '{"do":"advertise","node":"n63","prefix":"10.63.0.0/16"}'
    echo "$silent"
    echo '{"do":"ask","node":"n0","prefix":"10.63.0.0/16"}'
    echo "$silent"
}
far_route='settle 1 moment 0
settle 2 moment 0
ask n0 10.63.0.0/16 route 135291469761 if-n1
end
'
run_text "a line of 64 nodes with the greatest metrics" 0 "$far_route" replay < <(far_line)

# ---- a small stack

# 64 kB are enough, but for a line of lists nested as deep as may be.
small_stack() { (ulimit -s 64 && exec timeout "$seconds" "$program" replay); }
set_at_a='{"do":"set","node":"a","key":"x","version":1,"hex":"01"}'
printf '%s\n' 'settle 1 moment 0' 'store a entries 1 stale 0' 'key x 1 a 01 0 -' end > "$stated"
small_stack > "$wrote" < <(printf '%s\n' "$lab" "$node_a" "$set_at_a" '{"do":"settle","show":"stores"}')
ended=$?
if [ "$ended" -eq 0 ] && cmp -s "$wrote" "$stated"; then passed=$((passed + 1)); else differs "a run on 64 kB of stack" "$ended" 0; fi
