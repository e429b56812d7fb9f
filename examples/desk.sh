#!/usr/bin/env bash
# A client of a desk of 'seatdesk serve' in plain shell, beside desk.py: it books the segment lines of a script, each once, wherever it or the host is cut off.
#
#   examples/desk.sh IN OUT SCRIPT ANSWERS
#
# ANSWERS, the memory, is made where it is not there. Its first line has the number of the first call, the epoch of the journal that it is of and how many lines that had; then comes each
# answer, in the order of the script. A script may grow at its end, as long as nothing else was booked for the desk since: new lines behind those of another script are a new script, with a memory of its own.
# A client that comes back asks for the advices behind the last line that it was told of; one that is started again behind its last answer.
set -u
[ "$#" = 4 ] || { sed -n '2,9s/^# \{0,1\}//p' "$0" >&2; exit 2; }
script=$3 answers=$4 seconds=10 letters=ABCDEFGHIJKLMNOPQRSTUVWXYZ
segment='^[A-Z0-9]{2}[0-9]{1,4}[A-Z]?[A-Z][0-9]{2}[A-Z]{3} [A-Z]{6} [A-Z]{2}[0-9]{1,3}$'
# opened for reading and for writing, a pipe waits for nobody; one of another user may be open to us one way alone
if [ -r "$1" ]; then exec 3<>"$1"; else exec 3>"$1"; fi
if [ -w "$2" ]; then exec 4<>"$2"; else exec 4<"$2"; fi
# (the pipes' locks are the host's: a second client with the same memory waits here)
exec 5>>"$answers"
flock 5

# A host that was killed has no pipe open: what is written then is not read, and no reason to end.
trap '' PIPE
say() {
    # shellcheck disable=SC2059 # (the first word is the form)
    printf "$@" 2>/dev/null >&3
}

# Says hello until the host answers with this client's own word; what stands ahead of that is for another client. there: how many lines the journal has.
# calls: how many the desk has. epoch: the journal's.
hello() {
    local line word
    while :; do
        word=
        for _ in {1..6}; do word+=${letters:RANDOM%26:1}; done
        say '!\n?HELLO %s%s\n' "$word" "$named" || { sleep 1; continue; }
        while IFS= read -r -t "$seconds" -u 4 line; do
            # (a line that ends with ! is of a host that has started: another may have heard the word)
            [[ $line != *! ]] || break
            [[ $line == "READY $word "* ]] || continue
            read -r _ _ _ there calls _ epoch <<<"$line"
            return
        done
    done
}

# seen LINE: the last line of the journal that the desk was told of. It fails where the line tells of none.
seen() {
    local line
    [[ $1 =~ ^[0-9]+\ ([0-9]+)\  ]] || return 1
    line=${BASH_REMATCH[1]}
    [ "$line" -le "${last:-0}" ] || last=$line
}

# Says what came behind the last answer: its own advices, which are told with it. It fails where the host may have gone.
advices() {
    local line
    say '?HELLO BEHIND\n' || return 1
    while IFS= read -r -t "$seconds" -u 4 line; do
        [[ $line != "READY BEHIND "* ]] || return 0
        # (a reply is that of a call which is sent again, and then told once more)
        if ! seen "$line" || [[ $line =~ \ KL[0-9]+$ ]]; then printf '%s\n' "$line"; fi
    done
    return 1
}

# Says what a host that was killed had not written. It fails where this one may have gone.
again() {
    [ -n "$last" ] || return 0
    say '?AGAIN %s\n' "$last" && advices
}

# Comes back to a host.
back() {
    hello
    until again; do hello; done
}

# answer NUMBER: the answer to the line of that number is said; it fails where the host may have gone. An advice (KL) answers no line.
answer() {
    while IFS= read -r -t "$seconds" -u 4 said; do
        seen "$said" || :
        [[ $said =~ ^FAULT\ (.*\ @$1|(B1|H1|MEMORY)\ .*)$ ]] && return 0
        [[ $said =~ ^[0-9]+\ [0-9]+\  && ! $said =~ \ KL[0-9]+$ ]] && return 0
        printf '%s\n' "$said"
        [[ $said != FAULT* && $said != *! ]] || return 1
    done
    return 1
}

# The messages of the script, behind the answers that there are; it fails where it must begin again.
book() {
    local line number said at=1 told=0 known
    mapfile -t known <"$answers"
    number=${known[0]%% *}
    while IFS= read -r line || [ -n "$line" ]; do
        if [[ ! $line =~ $segment ]]; then
            # (a line of a message that is answered by nothing; a client that comes back sends its message's head again)
            say '%s\n' "$line" || return 1
            continue
        fi
        if [ "$at" -lt "${#known[@]}" ]; then
            said=${known[at]} at=$((at + 1))
        else
            say '@%s %s\n' "$number" "$line" || return 1
            answer "$number" || return 1
            if [[ $said == FAULT\ H[346]\ * ]]; then
                echo "$said: call $number of the desk is another line's" >&2
                exit 1
            fi
            printf '%s\n' "$said" >>"$answers" && sync "$answers" || exit 1
        fi
        # (once: a client that comes back goes through its answers again)
        told=$((told + 1))
        [ "$told" -le "$shown" ] || { printf '%s\n' "$said" && shown=$told; }
        [[ $said == FAULT* ]] || number=$((number + 1))
    done <"$script"
}

# (a line that a kill or a loss of power left without its end is none)
truncate -s "$(head -n "$(wc -l <"$answers")" "$answers" | wc -c)" "$answers"
# (a memory that has no epoch is of whatever journal the desk has)
named='' last=''
[ ! -s "$answers" ] || read -r _ named last _ <"$answers"
named=${named:+ $named}
hello
if [ -n "$named" ] && [ "$named" != " $epoch" ]; then
    echo "the desk's journal is of epoch $epoch, and ANSWERS of$named: its calls are another journal's" >&2
    exit 1
fi
named=" $epoch"
[ -s "$answers" ] || { last=$there && printf '%s %s %s\n' "$((calls + 1))" "$epoch" "$there" >"$answers" && sync "$answers"; } || exit
mapfile -t known <"$answers"
faults=$(grep -c '^FAULT' "$answers")
behind=$((calls + 1 - ${known[0]%% *} - (${#known[@]} - 1 - faults)))
# (one line may be booked whose answer never came; more are another script's)
if [ "$behind" -ne 0 ] && [ "$behind" -ne 1 ]; then
    echo "the desk has $calls calls, and not those that ANSWERS knows: something else was booked for it" >&2
    exit 1
fi
shown=0
for said in "${known[@]:1}"; do seen "$said" || :; done
until again; do hello; done
until book; do back; done
advices || :
