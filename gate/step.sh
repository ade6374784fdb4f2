# Steps of ./check, for it to source. Each is a command whose last line is 'N passed, M failed'. The steps of a lane run one after
# another in a shell of their own, and lanes run side by side. A step passes by the one line of $room/NAME.total alone: one that
# never began, did not end, or whose total was not written, has failed, and so has each step of a lane that did not end by itself.

names=()
declare -A lane_of command_of shell_of lost failures

# Declares a step, for which this is the only place: its lane, its name, and its command.
step() {
    local name=$2
    names+=("$name")
    lane_of[$name]=$1
    printf -v "command_of[$name]" '%q ' "${@:3}"
}

# Begins lanes. If no process can begin, the shell leaves this function, and goes on behind the call of it.
begin() {
    local lane
    for lane; do
        run_lane "$lane" &
        shell_of[$lane]=$!
    done
}

# Waits for the lanes that began.
finish() {
    local lane
    for lane; do
        if [[ -z ${shell_of[$lane]:-} ]]; then continue; fi
        wait "${shell_of[$lane]}" || lost[$lane]="its lane ended with status $?"
        unset "shell_of[$lane]"
    done
}

# Ends the run, from any of its shells.
stop() {
    echo "check: $1"
    kill "$$"
    exit 1
}

run_lane() {
    local name
    for name in "${names[@]}"; do
        if [[ ${lane_of[$name]} == "$1" ]]; then run_step "$name"; fi
    done
}

# Makes the file of a total, which may not be there, before its step begins.
reserve() {
    local text="it did not end" read=
    [[ ! -e $1 ]] && echo "$text" >"$1" && read -r read <"$1" && [[ $read == "$text" ]]
}

# Runs a step. Steps run side by side, so each line that is printed begins with the step's name.
run_step() {
    local name=$1 log=$room/$1.log total=$room/$1.total last ended
    local TIMEFORMAT="check: $name took %1U s of user time and %1S s of system time"
    reserve "$total" || stop "the total of $name cannot be written into $total"
    echo "== ${command_of[$name]}"
    {
        time {
            eval "${command_of[$name]}" </dev/null 2>&1 | tee "$log" | sed -u "/^$name: /!s/^/$name: /"
            ended=${PIPESTATUS[*]}
        }
    } 2>&1
    last=$(tail -n 1 "$log" | cut -c 1-200)
    case "$ended $last" in
        "0 0 0 "* | *" 0 0 "*" passed, "[1-9]*) ;;
        *) last="'$last', and its command, tee and sed ended with $ended" ;;
    esac
    echo "$last" >"$total" || exit
}

is_total() {
    [[ $1 =~ ^([0-9]{1,9})" passed, "([0-9]{1,9})" failed"$ ]] && ((10#${BASH_REMATCH[1]} + 10#${BASH_REMATCH[2]}))
}

# Adds up the totals into $passed and $failed, and finds why steps have failed. It begins no process, since that may fail.
add_up() {
    local name lines why
    passed=0 failed=0
    for name in "${names[@]}"; do
        lines=("it did not begin")
        if [[ -e $room/$name.total ]]; then mapfile -t lines <"$room/$name.total"; fi
        why=${lost[${lane_of[$name]}]:-}
        if [[ -z $why ]] && ((${#lines[@]} == 1)) && is_total "${lines[0]}"; then
            passed=$((passed + 10#${BASH_REMATCH[1]})) failed=$((failed + 10#${BASH_REMATCH[2]}))
            if ((10#${BASH_REMATCH[2]})); then failures[$name]=${lines[0]}; fi
        else
            failed=$((failed + 1))
            failures[$name]=${why:-"it has no total: ${lines[*]}"}
        fi
    done
}

# Prints, for each step in which something failed, the last lines of its log but for those of what passed.
repeat_failures() {
    local name
    for name in "${names[@]}"; do
        if [[ -z ${failures[$name]:-} ]]; then continue; fi
        echo "check: $name: ${failures[$name]}; its log ends with"
        grep -avE ': as it should be$|: refused at |^by a written proof alone: ' "$room/$name.log" | tail -n 10 | cut -c 1-300 | sed 's/^/    /'
    done
}
