# For scripts of checks: `check` counts what ends well and shows the last lines of what does not. The caller makes the folder $work.
passed=0 failed=0

check() { # WHAT COMMAND..: the command ends with status 0
    local what=$1
    shift
    if "$@" >"$work/said" 2>&1; then
        passed=$((passed + 1))
    else
        failed=$((failed + 1))
        echo "$what:"
        tail -n 5 "$work/said"
    fi
}
