# shellcheck shell=sh disable=SC2154
# Read by trials in sh that try both words (programs.py). Their stores are in memory where they
# can be, since a sync costs nothing there.
if [ -z "${TMPDIR-}" ] && [ -d /dev/shm ] && [ -w /dev/shm ]; then export TMPDIR=/dev/shm; fi

# by_word [COMMAND..]: runs the program by its 'word', with so many 'workers'; if there is a
# command, such as timeout 60, the program's words follow it. For serve the store in the folder
# 'store' is new.
by_word() {
    if [ "$word" = run ]; then
        "$@" "$program" run --workers "$workers"
    else
        rm -rf "$store"
        mkdir "$store"
        "$@" "$program" serve --dir "$store" --new --workers "$workers"
    fi
}
