#!/usr/bin/env bash
# Runs the commands of docs/MANY.md for several machines, as they stand there, over the survey of many.sh: GNU parallel
# over ssh, and rsync. The machines `one` and `two` are ssh servers of this test on this machine, each in a process
# namespace of its own, with keys of their own and, but for the last case, with a folder of their own in the place of the
# survey's. One of them dies in between: its namespace is ended.
#
#     tests/many_ssh.sh
#
# The program is the one that the variable SGM names (./sgm of this repository without it). Skipped where GNU parallel, rsync
# or the ssh server isn't installed (Debian: parallel rsync openssh-server), or where it can't be started, as without root.
set -u
# shellcheck source-path=SCRIPTDIR source=many_common.sh
. "$(dirname "$0")/many_common.sh"
PATH=$PATH:/usr/sbin
has parallel || skip "GNU parallel" parallel
has rsync || skip rsync rsync
has sshd ssh || skip "the ssh server" openssh-server
need_program

# The machines.

no_machines() {
    echo "many_ssh: skipped: $1"
    exit 0
}

# free_port: a port of this machine at which nobody listens.
free_port() { python3 -c 'import socket; it = socket.socket(); it.bind(("127.0.0.1", 0)); print(it.getsockname()[1])'; }

declare -A machine port
# start MACHINE FOLDER: starts its ssh server, in a process namespace of its own, in which the folder stands in the place of
# the survey's, and all that a session starts there.
start() {
    # shellcheck disable=SC2016
    unshare --mount --propagation private --pid --mount-proc --fork --kill-child bash -c \
        'mount -t tmpfs none /run && mkdir /run/sshd && mount --bind "$1" "$2" && exec "$(command -v sshd)" -D -e -f "$3" -p "$4"' \
        start "$2" "$survey" "$work/sshd_config" "${port[$1]}" 2>"$work/$1.log" </dev/null &
    machine[$1]=$!
    disown
}
# die MACHINE: ends all of its processes at once, as a power cut does.
die() {
    kill -KILL "${machine[$1]}"
    unset "machine[$1]"
}
# shellcheck disable=SC2154
trap 'for it in "${!machine[@]}"; do die "$it"; done; chmod -R u+rwX "$work"; rm -rf "$work"' EXIT

[ "$(id -u)" = 0 ] || no_machines "the machines of this test take root"
unshare --mount --pid --fork true 2>"$work/said" || no_machines "no namespaces: $(cat "$work/said")"
ssh-keygen -q -t ed25519 -N '' -f "$work/host_key" && ssh-keygen -q -t ed25519 -N '' -f "$work/key" || exit 1
cp "$work/key.pub" "$work/authorized"
cat >"$work/sshd_config" <<CONFIG
ListenAddress 127.0.0.1
HostKey $work/host_key
AuthorizedKeysFile $work/authorized
StrictModes no
UsePAM no
PasswordAuthentication no
KbdInteractiveAuthentication no
PermitRootLogin prohibit-password
PidFile none
SetEnv PATH=$bin:$PATH HOME=$work/home
CONFIG
cat >"$work/ssh_config" <<CONFIG
Host *
    HostName 127.0.0.1
    User root
    IdentityFile $work/key
    IdentitiesOnly yes
    UserKnownHostsFile $work/known
    GlobalKnownHostsFile /dev/null
    StrictHostKeyChecking accept-new
    BatchMode yes
    LogLevel ERROR
    ControlPath none
    ServerAliveInterval 15
CONFIG
for it in one two; do
    port[$it]=$(free_port)
    printf 'Host %s\n    Port %s\n' "$it" "${port[$it]}" >>"$work/ssh_config"
    mkdir "$work/$it"
done
export PARALLEL_SSH="ssh -F $work/ssh_config" RSYNC_RSH="ssh -F $work/ssh_config"

# begin MACHINE FOLDER: starts it and waits until it can be reached.
begin() {
    local tries
    start "$@"
    for tries in {1..50}; do
        ssh -F "$work/ssh_config" "$1" true 2>"$work/said" && return
        sleep 0.2
    done
    [ -n "$tries" ] && no_machines "$1 can't be reached: $(cat "$work/said" "$work/$1.log" | tail -n 1)"
}

# What a machine's shell reads when it begins, and would leave half done when the machine dies, is in a home of its own.
mkdir "$work/home"
# The machines have another parallel on their PATH, which says that it was called: they need none.
printf '#!/bin/sh\ntouch %s/called\nexit 1\n' "$work" >"$bin/parallel"
chmod +x "$bin/parallel"
make_survey
match_singly
is "the page's blocks of commands" "$(blocks 5)" 3
for it in one two; do begin "$it" "$work/$it"; done

# Two machines that share nothing.

typed 5 1
is "what bringing the survey says" "$status $out$err" "0 "
is "what is brought" "$(diff -r "$survey" "$work/one" && diff -r "$survey" "$work/two")" ""
typed 5 2
is "the status over two machines" "$status" 0
is "the summaries over two machines" "$out" "$(summaries "${all[@]}")"
is "the lines over two machines" "$err" "$(lines "${all[@]}")"
is "the machines that had a part" "$(sed 1d "$survey/log" | cut -f 2 | sort -u | tr '\n' ' ')" "one two "
is "what stands here before it is fetched" "$(outputs "$survey")" ""
typed 5 3
is "what fetching says" "$status $out$err" "0 "
are_single "two machines"
left_are "two machines" "${refused[@]}"

# Machine two dies while it has two entries that wait. What it made before stays on it.
clear
for it in one two; do outputs "$work/$it" | while read -r file; do rm "$work/$it/$file"; done; done
for number in 2 3 5 6 7 8 10 11; do
    mv "$work/two/$(basename "$(word "$number" 1)")" "$work/away.$number"
    mkfifo "$work/two/$(basename "$(word "$number" 1)")"
done
began 5 2
# Of the ten pairs that aren't refused machine two can have done two, and holds two.
# shellcheck disable=SC2317
come() { [ "$(outputs "$work/one" "$work/two" | grep -c pgm)" -ge 6 ]; }
awaited "machine one has done the most of it" come
is "whether machine two is waited for" "$(is_over || echo yes)" yes
die two
awaited "the other one has taken them over" is_over || kill_session
is "what is said when a machine dies" "$(cat "$work/err")" "$(lines "${all[@]}")"
is "the summaries when a machine dies" "$(cat "$work/out")" "$(summaries "${all[@]}")"
typed 5 3
is "status of fetching from a machine that is dead" "$status" 1
[[ $err = *"Connection refused"* ]]
is "whether it complains (0: yes)" $? 0
mapfile -t lost < <(for number in "${all[@]}"; do out=$(basename "$(word "$number" 4)"); [ -e "$work/two/$out.pgm" ] && echo "$number"; done)
mapfile -t lost < <(printf '%s\n' "${lost[@]}" "${refused[@]}" | sort -n)
left_are "the machine that died" "${lost[@]}"

# It comes back, with the older beginning of an output that the other one made.
for number in 2 3 5 6 7 8 10 11; do
    rm "$work/two/$(basename "$(word "$number" 1)")"
    mv "$work/away.$number" "$work/two/$(basename "$(word "$number" 1)")"
done
out=$(basename "$(word 7 4)")
head -c 20 "$work/one/$out.pgm" >"$work/two/$out.pgm"
touch -d '1 hour ago' "$work/two/$out.pgm"
begin two "$work/two"
typed 5 3
is "what fetching says when it is back" "$status $out$err" "0 "
are_single "a machine that came back"
left_are "a machine that came back" "${refused[@]}"

# The three commands again, after outputs were lost here and on both machines.
for number in 0 8; do
    for folder in "$survey" "$work/one" "$work/two"; do rm -f "$folder/$(basename "$(word "$number" 4)")".*; done
done
for number in 1 2 3; do typed 5 "$number"; done
are_single "again"

# A folder that both share.

for it in one two; do
    die "$it"
    begin "$it" "$survey"
done
clear
typed 5 2
is "the summaries over a shared folder" "$out" "$(summaries "${all[@]}")"
are_single "a shared folder"
[ ! -e "$work/called" ]
is "whether no machine needs parallel (0: yes)" $? 0
end
