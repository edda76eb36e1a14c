#!/usr/bin/env bash
# Runs the commands of docs/MANY.md for Slurm, as they stand there, over the survey of many.sh: an array of tasks, one of
# which is taken back and begun again while it waits for an input, as when its node dies, the same command again after
# outputs were lost, and a merge behind an array, where a task is begun again and where one ends otherwise. The cluster is one node, this machine, with daemons, keys and folders of this test.
#
#     tests/many_slurm.sh
#
# The programs are those that the variables SGM and SGM_SERIES name (./sgm and ./sgm_series of this repository without
# them). Skipped where Slurm isn't installed (Debian: slurm-wlm) or doesn't start here, or where there is no sgm_series.
set -u
# shellcheck source-path=SCRIPTDIR source=many_common.sh
. "$(dirname "$0")/many_common.sh"
PATH=$PATH:/usr/sbin
has slurmctld slurmd sbatch munged || skip Slurm slurm-wlm
need_program

no_cluster() {
    echo "many_slurm: skipped: $1"
    exit 0
}
[ -x "$SGM_SERIES" ] || no_cluster "there is no $SGM_SERIES"
need_series

# The cluster.

free_port() { python3 -c 'import socket; it = socket.socket(); it.bind(("127.0.0.1", 0)); print(it.getsockname()[1])'; }

slurm=$work/slurm node=$(hostname -s)
mkdir -p "$slurm"/{state,spool}
chmod 755 "$work" "$slurm"
head -c 1024 /dev/urandom >"$slurm/key"
chmod 400 "$slurm/key"
export SLURM_CONF=$slurm/slurm.conf
cat >"$SLURM_CONF" <<CONFIG
ClusterName=many
SlurmctldHost=$node(127.0.0.1)
SlurmctldPort=$(free_port)
SlurmdPort=$(free_port)
SlurmUser=$(id -un)
SlurmdUser=$(id -un)
AuthType=auth/munge
AuthInfo=socket=$slurm/munge
StateSaveLocation=$slurm/state
SlurmdSpoolDir=$slurm/spool
SlurmctldPidFile=$slurm/slurmctld.pid
SlurmdPidFile=$slurm/slurmd.pid
SlurmctldLogFile=$slurm/slurmctld.log
SlurmdLogFile=$slurm/slurmd.log
SlurmdParameters=config_overrides
ProctrackType=proctrack/linuxproc
TaskPlugin=task/none
JobAcctGatherType=jobacct_gather/none
AccountingStorageType=accounting_storage/none
SelectType=select/cons_tres
SelectTypeParameters=CR_Core
MpiDefault=none
ReturnToService=2
NodeName=$node NodeAddr=127.0.0.1 CPUs=8 State=UNKNOWN
PartitionName=all Nodes=ALL Default=YES MaxTime=INFINITE State=UP
CONFIG
daemons=()
# daemon COMMAND..: starts one that stays in the foreground.
daemon() {
    "$@" >>"$slurm/said" 2>&1 </dev/null &
    daemons+=($!)
    disown
}
# shellcheck disable=SC2317
end_cluster() {
    local it
    for it in $(squeue -h -o %A 2>/dev/null); do scancel -s KILL -b -f "$it"; done 2>/dev/null
    for ((it = ${#daemons[@]} - 1; it >= 0; it--)); do
        kill "${daemons[it]}" 2>/dev/null || continue
        for _ in {1..50}; do kill -0 "${daemons[it]}" 2>/dev/null && sleep 0.1; done
        kill -KILL "${daemons[it]}" 2>/dev/null
    done
}
trap 'end_cluster; chmod -R u+rwX "$work"; rm -rf "$work"' EXIT

daemon munged --foreground --force --key-file="$slurm/key" --socket="$slurm/munge" --pid-file="$slurm/munged.pid" \
    --log-file="$slurm/munged.log" --seed-file="$slurm/seed" --num-threads=1
for _ in {1..50}; do [ -S "$slurm/munge" ] || sleep 0.1; done
daemon slurmctld -D
daemon slurmd -D
for _ in {1..150}; do
    state=$(timeout 20 sinfo -h -o %T 2>/dev/null)
    [ "$state" = idle ] && break
    sleep 0.2
done
[ "$state" = idle ] || no_cluster "Slurm doesn't start here: $(cat "$slurm/said" "$slurm"/*.log 2>/dev/null | grep -i -m 1 'error\|fatal')"

make_survey
match_singly
is "the page's blocks of commands" "$(blocks 6)" 2

# submit: runs the page's command, which says the job's number.
submit() {
    typed 6 1
    job=${out##* }
    is "what sbatch says" "$status $out$err" "0 Submitted batch job $job"
}
# shellcheck disable=SC2317
has_ended() { [ -z "$(squeue -h -j "$job" 2>/dev/null)" ]; }
# task K: what that task of the job said.
task() { cat "$work/top/slurm-${job}_$1.out"; }

# Task K of 4 takes each fourth entry from number K - 1 on.
submit
awaited "the tasks have ended" has_ended || scancel "$job"
are_single "an array"
left_are "an array" "${refused[@]}"
is "task 1" "$(task 1)" "$(summaries 0; lines 4; summaries 8)
sgm_series: 1 entries refused"
is "task 2" "$(task 2)" "$(summaries 1 5; lines 9)
sgm_series: 1 entries refused"
is "task 3" "$(task 3)" "$(summaries 2 6 10)"
is "task 4" "$(task 4)" "$(summaries 3 7 11)"
is "how the tasks ended" "$(for it in 1 2 3 4; do scontrol show job "${job}_$it" | grep -o 'ExitCode=[0-9]*'; done | tr '\n' ' ')" \
    "ExitCode=3 ExitCode=3 ExitCode=0 ExitCode=0 "

# A task is taken back while it waits, and begun again.
clear
hold 6
submit
awaited "the other tasks have come" have_come 0 1 3 5 7 8 11
go 6
scontrol requeue "${job}_3"
# Slurm waits two minutes before it begins it again; not here.
# shellcheck disable=SC2317
is_taken_back() { [ "$(squeue -h -j "${job}_3" -o '%t %r')" = "PD BeginTime" ]; }
awaited "the task is taken back" is_taken_back
scontrol update "jobid=${job}_3" StartTime=now
awaited "the task has ended" has_ended || scancel "$job"
are_single "a task begun again"
left_are "a task begun again" "${refused[@]}"

# The same command again, after outputs were lost or cut short, and after all is done.
cut_off 0 .asc
cut_off 11 .pgm
rm "$(word 1 4).pgm"
submit
awaited "the tasks have ended again" has_ended || scancel "$job"
are_single "the same again"
is "task 1 again" "$(task 1 | head -n 1)" "$(summaries 0)"
is "task 3 again, which had all" "$(task 3)" ""
is "task 4 again" "$(task 4)" "$(summaries 11)"

# merge_behind: runs the page's commands for an array and a merge behind it, whose numbers are `job` and `merge`.
merge_behind() {
    clear
    rm -f "$survey"/site.*
    typed 6 2
    merge=${out##* } job=$((${out##* } - 1))
    is "what sbatch says of a merge" "$status $out$err" "0 Submitted batch job $merge"
}
# shellcheck disable=SC2317
waits_for_array() { [ "$(squeue -h -j "$merge" -o '%t %r')" = "PD Dependency" ]; }
# shellcheck disable=SC2317
has_merged() { [ -z "$(squeue -h -j "$merge" 2>/dev/null)" ]; }
# The queue can be silent about a merge that has yet to start, while a task before it is taken back.
# shellcheck disable=SC2317
has_written() { has_merged && [ -s "$work/top/slurm-$merge.out" ]; }

if has_merge; then
    # Two entries are refused, so one task ends with 3, and the merge is taken away.
    merge_behind
    awaited "the merge is taken away" has_merged || scancel "$merge"
    awaited "the tasks before it have ended" has_ended || scancel "$job"
    is "what is merged of refused entries" "$(ls "$survey"/site.* "$work/top/slurm-$merge.out" 2>/dev/null)" ""
    # Without them it waits until all tasks are done, one of which is begun again.
    cp "$survey/list" "$work/list"
    sed -i -e 5d -e 10d "$survey/list"
    hold 2
    merge_behind
    awaited "the merge waits" waits_for_array
    awaited "the other tasks have come once more" have_come 0 1 3 4 5 7 8 9
    go 2
    scontrol requeue "${job}_3"
    awaited "the task is taken back once more" is_taken_back
    is "whether the merge waits on" "$(squeue -h -j "$merge" -o '%t %r')" "PD Dependency"
    scontrol update "jobid=${job}_3" StartTime=now
    awaited "the merge has ended" has_written || scancel "$merge"
    left_are "a merge behind an array"
    "$left_of" --grids "$survey/list" >"$work/grids"
    merged=$("$SGM" merge "$work/grids" "$survey/calibration.json" "$work/merged")
    is "the merge" "$(cat "$work/top/slurm-$merge.out")" "$merged"
    for ending in asc csv; do is "its OUT.$ending" "$(cat "$survey/site.$ending")" "$(cat "$work/merged.$ending")"; done
    rm "$survey"/site.*
    cp "$work/list" "$survey/list"
fi

# A list that is refused ends each task, with the program's words.
entry 0 >>"$survey/list"
submit
awaited "the tasks have ended once more" has_ended || scancel "$job"
is "a list that clashes" "$(for it in 1 2 3 4; do task "$it"; done | sort -u)" "series_left: entry 12 clashes"
is "whether a task's list is left over" \
    "$(find "${TMPDIR:-/tmp}" -maxdepth 1 \( -name 'sgm-series.*' -o -name 'sgm-grids.*' \) -newer "$SLURM_CONF")" ""
end
