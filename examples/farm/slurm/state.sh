#!/bin/sh
# Says whether a job of Slurm is `running`, `success` or `failed`, for Snakemake. It asks slurmctld, so it needs no accounts;
# a job that slurmctld has forgotten is asked of sacct, where there is one.
state=$(scontrol show job "$1" 2>/dev/null | sed -n 's/.*JobState=\([A-Z_]*\).*/\1/p')
[ -n "$state" ] || state=$(sacct -X -n -P -o State -j "$1" 2>/dev/null | sed -n '1s/ .*//;1p')
case $state in
    COMPLETED) echo success ;;
    PENDING | CONFIGURING | RUNNING | COMPLETING | SUSPENDED | RESIZING | REQUEUED) echo running ;;
    *) echo failed ;;
esac
