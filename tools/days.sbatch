#!/usr/bin/env bash
# Many days under Slurm: an array with one task a day.
# usage: ls DAYS/*.feed > LIST; sbatch --array="0-$(($(wc -l < LIST) - 1))%64" tools/days.sbatch check|replay LIST OUT
# then:  tools/summary OUT
#SBATCH --job-name=vixcert
#SBATCH --cpus-per-task=1
#SBATCH --mem=512M
#SBATCH --time=00:10:00
#SBATCH --output=/dev/null
set -u
# Slurm runs a copy of this file, so the tree is where sbatch was called, or VIXCERT_TREE
tree=${VIXCERT_TREE:-${SLURM_SUBMIT_DIR:-.}}
mkdir -p -- "$3" || exit 1
"$tree/tools/day-of-list" "$1" "$2" "$SLURM_ARRAY_TASK_ID" "$3" >"$3/$SLURM_ARRAY_TASK_ID.line"
