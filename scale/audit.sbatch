#!/usr/bin/env bash
#SBATCH --job-name=pegv-audit
#SBATCH --ntasks=1
#SBATCH --requeue
#SBATCH --output=/dev/null
# A Slurm job array that audits each day and shard against its feeds; `sbatch .. scale/audit.sbatch --journal RUN` audits live journals:
#
#     sbatch --array=0-31 scale/audit.sbatch RUN
#
# Submit it at the top of the repository, or set SCALE to the folder of these scripts. Slurm runs a copy of this file, so it can't find them by itself.
exec "${SCALE:-$SLURM_SUBMIT_DIR/scale}/element" audit "$@" "$SLURM_ARRAY_TASK_ID"
