#!/usr/bin/env bash
#SBATCH --job-name=pegv-replay
#SBATCH --ntasks=1
#SBATCH --requeue
#SBATCH --output=/dev/null
# A Slurm job array that replays the feeds of each day and shard:
#
#     sbatch --array=0-31 scale/replay.sbatch RUN
#
# Submit it at the top of the repository, or set SCALE to the folder of these scripts. Slurm runs a copy of this file, so it can't find them by itself.
exec "${SCALE:-$SLURM_SUBMIT_DIR/scale}/element" replay "$@" "$SLURM_ARRAY_TASK_ID"
