#!/usr/bin/env bash
# An array of Slurm: shards of the roots in roots.txt, on a folder that all nodes see.
#
#     jobs=$(sbatch --parsable --array=1-4 slurm.sh)
#     sbatch --dependency=afterok:$jobs --wrap 'cat shard.*.report | starload --join > report.json'
#SBATCH --cpus-per-task=4
split --number "r/$SLURM_ARRAY_TASK_ID/$SLURM_ARRAY_TASK_COUNT" roots.txt >"shard.$SLURM_ARRAY_TASK_ID"
exec ./shard.sh "shard.$SLURM_ARRAY_TASK_ID" --repo . --loaders "$SLURM_CPUS_PER_TASK"
