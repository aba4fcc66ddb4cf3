#!/bin/sh
#SBATCH --job-name=lezantsiro
#SBATCH --cpus-per-task=1
#SBATCH --output=lezantsiro-%A-%a.log
# A stack of masks by a Slurm array: each task draws its share of the layers, and all write to one folder, which all
# nodes must have under the same name. From the top of the repository, where ./lezantsiro was run once, so that the
# tool is built:
#
#     sbatch --array=1-16 examples/cluster/stack.sbatch PART --out DIR FLAG...
#
# with the flags of './lezantsiro stack', but for --shard and --jobs. The array begins at 1; its last number is the
# number of shares. After a failure or scancel the same line goes on: what is there with its checksum is skipped. At the
# end './lezantsiro verify DIR' looks at the shares together.
set -u
if [ "${SLURM_ARRAY_TASK_MIN:-0}" != 1 ] || [ "$SLURM_ARRAY_TASK_COUNT" != "$SLURM_ARRAY_TASK_MAX" ]; then
    echo "submit it as a whole array that begins at 1: sbatch --array=1-N" >&2
    exit 2
fi
cd "$SLURM_SUBMIT_DIR" || exit 2
# In this process' place, so that the signals of scancel reach the tool.
exec ./lezantsiro stack "$@" --shard "$SLURM_ARRAY_TASK_ID/$SLURM_ARRAY_TASK_MAX" --jobs "${SLURM_CPUS_PER_TASK:-1}"
