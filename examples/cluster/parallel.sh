#!/bin/sh
# A stack of masks by GNU parallel: N shares, as many at once as there are cores, each on one core. From the top of the
# repository:
#
#     examples/cluster/parallel.sh N PART --out DIR FLAG...
#
# with the flags of './lezantsiro stack', but for --shard and --jobs. With NODES=FILE, the names of machines that can be
# reached by ssh without a question and have this folder under the same name, a line each, they share the work. The same
# line goes on after an interruption: what is there with its checksum is skipped.
set -u
shares=${1:?how many shares}
shift
seq "$shares" | parallel ${NODES:+--sshloginfile "$NODES" --workdir "$PWD"} --halt now,fail=1 --tag --quote \
    ./lezantsiro stack "$@" --shard "{}/$shares" --jobs 1
