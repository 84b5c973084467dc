#!/usr/bin/env bash
# A range in pieces as an array of Slurm jobs, in a folder that all machines see, with the program on the
# path:
#   pieces.sh sessions.csv 2023-01-03 2023-12-29 4 > pieces &&
#       sbatch --wait --array=1-4 slurm.sh --labels labels.csv &&
#       awk 'NR == 1 || FNR > 1' piece-{1..4}.csv > table.csv
# The words after slurm.sh are further options of the run. The order of the files in the last line is that of
# the pieces. Where a piece fails it leaves no file, and the last line is not reached. Each job reads and holds
# all bars, and the adjustments of adjustments.db: without them splits would count as falls.
#SBATCH --job-name=tohmeril
#SBATCH --cpus-per-task=1
#SBATCH --output=piece-%a.log
set -euo pipefail
read -r first last < <(sed -n "${SLURM_ARRAY_TASK_ID}p" pieces)
piece=piece-$SLURM_ARRAY_TASK_ID.csv
rm -f "$piece"
tohmeril run p.pl sessions.csv assets.csv bars.csv "$first" "$last" --adjustments adjustments.db "$@" > "$piece.part"
mv "$piece.part" "$piece"
