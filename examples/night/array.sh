#!/bin/bash
#SBATCH --job-name=mdvsp
#SBATCH --array=1-40
#SBATCH --cpus-per-task=4
#SBATCH --mem=2G
#SBATCH --time=00:15:00
#SBATCH --output=plans/%a.out
# Plans the scenario of the task's number. To SLURM each status but 0 is a failure, so 10 and 11 become 0 here.
scenario=$(printf '%s\n' scenarios/*.csv | sed -n "${SLURM_ARRAY_TASK_ID}p")
examples/night/plan.sh "$scenario" "plans/$(basename "$scenario")" \
  --workers "$SLURM_CPUS_PER_TASK" --seconds 600 --gap 1000
status=$?
echo "$scenario: status $status"
case $status in
  10 | 11) exit 0 ;;
esac
exit "$status"
