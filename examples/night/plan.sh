#!/bin/sh
# Plans a timetable, and replaces the old plan only where there is a new one.
#
#     plan.sh TIMETABLE PLAN [OPTION..]      with the options of `mdvsp solve`
#
# PLAN.log says how far the search has come, and why there is no plan. The status is that of the run.
set -u
timetable=$1
plan=$2
shift 2
mdvsp --log solve "$@" "$timetable" > "$plan.new" 2> "$plan.log"
status=$?
case $status in
  0 | 11) grep -q '^cost,none$' "$plan.new" || mv "$plan.new" "$plan" ;;
esac
exit "$status"
