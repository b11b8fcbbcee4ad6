#!/bin/sh
# A nightly job: whether the plan still meets its requirements. It writes verdicts.xml (JUnit), which most services that run such jobs
# show, and verdicts.json. Draws are kept in the folder draws, so a job that was stopped goes on from there.
#
# Usage: nightly.sh [PLAN]. Status 0: all requirements are met; 10: some are not; 11: some are not decided; others are errors.
set -u
cd "$(dirname "$0")" || exit 1
exec foldcairn verify "${1-plan.toml}" --junit verdicts.xml --json verdicts.json --resume draws
