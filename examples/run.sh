#!/bin/sh
# Runs a job and prints its report: sh examples/run.sh examples/first.job
#
# With no job it runs each one that says what it prints, and compares. A job says so in its lines that begin with '#>'.
here=$(realpath "$(dirname "$0")") || exit 2
if [ $# -gt 0 ]; then
    job=$(realpath "$1") || exit 2
    cd "$here/../crates/sls_run" || exit 2
    exec rt try -- run < "$job"
fi
cases=$(mktemp -d) || exit 2
trap 'rm -rf "$cases"' EXIT
for job in "$here"/*.job; do
    name=$(basename "$job" .job)
    if grep -q '^#> ' "$job"; then
        cp "$job" "$cases/$name"
        sed -n 's/^#> //p' "$job" > "$cases/$name.stdout"
    fi
done
cd "$here/../crates/sls_run" || exit 2
rt try --cases "$cases" -- run
