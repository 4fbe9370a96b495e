# The program that is measured, as `program`, for the scripts beside this one: INDEXD_PROGRAM, or the one that ./indexd runs, which is built first where it has to be.
root=$(dirname -- "$(dirname -- "$(readlink -f -- "${BASH_SOURCE[0]}")")")
program=${INDEXD_PROGRAM:-$("$root/.ci/program" </dev/null)}
