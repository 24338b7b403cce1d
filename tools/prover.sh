# Sourced by .ci/run, tests/definitions and tools/built.sh: a setting under which the prover takes less time. It does not change what it says.

# Large pages: the prover's memory is some hundred megabytes.
export GLIBC_TUNABLES="${GLIBC_TUNABLES:-glibc.malloc.hugetlb=1}"
