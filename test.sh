#!/bin/sh
# The quick test of the library for C: builds it without proof if there is none in lib/, holds it against every line of
# vectors (docs/VECTORS.md), and runs the programs in C, C++ and Python that take seconds. From any folder:
#     sh test.sh
# The build needs rt, the toolchain's command, and takes minutes; the tests need compilers of C and C++, and take
# seconds. The last line is `N passed, N failed, N skipped`. `sh examples/check.sh` runs all callers, `sh .ci/run` the
# proofs too.
set -eu
cd "$(dirname "$0")"
if [ ! -e lib/libhivevigil.a ] || [ ! -e lib/libhivevigil.so ]; then
    echo "no library in lib/: it is built without proof first"
    sh examples/build.sh --unproved
fi
[ ! -e lib/UNPROVED ] || echo "the library in lib/ was built without proof: this tests it, and proves nothing"
exec sh examples/check.sh --quick
