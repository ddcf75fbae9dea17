#!/bin/sh
# Runs every example and test over lib/libhivevigil.a and .so, which build.sh makes. From any folder:
#     sh examples/check.sh
#     sh examples/check.sh --quick      only what takes seconds
#     sh examples/check.sh --no-vectors all but the stored lines of vectors, where these were answered before
# Needs compilers of C and C++: the vectors, which come first, are never skipped. What else a machine lacks (the
# sanitizers, valgrind, cargo, python3, NumPy, GDAL, Dask) is named and skipped; nothing is installed. The parts run
# side by side, one for each processor and four at most. The status is 0 where all that ran ended well.
set -u
quick= level=-O2 own_tests=--test vectors=1
case ${1:-} in
--quick) quick=1 level=-O0 own_tests= ;;
--no-vectors) vectors= ;;
esac
top=$(cd "$(dirname "$0")/.." && pwd)
cd "$top" || exit 1
cc=${CC:-cc} cxx=${CXX:-c++} python=${PYTHON:-python3}
# a package that is made does not meet what another part's Python leaves in the sources
export PYTHONDONTWRITEBYTECODE=1
work=$(mktemp -d)
trap 'rm -rf "$work"' EXIT
trap 'exit 143' HUP INT TERM
passed=0 failed=0 skipped=0
c_flags="-std=c11 -Wall -Wextra -Werror -Iinclude"
cxx_flags="-std=c++17 -pthread -Wall -Wextra -Werror -Iinclude"
wraps="-Wl,--wrap=malloc,--wrap=calloc,--wrap=realloc,--wrap=free"
watched="-O0 -g -fsanitize=address,undefined -fno-sanitize-recover=all"

has() { command -v "$1" >/dev/null 2>&1; }
skip() { skipped=$((skipped + 1)); echo "skipped: $1, no $2"; }

# run NAME COMMAND..: the last line of what it says is shown that is not empty, and all of it where it fails, with the
# status; 124 is that of a command which was ended because it took too long
run() {
    name=$1
    shift
    begin=$(date +%s)
    if "$@" >"$work/log" 2>&1 </dev/null; then
        passed=$((passed + 1))
        echo "passed: $name ($(($(date +%s) - begin)) s): $(grep . "$work/log" | tail -n 1)"
    else
        status=$?
        failed=$((failed + 1))
        [ "$status" = 124 ] && late=", which took too long" || late=
        {
            echo "FAILED: $name ($(($(date +%s) - begin)) s, status $status$late)"
            sed 's/^/    /' "$work/log"
        } >"$work/failure"
        cat "$work/failure"
    fi
}

# built COMPILER FLAGS SOURCE: compiles, links and runs a program over the archive
built() {
    $1 $2 "$3" lib/libhivevigil.a -o "$work/program" && timeout 120 "$work/program"
}

# Debian's packages belong to /usr/bin/python3, which is not always the python3 on PATH
python_with() {
    for found in "$python" /usr/bin/python3; do
        "$found" -c "import $1" 2>/dev/null && { echo "$found"; return; }
    done
    return 1
}
# the first Python whose sqlite3 loads extensions
python_of_extensions() {
    for each in "$python" /usr/bin/python3; do
        "$each" -c 'import sqlite3; sqlite3.connect(":memory:").enable_load_extension(True)' 2>/dev/null || continue
        echo "$each"
        return 0
    done
    return 1
}

# lane PART..: runs each part that no other lane has begun, in a folder and with counts of its own
lane() {
    for part; do
        mkdir "$work/parts/$part" 2>/dev/null || continue
        (
            command -v "$part" >/dev/null || exit 1
            work=$work/parts/$part passed=0 failed=0 skipped=0
            "$part"
            echo "$passed $failed $skipped" >"$work/counts"
        )
    done
}

# in_lanes PART..: runs the parts side by side, the first ones first, and adds what they count
in_lanes() {
    lanes=$(nproc 2>/dev/null || echo 1)
    [ "$lanes" -le 4 ] || lanes=4
    mkdir "$work/parts"
    while [ "$lanes" -gt 0 ]; do
        lane "$@" &
        lanes=$((lanes - 1))
    done
    wait
    for part; do
        if ! read -r of_part failures skips <"$work/parts/$part/counts"; then
            echo "FAILED: $part ended early"
            of_part=0 failures=1 skips=0
        fi
        passed=$((passed + of_part)) failed=$((failed + failures)) skipped=$((skipped + skips))
    done
}

# The end: what passed, failed and was skipped.
finish() {
    echo "$passed passed, $failed failed, $skipped skipped"
    [ "$failed" = 0 ]
    exit
}

# the names of the headers (that of tables includes the other) are the library's, and the other way round, but for the
# calls over Arrow for callers without a C header
names_agree() {
    printf 'hv_abi\nhv_version\n' >"$work/versions"
    nm -g --defined-only lib/libhivevigil.a 2>/dev/null |
        awk '$2 == "T" && $3 ~ /^hv_/ { print $3 }' | sort -u >"$work/exported"
    $cc -E -P -DHV_EXPORTS_ALONE -Iinclude include/hivevigil_tables.h | grep -o 'hv_[a-z0-9_]*(' | tr -d '(' | sort -u \
        >"$work/declared"
    $cc -Iinclude -c examples/python/arrow_calls.c -o "$work/arrow_calls.o" &&
        nm "$work/arrow_calls.o" | awk '$2 == "T" { print $3 }' | sort -u - "$work/declared" >"$work/all" || return 1
    # each is a call of the header too, but for the two that take nothing
    $cc -E -P -Iinclude include/hivevigil_tables.h | grep -o 'hv_call_[a-z0-9_]*(' | tr -d '(' | sed 's/_call_/_/' |
        sort -u - "$work/versions" | diff "$work/declared" - &&
        diff "$work/all" "$work/exported" && echo "$(wc -l <"$work/declared") calls"
}
# the shared object shows these and no other, and says its binary interface
shared_agrees() {
    nm -D --defined-only lib/libhivevigil.so | awk '{ print $3 }' | sort -u >"$work/shown"
    diff "$work/all" "$work/shown" &&
        readelf -d lib/libhivevigil.so | grep -o 'libhivevigil\.so\.[0-9.]*[0-9]' | grep -q . &&
        echo "$(wc -l <"$work/shown") calls"
}
declared_names() {
    if has nm && has readelf; then
        run "the header declares what the library exports" names_agree
        run "the shared object exports these and no other" shared_agrees
    else
        skip "names of the header" "nm and readelf"
    fi
}

# each call, and what it refuses
c_tests="errors answers refusals kept_outputs levels forms constants lists groups pairs sorts sums totals floats \
    float_casts float_pairs decimals decimal_casts exact builders messages typed_messages arrow_arrays long_rows \
    long_answers"
c_programs() {
    for test in first layout $c_tests; do
        run "c/$test.c" built "$cc" "$c_flags $level" "examples/c/$test.c"
    done
    run "c/refused_memory.c" built "$cc" "$c_flags $level $wraps" examples/c/refused_memory.c
    run "c/formats.c" built "$cc" "$c_flags $level $wraps" examples/c/formats.c
    run "c/helpers.c" built "$cc" "$c_flags $level" examples/c/helpers.c
    run "c/tables.c" built "$cc" "$c_flags $level" examples/c/tables.c
    run "c/tables_memory.c" built "$cc" "$c_flags $level $wraps" examples/c/tables_memory.c
}

# the same under sanitizers, where there are some
c_sanitized() {
    if [ "$arrow_how" ]; then
        run "vectors, the stored lines under sanitizers" sh examples/vectors/run.sh --sanitize
        for test in $c_tests; do
            run "c/$test.c under sanitizers" built "$cc" "$c_flags $watched" "examples/c/$test.c"
        done
    else
        skip "the address and undefined-behaviour sanitizers" "-fsanitize of $cc"
    fi
}
cpp_tests="demo numbers decimal_casts decimal_scales spans tables table_rows long_rows"
cpp_sanitized() {
    [ "$arrow_how" ] && has "$cxx" || return
    for test in $cpp_tests; do
        run "cpp/$test.cpp under sanitizers" built "$cxx" "$cxx_flags $watched" "examples/cpp/$test.cpp"
    done
    run "cpp/spans.cpp in C++20, under sanitizers" built "$cxx" "$cxx_flags -std=c++20 $watched" \
        examples/cpp/spans.cpp
}

# Arrow: each rule by hand, random legal arrays and broken ones, and each request for memory refused. arrow_random,
# arrow_long, arrow_lists and arrow_broken take a number of arrays and a seed: thousands each run here, more by hand.
arrow_programs() {
    for test in arrow_rules arrow_options arrow_streams arrow_random arrow_long arrow_lists arrow_broken; do
        run "c/$test.c$arrow_how" built "$cc" "$c_flags $arrow_flags" "examples/c/$test.c"
    done
    run "c/arrow_memory.c" built "$cc" "$c_flags -O0 $wraps" examples/c/arrow_memory.c
    # broken messages, in the same way: a hundred thousand here, a million in nine seconds
    run "c/messages_broken.c$arrow_how" built "$cc" "$c_flags $arrow_flags $wraps" examples/c/messages_broken.c
}

table_files_read() {
    $cc $c_flags $1 examples/c/table_files.c lib/libhivevigil.a -o "$work/table_files" &&
        timeout 200 "$work/table_files" examples/corpus
}
# the stored messages, which each version from 1.0.0 on reads as their rows and writes as their bytes
corpus_read() {
    $cc $c_flags $1 examples/c/corpus.c lib/libhivevigil.a -o "$work/corpus" &&
        timeout 60 "$work/corpus" examples/corpus/messages.txt examples/corpus/typed.txt
}
# tables, and, also with each request for memory refused, decimals of two scales and what headers add to tables
c_tables() {
    for test in tables table_order; do
        run "c/$test.c$arrow_how" built "$cc" "$c_flags $arrow_flags" "examples/c/$test.c"
    done
    for test in decimal_scales table_conditions table_group_by table_groups table_arrow; do
        run "c/$test.c$arrow_how" built "$cc" "$c_flags $arrow_flags $wraps" "examples/c/$test.c"
    done
    run "c/table_files.c$arrow_how" table_files_read "$arrow_flags $wraps -Wl,--wrap=umask"
    run "c/corpus.c$arrow_how" corpus_read "$arrow_flags"
}

under_valgrind() {
    $cc $c_flags -O1 -g ${2:-} "examples/c/$1.c" lib/libhivevigil.a -o "$work/program" &&
        timeout 300 valgrind --quiet --error-exitcode=1 --leak-check=full --show-leak-kinds=all "$work/program"
}
c_under_valgrind() {
    if has valgrind; then
        for test in answers refusals lists builders arrow_arrays; do
            run "c/$test.c under valgrind" under_valgrind "$test"
        done
        run "c/refused_memory.c under valgrind" under_valgrind refused_memory "$wraps"
        run "c/helpers.c under valgrind" under_valgrind helpers
        run "c/tables_memory.c under valgrind" under_valgrind tables_memory "$wraps"
    else
        skip "memory that is read and lost" valgrind
    fi
}

# what a program includes that takes every warning for an error
headers_alone() {
    warned="-Wall -Wextra -Wpedantic -Wshadow -Wconversion -Wno-string-conversion -Werror -Iinclude -fsyntax-only"
    for header in hivevigil hivevigil_errors hivevigil_helpers hivevigil_decimals hivevigil_arrow hivevigil_arrow_errors \
        hivevigil_tables hivevigil_table_errors hivevigil_table_helpers hivevigil_table_concat \
        hivevigil_table_groups hivevigil_table_arrow hivevigil_table_file hivevigil_stored_file; do
        echo "#include <$header.h>" >"$work/alone.c"
        cp "$work/alone.c" "$work/alone.cpp"
        $cc -std=c99 $warned "$work/alone.c" && $cxx -std=c++17 $warned "$work/alone.cpp" || return 1
    done
    # where C is strict, also after other headers; C++ before 17 says so, and nothing else
    printf '#include <stdio.h>\n#include <hivevigil.h>\n#include <hivevigil_table_file.h>\n' >"$work/strict.c"
    for standard in c11 gnu11 c17; do $cc -std=$standard $warned "$work/strict.c" || return 1; done
    for header in hivevigil hivevigil_table; do
        echo "#include <$header.hpp>" >"$work/refused.cpp"
        $cxx -std=c++14 -Iinclude -fsyntax-only "$work/refused.cpp" 2>"$work/said" && return 1
        [ "$(grep -c 'error' "$work/said")" -le 2 ] && grep -q "for C++17 and later" "$work/said" || return 1
    done
    printf '#include <hivevigil.hpp>\nint main() { hv::Column::of(std::vector<double>{1.5}); }\n' >"$work/refused.cpp"
    $cxx -std=c++17 -Iinclude -fsyntax-only "$work/refused.cpp" 2>"$work/said" && return 1
    grep -q "made by hv::Floats" "$work/said" || return 1
    for test in demo numbers decimal_casts decimal_scales spans tables tables_memory table_rows table_tool long_rows; do
        $cxx -std=c++17 $warned "examples/cpp/$test.cpp" && $cxx -std=c++20 $warned "examples/cpp/$test.cpp" || return 1
    done
    echo "those of C and C++, and what is made of their templates"
}
# the programs in C++ and C that docs/TABLES.md shows
tables_page() {
    for page in "page.cpp $cxx -std=c++17" "page.c $cc -std=c11"; do
        first=$([ "${page%% *}" = page.c ] && echo '<hivevigil_table_file.h>' || echo '<hivevigil_table.hpp>')
        sed -n "/^    #include $first/,/^    }\$/s/^    //p" docs/TABLES.md >"$work/${page%% *}"
        (cd "$work" && ${page#* } -Wall -Wextra -Werror "-I$top/include" "${page%% *}" "$top/lib/libhivevigil.a" -o page &&
            ./page >"$work/${page%% *}.said") || return 1
    done
    [ "$(cat "$work/page.cpp.said")" = "$(printf 'north 903\nsouth 43')" ] &&
        [ "$(cat "$work/page.c.said")" = 'HV_OK: 903 43' ] && echo "docs/TABLES.md, in C++ and C"
}
table_cases_agree() {
    $cxx $cxx_flags $1 "examples/cpp/$2.cpp" lib/libhivevigil.a -o "$work/table_cases" &&
        timeout 60 "$work/table_cases" examples/corpus
}
cpp_programs() {
    if has "$cxx"; then
        run "headers alone, with every warning" headers_alone
        run "the page of tables, in C++ and C" tables_page
        for test in $cpp_tests; do run "cpp/$test.cpp" built "$cxx" "$cxx_flags -O2" "examples/cpp/$test.cpp"; done
        run "cpp/tables_memory.cpp" built "$cxx" "$cxx_flags -O0 $wraps" examples/cpp/tables_memory.cpp
        # the cases of tables, which Rust's and Python's tests run too
        for test in table_cases table_cases_of_c; do
            run "cpp/$test.cpp$arrow_how" table_cases_agree "$arrow_flags" $test
        done
        run "cpp/spans.cpp in C++20" built "$cxx" "$cxx_flags -std=c++20 -O2" examples/cpp/spans.cpp
    else
        skip "cpp/demo.cpp" "$cxx"
    fi
}

# the program, as it ships and under sanitizers, held against Python's csv module, plain lists, and messages' model
program_as() {
    FLAGS=$2 sh program/build.sh "$work/$1" && timeout 900 "$model" -B program/test.py "$work/$1/hivevigil" $3 &&
        timeout 900 "$model" -B program/test_tables.py "$work/$1/hivevigil" $3 &&
        timeout 900 "$model" -B program/test_kept.py "$work/$1/hivevigil" ${3%% --messages*} || return
    ! has bash || timeout 900 "$model" -B program/test_completions.py "$work/$1/hivevigil"
}
the_program() {
    if has "$cxx" && { model=$(has protoc && python_with google.protobuf) || model=$(python_with csv); }; then
        run "program/test.py, test_tables.py, test_kept.py, test_completions.py" program_as shipped "" "--files 25 --messages 300"
        [ "$arrow_how" ] && run "program/test.py, test_tables.py, test_kept.py, test_completions.py$arrow_how" \
            program_as watched "$watched" "--files 6 --messages 100"
    else
        skip "the program" "$cxx and Python"
    fi
}

rust_crate() {
    if has cargo && cargo --version >/dev/null 2>&1; then
        export CARGO_TARGET_DIR="$work/target"
        with="--quiet --offline --manifest-path rust/Cargo.toml"
        run "rust, its tests and those of its pages" timeout 300 cargo test $with
        if cargo clippy --version >/dev/null 2>&1; then
            run "rust, what cargo clippy warns of" timeout 300 cargo clippy $with --all-targets -- -D warnings
        else
            skip "rust, what cargo clippy warns of" "cargo clippy"
        fi
        run "rust, the demonstration" timeout 100 cargo run $with --example demo
        tables_exchanged() {
            cargo build $with --example tables &&
                timeout 200 "$python" -B examples/bytes/rust_tables.py "$CARGO_TARGET_DIR/debug/examples/tables" 300 1
        }
        if has "$python" && "$python" -c 'import ctypes' 2>/dev/null; then
            run "bytes/rust_tables.py" tables_exchanged
        else
            skip "bytes/rust_tables.py" "$python"
        fi
        # what owns the structs of Arrow, with the address sanitizer of the same compiler, where it lets one have it
        arrow_tests="--test arrow --test arrow_broken --test arrow_streams --test table_arrow"
        if echo 'fn main() {}' >"$work/empty.rs" && RUSTC_BOOTSTRAP=1 rustc -Zsanitizer=address "$work/empty.rs" \
            -o "$work/empty" 2>/dev/null && "$work/empty"; then
            run "rust, Arrow under the address sanitizer" env RUSTC_BOOTSTRAP=1 RUSTFLAGS=-Zsanitizer=address \
                timeout 300 cargo test $with --target "$(rustc -vV | sed -n 's/^host: //p')" $arrow_tests
        else
            skip "rust, Arrow under the address sanitizer" "rustc that has one"
        fi
        run "bench, every line over few rows" timeout 300 sh bench/run.sh --smoke
        run "bench/threads, few rows" timeout 300 sh bench/threads/run.sh --rows 100000 --turns 1 1 2
    else
        skip "rust" cargo
        skip "bench, every line over few rows" cargo
    fi
}

# the files of tables that C++ and Python, or C and Python, write of the same rows
table_files_agree() {
    $cxx $cxx_flags ${1:--O2} examples/cpp/table_tool.cpp lib/libhivevigil.a -o "$work/table_tool" &&
        timeout 300 "$python" -B examples/cpp/table_files.py "$work/table_tool" --tables "$2"
}
table_files_of_c_agree() {
    $cc $c_flags ${1:--O2} -Iexamples/c examples/c/table_tool.c lib/libhivevigil.a -o "$work/table_tool_of_c" &&
        timeout 300 "$python" -B examples/cpp/table_files.py "$work/table_tool_of_c" --c --tables "$2"
}
python_package() {
    if has "$python"; then
        run "errors, types, operators and forms stand once" "$python" tools/lists.py
        run "corpus/table_answers.py" "$python" -B examples/corpus/table_answers.py
    else
        skip "that errors, types, operators and forms stand once" "$python"
    fi

    if has "$python" && "$python" -c 'import ctypes' 2>/dev/null; then
        run "python/demo.py" timeout 60 "$python" examples/python/demo.py
        run "python/table_cases.py" timeout 60 "$python" examples/python/table_cases.py
        run "python/threads.py" timeout 60 "$python" examples/python/threads.py --rows 300000 --threads 4
    else
        skip "python/demo.py and threads.py" "$python"
    fi
    if has "$python" && "$python" -c 'import ctypes' 2>/dev/null; then
        run "c/table_tool.c with cpp/table_files.py$arrow_how" table_files_of_c_agree "$arrow_flags" 60
    else
        skip "c/table_tool.c" "$python"
    fi
    if has "$cxx" && has "$python" && "$python" -c 'import ctypes' 2>/dev/null; then
        run "cpp/table_files.py" table_files_agree "" 200
        [ "$arrow_how" ] && run "cpp/table_files.py$arrow_how" table_files_agree "$watched" 30
    else
        skip "cpp/table_files.py" "$cxx and Python"
    fi

    if found=$(python_with numpy); then
        run "python/demo.py with NumPy" timeout 60 "$found" examples/python/demo.py
        run "bench/columns, few rows" env PYTHON="$found" timeout 900 sh bench/columns/run.sh --smoke
    else
        skip "python/demo.py with NumPy, bench/columns" "NumPy for Python"
    fi
    if found=$(python_with pytest,hypothesis,numpy,pandas); then
        quick="env HYPOTHESIS_PROFILE=few HYPOTHESIS_STORAGE_DIRECTORY=$work/hypothesis timeout 600"
        run "python, its tests" $quick "$found" -m pytest -q -p no:cacheprovider python/tests
        "$found" -c 'import mypy' 2>/dev/null || skip "python, its types (python/tests/test_types.py)" "mypy for Python"
        "$found" -c 'import dask.array, distributed' 2>/dev/null ||
            skip "python, its chunks (python/tests/test_dask*.py)" "Dask for Python"
    else
        skip "python, its tests" "pytest, Hypothesis, NumPy and pandas for Python"
    fi
    if found=$(python_with pandas); then
        run "bench/readings.py, few rows" timeout 120 "$found" bench/readings.py --rows 5000 --turns 1
    else
        skip "bench/readings.py" "pandas for Python"
    fi
    if has "$python"; then
        "$python" examples/gdal_csv/make_readings.py 2000 >"$work/few.csv"
        run "python -m hivevigil" env PYTHONPATH=python timeout 60 "$python" -m hivevigil "$work/few.csv" --reader csv
    else
        skip "python -m hivevigil" "$python"
    fi
}

# Arrow, GDAL and Dask for Python
python_users() {
    for library in pyarrow polars duckdb; do
        if found=$(python_with "$library"); then
            run "arrow_exchange/exchange.py $library" timeout 120 "$found" examples/arrow_exchange/exchange.py "$library"
        else
            skip "Arrow arrays exchanged with $library" "$library for Python"
        fi
    done
    if found=$(python_with osgeo.gdal,numpy,sqlite3); then
        "$found" examples/gdal_csv/make_readings.py 20000 >"$work/readings.csv"
        summary="timeout 200 $found examples/gdal_csv/summary.py $work/readings.csv"
        run "gdal_csv/summary.py" $summary --batch 4096 --where status '>' 0
        run "gdal_csv/summary.py by a text" $summary --where station = Dakar
        run "gdal_csv/edge_cases.py" timeout 200 "$found" examples/gdal_csv/edge_cases.py
    else
        skip "gdal_csv/summary.py" "GDAL for Python"
    fi
    if found=$(python_with dask.array,distributed,numpy); then
        run "dask_chunks/chunks.py" timeout 200 "$found" examples/dask_chunks/chunks.py --rows 100000 --chunks 1 7 100
        # a cluster that starts workers anew may take minutes on a busy machine: no answer in time is no wrong answer
        timeout -k 10 200 "$found" examples/dask_chunks/dying_workers.py >"$work/dying" 2>&1 </dev/null
        status=$?
        if [ "$status" = 124 ] || [ "$status" = 137 ]; then
            skip "dask_chunks/dying_workers.py" "answer within 200 s"
        else
            run "dask_chunks/dying_workers.py" sh -c "cat '$work/dying'; exit $status"
        fi
    else
        skip "dask_chunks/chunks.py" "Dask for Python"
    fi
    if found=$(python_with dask.dataframe,distributed,numpy,pandas); then
        few="--rows 200000 --files 5 --turns 1"
        run "dask_chunks/figures.py, few rows" timeout 300 "$found" examples/dask_chunks/figures.py $few
    else
        skip "dask_chunks/figures.py" "Dask and pandas for Python"
    fi
}

# SQLite: the extension linked with its test, under the sanitizers, and as SQLite loads it
sqlite_parts="$(echo examples/sqlite/functions.c examples/sqlite/pairs.c examples/sqlite/appends.c examples/sqlite/steps.c \
    examples/sqlite/*_table.c examples/engines/*.c)"
with_sqlite() {
    $cc $c_flags -Iexamples/c -DSQLITE_CORE $2 "examples/sqlite/$1.c" $sqlite_parts lib/libhivevigil.a -lsqlite3 -lm \
        -o "$work/program" && timeout 200 "$work/program"
}
sqlite_loaded() {
    $cc $c_flags -Iexamples/c -DLOADED_ALONE "examples/sqlite/$1.c" -lsqlite3 -o "$work/program" &&
        timeout 200 "$work/program" lib/hivevigil_sqlite.so
}
sqlite_extension() {
    if echo '#include <sqlite3ext.h>' | $cc -E - >/dev/null 2>&1; then
        run "sqlite/test.c$arrow_how" with_sqlite test "$arrow_flags"
        run "sqlite/test_steps.c$arrow_how" with_sqlite test_steps "$arrow_flags"
        run "sqlite/test_floats.c$arrow_how" with_sqlite test_floats "$arrow_flags"
        run "sqlite/memory.c" with_sqlite memory "-O2 $wraps"
        # the same where columns of few runs are worked stretch by stretch too
        run "sqlite/test.c by stretches$arrow_how" with_sqlite test "$arrow_flags -DRUNS_AT_ONCE=3"
        run "sqlite/test_steps.c by stretches$arrow_how" with_sqlite test_steps "$arrow_flags -DRUNS_AT_ONCE=3"
        run "sqlite/test_floats.c by stretches$arrow_how" with_sqlite test_floats "$arrow_flags -DRUNS_AT_ONCE=20"
        run "sqlite/memory.c by stretches" with_sqlite memory "-O2 $wraps -DRUNS_AT_ONCE=20"
        run "sqlite/build.sh" sh examples/sqlite/build.sh
        run "sqlite, the extension as it is loaded" sqlite_loaded test
        run "sqlite, the same of test_steps.c" sqlite_loaded test_steps
        run "sqlite, the same of test_floats.c" sqlite_loaded test_floats
        if loads=$(python_of_extensions); then
            run "sqlite/figures.py" timeout 200 "$loads" examples/sqlite/figures.py --rows 20000
            run "engines/typed_test.py" timeout 200 "$loads" -B examples/engines/typed_test.py sqlite lib/hivevigil_sqlite.so
            run "engines/long_test.py" timeout 200 "$loads" -B examples/engines/long_test.py sqlite lib/hivevigil_sqlite.so
        else
            skip "sqlite/figures.py, engines/typed_test.py, long_test.py" "Python whose sqlite3 loads extensions"
        fi
        if has protoc && found=$(python_with google.protobuf) &&
            "$found" -c 'import sqlite3; sqlite3.connect(":memory:").enable_load_extension(True)' 2>/dev/null; then
            run "engines/proto_test.py" timeout 100 "$found" examples/engines/proto_test.py lib/hivevigil_sqlite.so 300
        else
            skip "engines/proto_test.py" "protoc and protobuf for Python"
        fi
    else
        skip "sqlite" "sqlite3ext.h (libsqlite3-dev)"
    fi
}

# columns as bytes: random messages of Protocol Buffers' own library, and what the library has to answer to each
messages_agree() {
    $cc $c_flags -O2 examples/bytes/reader.c lib/libhivevigil.a -o "$work/reader" &&
        timeout 200 "$1" examples/bytes/messages.py try "$work/reader" 20000 1
}
tables_agree() {
    $cc $c_flags -O2 examples/bytes/table_reader.c lib/libhivevigil.a -o "$work/table_reader" &&
        timeout 200 "$1" -B examples/bytes/tables.py "$work/table_reader" 2000 1
}
vectors_agree() { timeout 100 "$1" examples/bytes/vectors.py <examples/vectors/lines.txt; }
stored_messages() {
    if has protoc && found=$(python_with google.protobuf); then
        run "bytes/messages.py" messages_agree "$found"
        run "bytes/tables.py" tables_agree "$found"
        run "bytes/vectors.py" vectors_agree "$found"
        run "corpus/make.py --check" timeout 100 "$found" -B examples/corpus/make.py --check
        run "corpus/make_tables.py --check" timeout 100 "$found" -B examples/corpus/make_tables.py --check
    else
        skip "bytes/messages.py, bytes/tables.py, bytes/vectors.py, corpus/make.py, make_tables.py" \
            "protoc and protobuf for Python (protobuf-compiler, python3-protobuf)"
    fi
}

# PostgreSQL: a server of its own, which does not run as root
postgres_extension() {
    if has pg_config && has make && [ -e "$(pg_config --includedir-server)/postgres.h" ] &&
        [ -x "$(pg_config --bindir)/postgres" ] && { [ "$(id -u)" != 0 ] || has runuser; }; then
        run "postgres/test.sql" timeout 900 sh examples/postgres/test.sh
    else
        skip "postgres/test.sql" "PostgreSQL with its headers (and runuser, as root)"
    fi
}

# what is installed and packed, used in empty folders; on a busy machine all packages take minutes to be made again
package() { run "$1" timeout 900 sh examples/packages.sh "$2" "$work/dist"; }
packages() {
    run "dist.sh" sh dist.sh "$work/dist"
    if has pkg-config; then
        package "installed, C" c
        package "the .tar.gz, C" tar
        if [ -e "$(ls "$work"/dist/libhivevigil-dev_*.deb 2>/dev/null)" ]; then
            package "the Debian package, C" deb
        else
            skip "the Debian package" dpkg-deb
        fi
    else
        skip "what is installed, and the .tar.gz and Debian package, in C" pkg-config
    fi
    if has cmake && has "$cxx"; then package "installed, C++" cpp; else skip "installed, C++" "cmake and $cxx"; fi
    if has cargo && cargo --version >/dev/null 2>&1 && has pkg-config; then
        package "installed, Rust" rust
    else
        skip "installed, Rust" "cargo and pkg-config"
    fi
    package "installed and taken away" uninstall
    if [ -e "$(ls "$work"/dist/hivevigil-*-doc.tar.gz 2>/dev/null)" ]; then
        package "the documentation, each link followed" site
    else
        skip "the documentation as a site" "python3-markdown"
    fi
    if [ -e "$(ls "$work"/dist/hivevigil_*.deb 2>/dev/null)" ]; then
        package "the Debian package, the program" program
    else
        skip "the Debian package, the program" "dpkg-deb or $cxx"
    fi
    if [ -e "$(ls "$work"/dist/python3-hivevigil_*.deb 2>/dev/null)" ]; then
        package "the Debian package, Python" python
        package "the Debian packages of databases" databases
    else
        skip "the Debian packages, Python and databases" dpkg-deb
    fi
    if has sha256sum; then package "checksums, and packages made again" sums; else skip "checksums" sha256sum; fi
    if ! [ -e "$(ls "$work"/dist/*.whl 2>/dev/null)" ]; then
        skip "the wheel" "setuptools and wheel for Python"
    elif "$python" -c 'import ensurepip, venv' 2>/dev/null; then
        package "the wheel, Python" wheel
    else
        skip "the wheel, Python" "venv for $python"
    fi
}

for library in lib/libhivevigil.a lib/libhivevigil.so; do
    [ -e "$library" ] || { echo "no $library: sh examples/build.sh makes it"; exit 1; }
done

# every line of vectors over the library as it ships; without a C++ compiler this fails
[ -z "$vectors" ] || run "vectors, the stored lines" sh examples/vectors/run.sh $own_tests
if [ "$quick" ]; then
    declared_names
    c_programs
    has "$cxx" && run "cpp/demo.cpp" built "$cxx" "$cxx_flags -O0" examples/cpp/demo.cpp
    has "$python" && run "python/demo.py" timeout 60 "$python" examples/python/demo.py
    skip "all but these, which take seconds: sh examples/check.sh runs sanitizers, Arrow, Rust, databases, packages" "time"
    finish
fi

# these two look at times, so nothing else runs then
run "bench/growth, no other call grows with rows" sh bench/growth/run.sh --check
run "c/many_runs.c" built "$cc" "$c_flags -O2 ${wraps%,*}" examples/c/many_runs.c

arrow_flags=-O2 arrow_how=
echo 'int main(void) { return 0; }' >"$work/empty.c"
if $cc $watched "$work/empty.c" -o "$work/empty" 2>/dev/null && "$work/empty"; then
    arrow_flags=$watched arrow_how=" under sanitizers"
fi

# the longest ones first
in_lanes packages rust_crate c_sanitized the_program python_package cpp_sanitized sqlite_extension c_tables cpp_programs \
    python_users arrow_programs c_programs stored_messages postgres_extension c_under_valgrind declared_names
finish
