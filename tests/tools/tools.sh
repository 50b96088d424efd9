# The tools that prove and gate. tests/part sources this file; the functions of tests/lib.sh and the variables of tests/part are used here.

# the tools that prove and gate, over a toolchain that names its own parts otherwise
run_any_kit() {
    if ! command -v python3 > /dev/null; then
        echo 'skipped: tests/tools/any_kit.py (no python3)'
        return
    fi
    PYTHONDONTWRITEBYTECODE=1 python3 tests/tools/any_kit.py "$scratch/any_kit" 2>&1 | tee "$scratch/out"
    count_of 'tests/tools/any_kit.py' "$scratch/out"
}

# in which order checks run, and what they are measured to take
run_lanes() {
    if ! command -v python3 > /dev/null; then
        echo 'skipped: tests/tools/lanes.py (no python3)'
        return
    fi
    PYTHONDONTWRITEBYTECODE=1 python3 tests/tools/lanes.py "$scratch/lanes" 2>&1 | tee "$scratch/out"
    count_of 'tests/tools/lanes.py' "$scratch/out"
}

# whether each edit fits the text, which aren't tried again, and what is copied of a row that an edit names
run_kept_edits() {
    if ! command -v python3 > /dev/null; then
        echo 'skipped: tests/tools/edit_texts.py, tests/tools/kept.py, tests/tools/rows.py (no python3)'
        return
    fi
    PYTHONDONTWRITEBYTECODE=1 python3 tests/tools/edit_texts.py 2>&1 | tee "$scratch/out"
    count_of 'tests/tools/edit_texts.py' "$scratch/out"
    PYTHONDONTWRITEBYTECODE=1 python3 tests/tools/rows.py "$scratch/rows" 2>&1 | tee "$scratch/out"
    count_of 'tests/tools/rows.py' "$scratch/out"
    PYTHONDONTWRITEBYTECODE=1 python3 tests/tools/kept.py "$scratch/kept" 2>&1 | tee "$scratch/out"
    count_of 'tests/tools/kept.py' "$scratch/out"
}
