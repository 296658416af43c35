# Sourced by the reports of benchmarks.

# A table of so many rows, numbered from 1.
tables() {
    echo '[sales]'
    echo 'columns = ["qty", "price"]'
    echo 'rows = ['
    seq 1 "$1" | sed 's/.*/[&, &, 7],/'
    echo ']'
}
