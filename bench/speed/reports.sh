# Sourced by run.sh: the reports that it runs, and their tables.

source "$(dirname "${BASH_SOURCE[0]}")/../rows.sh"

# Calls a procedure for each row of the table.
lines() {
    echo 'reducer total : add;'
    echo 'reducer top : argmax;'
    echo 'proc line(r) { v = sales[r].qty * sales[r].price; update total v; update top v, r; return v; }'
    echo 'proc main() { cilk_for r in 1 .. limit sales grain 64 : line(r); t = read total; return t; }'
}

# The same with a record for each row.
records() { lines | sed 's/^proc line/memo proc line/'; }

# So many iterations without a table.
iterations() {
    echo 'reducer a : add;'
    echo 'reducer b : add;'
    echo 'proc one(i) { x = i * 3; y = x + i; update a x; update b y; }'
    echo "proc main() { cilk_for i in 0 .. $1 grain 64 : one(i); return 0; }"
}

# fib of that number, by calls.
calls() {
    echo 'proc fib(n) {'
    echo '  if n < 2 { return n; }'
    echo '  x = call fib(n - 1);'
    echo '  y = call fib(n - 2);'
    echo '  sync;'
    echo '  return x + y;'
    echo '}'
    echo "proc main() { x = call fib($1); return x; }"
}

# The same with a spawn in each call that isn't the smallest.
spawns() { calls "$1" | sed 's/x = call fib(n/x = spawn fib(n/'; }
