#!/usr/bin/env bash
# Tries the recipes of docs/recipes.md with build/fixd, in a folder of its own. GNU parallel, Dask, cargo and gcc are
# left out where they aren't installed. Outside the gate, which builds no program at a fixed place.
# bench/recipes.sh [PROGRAM]
set -euo pipefail
cd "$(dirname "$0")/.."

program=$(realpath "${1:-build/fixd}")
[ -x "$program" ] || { echo "recipes: build it first: make run" >&2; exit 1; }
folder=$(mktemp -d)
started=()
trap '[ ${#started[@]} = 0 ] || kill "${started[@]}" 2> /dev/null; rm -rf "$folder"' EXIT
average=$PWD/examples/average
bench=$PWD/bench
pages=$PWD/docs
device=$PWD/examples/device
companion=$PWD/companion
cp examples/smooth/smooth.fixd examples/smooth/smooth.csv "$folder"
cd "$folder"
mkdir bin && ln -s "$program" bin/fixd && PATH="$folder/bin:$PATH"

wrong() { echo "recipes: not so: $1" >&2; exit 1; }
right() { echo "$1: as it should be"; }
same() { cmp "$2" "$3" && right "$1" || wrong "$1"; }

fixd synth --width 16 smooth.fixd > smooth.bundle
[ "$(fixd check smooth.bundle | head -1)" = accepted ] && right "synth and check" || wrong "synth and check"

fixd migrate smooth.bundle > second.bundle
fixd check second.bundle | same "migrate" - <(fixd check smooth.bundle)

# rows enough for parts
{ echo now,last,older; for n in $(seq 1 5000); do echo "0.$n,-0.$((n % 97)),0.$((n % 89))"; done; } > all.csv
fixd run smooth.bundle < all.csv | tail -n +2 > whole.out

# a pipe: each answer comes before the next row is there
(head -2 all.csv; sleep 1; sed -n 3p all.csv) | fixd run smooth.bundle | tail -n +2 > pipe.out
head -2 whole.out | same "a pipe" - pipe.out

# many units
cp "$average"/average.bundle "$average"/motors.csv .
fixd node --units 2 average.bundle < motors.csv > motors.out
printf 'unit,out1\n0,0.5\n1,0.5\n0,0.75\n1,0.25\n' | same "many units" - motors.out
printf 'name,u\nleft,1\nright,1\nleft,1\nright,0\n' > named.csv
awk -F, -v OFS=, 'NR == 1 { print "unit,u"; next }
    !($1 in unit) { unit[$1] = count++; print unit[$1], $1 > "units.csv" } { print unit[$1], $2; fflush() }' named.csv |
  same "units by names" - motors.csv
printf '0,left\n1,right\n' | same "the table of names" - units.csv

# parts by split
head -1 all.csv > header
tail -n +2 all.csv | split -l 1000 - part.
for part in part.??; do (cat header "$part" | fixd run smooth.bundle | tail -n +2 > "$part.out") & done; wait
cat part.??.out > split.out
same "parts by split" whole.out split.out

if command -v parallel > /dev/null; then
  parallel --will-cite --pipepart --header : --block 10k -a all.csv -k 'fixd run smooth.bundle | tail -n +2' \
    > parallel.out
  same "parts by parallel" whole.out parallel.out
  mkdir logs && cp all.csv logs/a.csv && cp smooth.csv logs/b.csv
  parallel --will-cite 'fixd run smooth.bundle < {} > {.}.out' ::: logs/*.csv
  tail -n +2 logs/a.out | same "files by parallel" whole.out -
else
  echo "parallel isn't installed: left out"
fi

# rows that may be bad: the two texts of the page as they stand there
shown() { sed -n "/$1/,/$2/p" "$pages/recipes.md" | sed 's/^    //'; }
shown "    cat > good.awk" "^    END\$" > make_filter.sh && bash make_filter.sh
printf 'time,now,last,older\r\n1,0.5,0.25,0.5\r\n\r\n2,2,0,0\n3,x,0,0\n4,0,-1.5,0\n5,-0.5,1,1e-1\n' > log.csv
awk -v ranges='now:-1:1 last:-1:1 older:-1:1' -f good.awk log.csv 2> dropped.line | fixd run smooth.bundle > good.out
printf 'now,last,older\n0.5,0.25,0.5\n-0.5,1,1e-1\n' | fixd run smooth.bundle | same "rows that are good" - good.out
[ "$(cat dropped.line)" = "3 rows dropped" ] && echo "rows that are bad: counted" || wrong "rows that are bad: counted"

printf 'now;last;older\n0,5;0,25;0,5\n' | sed 's/,/./g; s/;/,/g' | fixd run smooth.bundle |
  same "a decimal comma" - <(head -2 good.out)

printf 'now,last,older\r\n0.5,0.25,0.5\r\n\r\n1,1,1\r\n' > log.csv
sed 's/\r$//; /^$/d' log.csv > rows.csv
fixd run smooth.bundle < rows.csv > out.csv && paste -d, rows.csv out.csv > both.csv
[ "$(head -1 both.csv)" = now,last,older,out1 ] && [ "$(wc -l < both.csv)" = 3 ] &&
  right "answers beside rows" || wrong "answers beside rows"

# numbers of other tools
printf 'x\n1.2345678901234568e-05\n-0.12345678901234567\n12.345678901234567\n0.5\n' > floats.csv
printf 'def f(x: Real): Real = {\n  require(-20 <= x && x <= 20 && x +/- 0.00000000000000005)\n  x + 0.5\n}\n' \
  > floats.fixd
fixd synth --width 32 floats.fixd > floats.bundle
status=0; fixd run floats.bundle < floats.csv > /dev/null 2>&1 || status=$?
[ "$status" = 5 ] && echo "long numbers: refused as they are" || wrong "long numbers: refused as they are"
shown "    awk -F, -v OFS=, 'NR > 1 { for" "floats.csv\$" > cut.sh
bash cut.sh > short.csv && fixd run floats.bundle < short.csv > floats.out && [ "$(wc -l < floats.out)" = 5 ] &&
  right "long numbers, cut" || wrong "long numbers, cut"

# a function in two
printf 'def divisor(x: Real): Real = { require(-5 <= x && x <= 5) 1 + x * x }\n' > first.fixd
printf 'def f(d: Real): Real = { require(1 <= d && d <= 26 && d +/- 0.001) 1 / d }\n' > second.fixd
fixd synth --width 24 first.fixd > first.bundle
fixd synth --width 24 second.fixd > second.bundle
printf 'x\r\n0.1\r\n\r\n-2.25\r\n4.3123457\r\n' > rows.csv
shown "    sed 's.*rows.csv > whole.csv" "second.bundle\$" | tail -2 > split.sh && bash split.sh > split.out
[ "$(wc -l < split.out)" = 4 ] && awk 'NR == 2 { if ($1 < 0.989 || $1 > 0.991) exit 1 }' split.out &&
  right "a function in two" || wrong "a function in two"

# a demand that isn't met, and what was reached
printf 'def f(x: Real): Real = {\n  require(0 <= x && x <= 1)\n  0.3 * x\n} ensuring(out => out +/- 0.0000001)\n' \
  > tight.fixd
status=0; fixd synth --width 16 tight.fixd > /dev/null 2> bad.line || status=$?
[ "$status" = 9 ] && [ "$(cat bad.line)" = "fixd: not found: output 1" ] || wrong "a demand that isn't met"
sed 's/ensuring *(.*)//' tight.fixd > free.fixd
fixd synth --width 16 free.fixd > free.bundle && fixd check free.bundle | grep -q '^out1 [0-9]' &&
  right "what was reached" || wrong "what was reached"

# a bound that is useless
printf 'def ratio(z: Real): Real = { require(0 <= z && z <= 999) z / (z + 1) }\n' > ratio.fixd
fixd synth --width 16 ratio.fixd > ratio.bundle
[ "$(fixd check ratio.bundle | tail -1)" = "out1 501/2^4" ] && right "a useless bound" || wrong "a useless bound"
sed -i 's:z / (z + 1):1 - 1 / (z + 1):' ratio.fixd && fixd synth --width 16 ratio.fixd > ratio.bundle
[ "$(fixd check ratio.bundle | tail -1)" = "out1 1087555/2^26" ] &&
  right "a bound mended" || wrong "a bound mended"

# a page of evidence
"$companion/fixd-tools" --fixd "$program" report smooth.bundle > smooth.md
grep -q '^| out | 3/2^14 | 0.0001832 | within 0.001 |$' smooth.md &&
  right "a page of evidence" || wrong "a page of evidence"

# a controller with an integral, as the page has it
shown "    def pi(setpoint" "^    }\$" > pi.fixd
fixd synth --width 32 pi.fixd > pi.bundle
fixd check pi.bundle | awk -F'[ /^]' '/^out1/ { exit !($2 / 2^$4 < 0.0000013) }' &&
  right "an integral outside" || wrong "an integral outside"

# a scheduler and two workers
python=/usr/bin/python3
if command -v dask-scheduler > /dev/null && "$python" -c 'import distributed' 2> /dev/null; then
  address=tcp://127.0.0.1:8786
  dask-scheduler --host 127.0.0.1 --port 8786 --no-dashboard > scheduler.log 2>&1 & started+=($!)
  for worker in 1 2; do
    dask-worker "$address" --nthreads 1 --no-nanny --no-dashboard > "worker$worker.log" 2>&1 & started+=($!)
  done
  "$python" "$bench/dask_rows.py" "$address" smooth.bundle all.csv --block 10000 > dask.out
  same "rows by Dask" whole.out dask.out
  { echo u; for n in $(seq 1 300); do echo "0.$((n % 7))"; done; } > monday.csv
  { echo u; for n in $(seq 1 200); do echo "-0.$((n % 3))"; done; } > tuesday.csv
  "$python" "$bench/dask_rows.py" "$address" average.bundle monday.csv tuesday.csv --block 100 > days.out
  for day in monday tuesday; do fixd run average.bundle < "$day.csv" | tail -n +2; done | same "runs by Dask" - days.out
else
  echo "Dask isn't installed: left out"
fi

# a bundle in a repository
count=$(sed -n 's/^source //p' smooth.bundle | head -1)
tail -n +3 smooth.bundle | head -c "$count" | same "the bundle's source" - smooth.fixd
fixd synth --width 16 smooth.fixd | same "made anew" - smooth.bundle

# on a device: the example's text and page are those of its bundle
cp "$average"/average.bundle .
fixd rust average.bundle | same "the device's text" - "$device/src/filter.rs"
fixd run average.bundle < "$device/tests/rows.csv" | same "the device's page" - "$device/tests/rows.out"

# from the source on, in Rust and in C: here, and on emulated processors where these are there
fixd synth --width 24 "$average/average.fixd" > other.bundle
if command -v cargo > /dev/null; then
  "$companion/fixd-tools" --fixd "$program" device other.bundle --to device_rust > device.log
  device_rust/test-here.sh > cargo.log 2>&1 && right "a crate" || wrong "a crate"
  device_rust/test-emulated.sh || [ $? = 77 ] || wrong "a crate on an emulated processor"
else
  echo "cargo isn't installed: left out"
fi
if command -v cc > /dev/null &&
  "$companion/fixd-tools" --fixd "$program" device other.bundle --to device_c --language c > device.log; then
  device_c/test-here.sh > cc.log 2>&1 && right "in C" || wrong "in C"
  device_c/test-emulated.sh || [ $? = 77 ] || wrong "C on an emulated processor"
else
  echo "cc or fixd-c isn't there: left out"
fi

# statuses
status=0; printf 'now,last,older\n0,0,0\n2,0,0\n' | fixd run smooth.bundle > bad.out 2> bad.line || status=$?
[ "$status" = 5 ] && [ "$(cat bad.line)" = "fixd: row: OutOfRange at line 3 column now" ] &&
  right "a bad row" || wrong "a bad row"
status=0; echo 'def f(x: Real, y: Real): Real = { require(1 <= x && x <= 2 && -1 <= y && y <= 1) x / y }' > q.fixd
fixd synth --width 16 q.fixd 2> bad.line || status=$?
[ "$status" = 9 ] && [ "$(cat bad.line)" = "fixd: not found: node 2" ] && right "nothing found" || wrong "nothing found"

# where a fault stands
printf 'def f(x: Real): Real = {\n  require(0 <= x && x <= 1)\n  x + y\n}\n' > f.fixd
"$companion/fixd-tools" --fixd "$program" explain synth --width 16 f.fixd 2> told || true
grep -q "^f.fixd:3:7: nothing above is called 'y'\$" told && right "a caret" || wrong "a caret"
