#!/bin/sh
# Times the survey of 64 MiB of rising numbers and noise under hiersim, on one processor and on all, and cat beside it.
# Reading the file, which one thread does, is timed by a command that reads it and then refuses it as a program.
folder=$(dirname "$0")
file=$(mktemp)
trap 'rm -f "$file"' EXIT
python3 - "$file" <<'PYTHON'
import array, random, sys
noise = random.Random(1)
with open(sys.argv[1], "wb") as file:
    for page in range(16384):
        first = noise.getrandbits(32)
        step = noise.choice([1, 4, 300, 70000])
        file.write(array.array("I", [(first + step * word) % 2**32 for word in range(1024)]).tobytes())
PYTHON

# The milliseconds that a command takes, which has to end with status 0.
milliseconds() {
    start=$(date +%s%N)
    "$@" >/dev/null 2>&1 || exit 1
    echo $((($(date +%s%N) - start) / 1000000))
}

# The least of five times.
least() {
    best=$(milliseconds "$@") || exit 1
    for _ in 1 2 3 4; do
        time=$(milliseconds "$@") || exit 1
        [ "$time" -lt "$best" ] && best=$time
    done
    echo "$best"
}

processors=$(nproc)
one=$(least taskset -c 0 "$folder/../hiersim" survey "$file") || exit 1
all=$(least "$folder/../hiersim" survey "$file") || exit 1
read=$(least sh -c '"$1" flat "$2"; [ $? = 204 ]' read "$folder/../hiersim" "$file") || exit 1
cat=$(least cat "$file") || exit 1
echo "survey: $one ms on one processor, $all ms on $processors, $cat ms for cat"
echo "speed-up: $((100 * one / all)) hundredths of one processor"
echo "without the $read ms of reading: $((100 * (one - read) / (all - read))) hundredths"
