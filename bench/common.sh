# What the scripts of this folder begin with: the program, built where it isn't or a source has
# changed, a folder for work that goes at the end, and how a script is measured. They read this file
# by `.`.
top=$(cd "$(dirname "$0")/.." && pwd)
dfsr=$top/crates/dfsr/out/dfsr
"$top/dfsr" --version >/dev/null
work=$(mktemp -d)
trap 'rm -rf "$work"' EXIT

# the least processor time of five runs, in microseconds
measured() {
    python3 - "$dfsr" "$1" "$work/out" <<'EOF'
import resource, subprocess, sys
program, script, out = sys.argv[1:]
times = []
for _ in range(5):
    with open(script) as given, open(out, "w") as taken:
        before = resource.getrusage(resource.RUSAGE_CHILDREN)
        subprocess.run([program, "script"], stdin=given, stdout=taken, check=True)
        after = resource.getrusage(resource.RUSAGE_CHILDREN)
        times.append(after.ru_utime + after.ru_stime - before.ru_utime - before.ru_stime)
print(round(min(times) * 1000000))
EOF
}
