#!/usr/bin/env bash
# Tries tools/explain over the proved program: once for each kind of refusal, on an accepted source, and on a file that
# isn't there. Each case has the source, the place that has to be named, and the line that has to be shown.
# One line a case that fails; the last line is 'N passed, M failed', and the status is 0 where M is 0.
set -u

top=$(cd "$(dirname "$0")/.." && pwd)
room=$(mktemp -d) || exit 1
trap 'rm -rf "$room"' EXIT
passed=0
failed=0

# Counts a case, by whether a condition held.
count() {
    if [ "$1" = 0 ]; then
        passed=$((passed + 1))
    else
        failed=$((failed + 1))
        echo "explain: $2 ... FAILED"
    fi
}

# Wants the source of standard input to be refused as a kind: at LINE:COLUMN, with that line below it and the caret
# under the column, and with status 1. For `lent` the second place is named too.
refused() {
    local kind=$1 place=$2 second=${3-} said status line wanted=0
    cat >"$room/source.cilk"
    said=$(cd "$room" && "$top/tools/explain" source.cilk)
    status=$?
    line=$(sed -n "${place%%:*}p" "$room/source.cilk")
    [ "$status" = 1 ] || wanted=1
    case $said in "source.cilk:$place: $kind: "*) ;; *) wanted=1 ;; esac
    [ "$(sed -n 2p <<<"$said")" = "    $line" ] || wanted=1
    [ "$(sed -n 3p <<<"$said" | tr -d '\n' | wc -c)" = $((${place#*:} + 4)) ] || wanted=1
    if [ -n "$second" ]; then
        case $said in *"source.cilk:$second: it is lent by this"*) ;; *) wanted=1 ;; esac
    fi
    count "$wanted" "$kind: $said"
}

refused syntax 2:7 <<'END'
int main() {
  int 2;
}
END
refused size 1:21 <<'END'
int main() { return 2147483648; }
END
refused unknown 2:10 <<'END'
int main() {
  return y;
}
END
refused twice 2:10 <<'END'
int main() {
  int x, x;
}
END
refused arity 2:21 <<'END'
int f(int n) { return n; }
int main() { return f(); }
END
refused kind 3:3 <<'END'
int main() {
  // no `cilk`
  sync;
}
END
refused nomain 2:1 <<'END'
int f() { return 0; }
END
refused frame 1:5 <<'END'
int main() { int a[16384], b[16384]; return 0; }
END
refused count 1:5 <<'END'
int f(int a, int b, int c, int d, int e, int g, int h, int i, int j) { return 0; }
int main() { return 0; }
END
refused lent 5:10 4:7 <<'END'
cilk int f() { return 1; }
cilk int main() {
  int x;
  x = spawn f();
  return x;
}
END
refused same 4:15 <<'END'
int g(int a[], int b[]) { return 0; }
int main() {
  int a[2];
  return g(a, a);
}
END

for example in "$top"/examples/{first,fib}.cilk; do
    [ "$("$top/tools/explain" "$example")" = "$example: accepted" ]
    count $? "$example"
done
"$top/tools/explain" "$room/missing" 2>"$room/said"
[ $? = 66 ] && grep -q 'no such file' "$room/said"
count $? 'a missing file'

echo "$passed passed, $failed failed"
[ "$failed" -eq 0 ]
