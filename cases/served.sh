# shellcheck shell=bash disable=SC2016,SC2034  # scripts that source this use its names
# For scripts of cases that a step of the kind `tool` runs: sourced by them, in the folder where the case runs. The desk in `desk` is
# served at PORT, and `here` are the words by which tracedesk-ops rollover knows that service.
set -u
export PYTHONDONTWRITEBYTECODE=1
ops="$(cd "$(dirname "$0")/../../ops" && pwd)"
port="${PORT:?dev/cases gives one}"
here=(--port "$port" --stop 'kill "$(cat pid)" 2> /dev/null || true' --start 'sh ./start')
cat > start <<END
"$PROGRAM" serve --db desk --port $port --connections 10000 > served.txt 2>&1 < /dev/null & echo \$! > pid
END
trap stop EXIT

# told COMMAND..   what a command says and its status; for what is another in each run, as seconds, stands `..`
told() {
  { "$@" 2>&1; echo "status $?"; } |
    sed -E "s,$PWD/,,g; s,$PWD,.,g; s/[0-9a-f]{64}/../g; s/[0-9a-f]{24}([.]{2})?/../g; s/[0-9.]+ seconds/.. seconds/; s/20[0-9-]{8}T[0-9]{6}Z/../g; s/http:[^ ,]*/../g"
}

# has_ended        whether the desk has ended; it has too where nobody has asked for its status yet
has_ended() { ! grep -qs '^State:.[^ZX]' "/proc/$(cat pid)/status"; }

# ready            waits until the desk answers
ready() {
  until curl -s -o ready.txt "http://127.0.0.1:$port/overdue"; do
    if has_ended; then
      echo "the desk has ended: $(cat served.txt)"
      exit 1
    fi
    sleep 0.05
  done
}

# stop, cut_off    ends the desk, and waits until it is gone: its port and its lock are free only then
stop() {
  if grep -qsxz "$port" "/proc/$(cat pid)/cmdline"; then
    kill "$@" "$(cat pid)"
    until has_ended; do sleep 0.02; done
  fi
}
cut_off() { stop -9; }

# ask TARGET       a report of the running desk
ask() { curl -sS "http://127.0.0.1:$port$1"; }

# say UID WORD BODY    a message to it, of the second hour
say() {
  curl -sS --data-binary "{\"MessageName\":\"TraceDesk.$2\",\"UniqueID\":\"$1\",\"Source\":\"S\",\"TimeStamp\":\"1970-01-01T02:00:00Z\",\"MessageBody\":$3}" "http://127.0.0.1:$port/messages"
  echo
}
