#!/usr/bin/env bash
# The commands of docs/STORES.md over several hosts: two that are made here, each a network namespace with an sshd of its own. It takes
# root, ip, ssh, sshd and GNU parallel.
cd "$(dirname "$(readlink -f -- "$0")")/.." || exit 1
. tests/check.bash
hosts=(one two)
network=10.213.$((RANDOM % 250)) # of both, which nothing else should have
mkdir -p "$work/bin" "$work/share/linetab" "$work/store/one" "$work/store/two"
cp linetab-object "$work/bin"
cp -r share/scripts "$work/share/linetab"
ln -s "$PWD/crates/linetab/out/linetab" "$work/bin/linetab"
for file in store/one/a.debug store/two/b.debug store/two/c.debug store/two/d.debug; do
  python3 tests/images.py elf64 "$work/$file" .debug_line=examples/hello.debug_line .debug_line_str=examples/hello.debug_line_str || exit 1
done
mapfile -t commands < <(grep -e '^find .*--sshlogin' docs/STORES.md)

# Ends the hosts, also where the script is ended.
daemons=()
leave() {
  local host
  [ ${#daemons[@]} -eq 0 ] || kill "${daemons[@]}" 2>/dev/null
  for host in "${hosts[@]}"; do
    ip netns del "linetab-$$-$host" 2>/dev/null
  done
  clean
}
# A host of that name, whose address ends with a number.
host() { # NAME NUMBER
  local space=linetab-$$-$1 inner=ln$$i$2 outer=ln$$o$2
  ip netns add "$space" && ip link add "$outer" type veth peer name "$inner" netns "$space" &&
    ip addr add "$network.$(($2 + 1))/30" dev "$outer" && ip link set "$outer" up &&
    ip -n "$space" addr add "$network.$(($2 + 2))/30" dev "$inner" && ip -n "$space" link set "$inner" up || return
  cat >"$work/sshd-$1" <<END
ListenAddress $network.$(($2 + 2))
HostKey $work/host
AuthorizedKeysFile $work/key.pub
PidFile none
StrictModes no
UsePAM no
PermitRootLogin yes
SetEnv PATH=$work/bin:/usr/bin:/bin HOSTED=$1
END
  ip netns exec "$space" "$(command -v sshd || echo /usr/sbin/sshd)" -D -e -f "$work/sshd-$1" 2>"$work/sshd-$1.log" &
  daemons+=($!)
  printf 'Host %s\n HostName %s\n' "$1" "$network.$(($2 + 2))" >>"$work/config"
}
make_hosts() {
  local number=0 each
  trap leave EXIT
  mkdir -p /run/sshd
  ssh-keygen -q -t ed25519 -N '' -f "$work/key" && ssh-keygen -q -t ed25519 -N '' -f "$work/host" || return
  printf 'IdentityFile %s\nStrictHostKeyChecking no\nUserKnownHostsFile /dev/null\nLogLevel ERROR\n' "$work/key" >"$work/config"
  for each in "${hosts[@]}"; do
    host "$each" "$number" || return
    number=$((number + 4))
  done
  for each in "${hosts[@]}"; do
    for _ in {1..50}; do
      ssh -F "$work/config" -o ConnectTimeout=2 "$each" true 2>/dev/null && continue 2
      sleep 0.2
    done
    return 1
  done
}
# Runs a command of the page in the folder that has the store.
on_hosts() { # COMMAND
  (cd "$work" && PATH=$work/bin:$PATH PARALLEL_SSH="ssh -F $work/config" bash -c "$1")
}

over_hosts() {
  local command
  here 'several hosts' parallel ssh ssh-keygen ip || return
  [ "$(id -u)" -eq 0 ] && [ -x "$(command -v sshd || echo /usr/sbin/sshd)" ] || { skip 'several hosts: it takes root and sshd'; return; }
  make_hosts >"$work/said" 2>&1 || { skip "several hosts: none can be made here: $(tail -n 1 "$work/said")"; return; }
  expect 'both answer' 0 $'one\ntwo\n' '' on_hosts "parallel --nonall --sshlogin one,two 'echo \$HOSTED' | sort"
  expect 'tables' 0 '' '' on_hosts "find store -name '*.debug' | parallel --sshlogin one,two --wd . 'linetab-object table {} >{.}.csv'"
  [ ${#commands[@]} -gt 0 ] || fail 'no command of the page has --sshlogin'
  for command in "${commands[@]}"; do
    expect "$command" 0 '' '' on_hosts "$command"
  done
  expect 'their tables' 0 '' '' bash -c 'for table in "$0"/store/*/?.csv; do cmp "$table" "$1" || exit; done' "$work" "$PWD/examples/hello.csv"
  expect 'one for each' 0 $'4\n' '' bash -c 'ls "$0"/store/*/?.csv | wc -l' "$work"
  expect 'an answer for each' 0 $'4\n' '' grep -c '"answer": "yes"' "$work/answers.json"
}

over_hosts
finish
