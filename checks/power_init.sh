#!/bin/busybox sh
# The first program of the machine of checks/power-cuts. It runs each line that comes at a port, and sends what that writes, the line's first
# word and the status.
export PATH=/bin

# begin: has what a program needs there. The server listens at 127.0.0.1 alone, and what comes from outside is led there.
begin() {
  /bin/busybox --install -s /bin
  mount -t proc none /proc
  mount -t sysfs none /sys
  mount -t devtmpfs none /dev
  mount -t tmpfs none /tmp
  for module in /modules/*; do insmod "$module"; done
  ifconfig lo 127.0.0.1
  ifconfig eth0 10.0.2.15 netmask 255.255.255.0
  echo 1 > /proc/sys/net/ipv4/conf/all/route_localnet
  echo 0 > /proc/sys/kernel/randomize_va_space
  mkfifo /tmp/log
}

# started JOURNAL [PRELOADED]: starts the server, tells its log until it listens, and fails where it ends before that
started() {
  LD_PRELOAD=$2 /allocd keep /house "$1" --port 5001 > /tmp/totals 2> /tmp/log &
  server=$!
  exec 3< /tmp/log
  while read -r said <&3; do
    echo "$said"
    case $said in *event=listening*) return 0 ;; esac
  done
  return 1
}

# killed: kills the server, and waits until it has gone
killed() {
  kill -9 $server
  wait $server 2> /dev/null
  exec 3<&-
}

# hurried CENTISECONDS: has what was written sent to the disk after that time, synced or not
hurried() {
  echo "$1" > /proc/sys/vm/dirty_expire_centisecs
  echo $(($1 / 6 + 1)) > /proc/sys/vm/dirty_writeback_centisecs
}

# beside FOLDER: writes, syncs and removes other files until /tmp/beside is gone
beside() {
  i=0
  touch /tmp/beside
  while [ -e /tmp/beside ]; do
    i=$((i + 1))
    dd if=/dev/zero of="$1/$((i % 9))" bs=3000 count=$((i % 20 + 1)) $([ $((i % 3)) = 0 ] && echo conv=fsync) 2> /dev/null
    [ $((i % 5)) != 0 ] || rm -f "$1/$((i * 7 % 9))"
    [ $((i % 40)) != 0 ] || sync
    usleep $((i * 7919 % 90000))
  done
}

# line: runs the lines that come, one after the other
line() {
  while read -r token line; do
    eval "$line" 2>&1
    printf '\n%s %s\n' "$token" $?
  done
}

if [ "$1" ]; then
  line
else
  begin
  nc -ll -p 5002 -e /init line &
  until grep -q ":138A " /proc/net/tcp*; do usleep 10000; done  # that port
  echo ready
  wait
fi
