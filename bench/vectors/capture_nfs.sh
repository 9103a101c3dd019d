#!/usr/bin/env bash
# Captures what other programs say to each other: the client libnfs (its tools nfs-ls, nfs-cp and
# nfs-cat) and rpcinfo with the server NFS-Ganesha and rpcbind. bench/vectors/show_nfs.py makes two
# examples of `show` from it.
#
#   sudo bench/vectors/capture_nfs.sh FILE     writes the packets to FILE
#
# It runs in a network and a tree of mounts of its own, so it meets no server of this machine and
# leaves nothing behind. On Debian 12 it wants the packages libnfs-utils, nfs-ganesha,
# nfs-ganesha-vfs, rpcbind and tcpdump.
set -euo pipefail

if [[ ${2:-} != inside ]]; then
    [[ $# -eq 1 ]] || { sed -n '2,/^set/{/^#/s/^# \{0,1\}//p}' "$0" >&2; exit 2; }
    : >"$1"
    exec unshare --net --mount "$0" "$(realpath "$1")" inside
fi

ip link set lo up
mount -t tmpfs tmpfs /mnt
work=$(mktemp -d)
trap 'kill $(jobs -p) 2>/dev/null || true; wait; rm -rf "$work"' EXIT
cat >"$work/conf" <<'END'
NFS_CORE_PARAM { Protocols = 3; MNT_Port = 2050; Enable_NLM = false; Enable_RQUOTA = false; mount_path_pseudo = false; allow_set_io_flusher_fail = true; }
NFSV4 { Graceless = true; }
EXPORT { Export_Id = 1; Path = /mnt; Pseudo = /mnt; Access_Type = RW; Squash = No_Root_Squash; SecType = sys; Protocols = 3; Transports = TCP; FSAL { Name = VFS; } }
END
rpcbind -f &
sleep 1
ganesha.nfsd -F -L "$work/log" -f "$work/conf" -p "$work/pid" &
for _ in $(seq 50); do
    rpcinfo -t 127.0.0.1 100003 3 >/dev/null 2>&1 && break
    sleep 0.2
done
tcpdump -i lo -w "$1" -U tcp &
sleep 1
echo 'hello over nfs' >"$work/a"
nfs-cp "$work/a" 'nfs://127.0.0.1/mnt/a?version=3'
nfs-ls 'nfs://127.0.0.1/mnt?version=3'
nfs-cat 'nfs://127.0.0.1/mnt/a?version=3'
rpcinfo -t 127.0.0.1 100003 3
rpcinfo -t 127.0.0.1 100003 2 || true
sleep 1
