#!/bin/bash
# Boots the system in a folder by its systemd, in namespaces of the kernel: nothing of it is visible
# outside, and its network has the loopback device alone. It lasts until this process is killed.
#
#   boot.sh FOLDER
#
# Needs root, and the Debian packages util-linux and iproute2; FOLDER has systemd.
set -eu

if [ "${2-}" != inside ]; then
    group=$(awk '$3 == "cgroup2" { print $2; exit }' /proc/mounts)/satip-trial-$$
    mkdir "$group"
    echo $$ > "$group/cgroup.procs"
    exec unshare --mount --pid --uts --ipc --net --cgroup --fork --kill-child "$0" "$1" inside
fi

root=$1
mount --make-rprivate /
mount --bind "$root" "$root"
mount -t proc proc "$root/proc"
mount -t sysfs -o ro sys "$root/sys"
mount -t cgroup2 cgroup2 "$root/sys/fs/cgroup"
mount -t tmpfs -o mode=755 tmpfs "$root/run"
mount -t tmpfs tmpfs "$root/tmp"
mount -t tmpfs -o mode=755 tmpfs "$root/dev"
mkdir "$root/dev/pts" "$root/dev/shm"
for device in null zero full random urandom tty; do
    touch "$root/dev/$device"
    mount --bind "/dev/$device" "$root/dev/$device"
done
mount -t devpts -o newinstance,ptmxmode=0666 devpts "$root/dev/pts"
ln -s pts/ptmx "$root/dev/ptmx"
ip link set lo up
exec env -i container=satip-trial PATH=/usr/sbin:/usr/bin:/sbin:/bin \
    chroot "$root" /lib/systemd/systemd --log-target=console --log-level=notice
