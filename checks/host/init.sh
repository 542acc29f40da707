#!/bin/busybox sh
# The first process of a Linux guest: fills memory with what other guests have too and with bytes of its own, then works on files and
# checks all that it reads. Words of the kernel's command line: seed=N (whose own bytes), work=idle|busy|disk, own=MIB.
/bin/busybox mkdir -p /proc /sys /dev /tmp /bin /sbin
/bin/busybox --install -s /bin
mount -t proc proc /proc
mount -t sysfs sys /sys
mount -t devtmpfs dev /dev 2>/dev/null
seed=0 work=busy own=8
for word in $(cat /proc/cmdline); do
    case $word in seed=*) seed=${word#seed=} ;; work=*) work=${word#work=} ;; own=*) own=${word#own=} ;; esac
done
for name in virtio_ring virtio virtio_pci_modern_dev virtio_pci_legacy_dev virtio_pci virtio_balloon virtio_blk; do
    file=$(find /modules -name $name.ko | head -n 1)
    [ -n "$file" ] && insmod "$file" 2>/dev/null
done
mkdir -p /files && mount -t tmpfs -o size=90% files /files && cd /files
# What every guest has: a tree of files, twice. What it alone has: random bytes.
cp -r /modules again || echo "WRONG memory: there is no room for the files"
dd if=/dev/urandom of=own bs=1M count=$own 2>/dev/null
sum_of() { find "$1" -type f | sort | xargs cat | md5sum; }
all=$(cd / && sum_of modules)
mine=$(md5sum < own)
wrong() { echo "WRONG $1 at round $round"; }
round=0
echo ready
while :; do
    round=$((round + 1))
    if [ $work = idle ]; then sleep 5; echo tick $round; continue; fi
    # A file of this round and its copy: equal pages, of which one is then written to.
    dd if=/dev/urandom of=one bs=64k count=16 2>/dev/null
    cp one two || echo "WRONG memory: there is no room for a copy"
    sum=$(md5sum < one)
    [ "$sum" = "$(md5sum < two)" ] || wrong copy
    sleep 4
    echo $seed.$round | dd of=two conv=notrunc bs=1 seek=$((round * 4096 % 1000000)) 2>/dev/null
    [ "$sum" = "$(md5sum < one)" ] || wrong first
    [ "$sum" != "$(md5sum < two)" ] || wrong second
    [ "$mine" = "$(md5sum < own)" ] || wrong own
    if [ $((round % 4)) = 0 ]; then
        [ "$all" = "$(cd / && sum_of modules)" ] || wrong modules
        [ "$all" = "$(cd again && find . -type f | sed s,^./,, | sort | xargs cat | md5sum)" ] || wrong again
    fi
    if [ $work = disk ] && [ -b /dev/vda ]; then
        dd if=own of=/dev/vda bs=1M oflag=direct 2>/dev/null
        [ "$mine" = "$(dd if=/dev/vda bs=1M count=$own iflag=direct 2>/dev/null | md5sum)" ] || wrong disk
    fi
    echo tick $round
done
