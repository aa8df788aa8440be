#!/bin/sh
# Boots a guest on the device: guest.sh PCIEX_QEMU KERNEL PROCESSORS [WORD..]
#
# KERNEL is the vmlinuz of Debian's linux-image-*-cloud-amd64. Each processor has a function of its own; a word
# functions=1 gives them one. The words are settings of guest.c, as rounds=200. The files go into the current folder: what
# the processors saw as guest.log, what the device saw as log, trace and pcap, and the guest's console as console. The
# status is 0 if the guest has written its log. The variables ACCEL (tcg,thread=multi) and OPTIONS (of pciex_qemu) may
# say otherwise.
unset CDPATH
here=$(realpath "$(dirname "$0")")
if [ $# -lt 3 ]; then
    echo "usage: guest.sh PCIEX_QEMU KERNEL PROCESSORS [WORD..]" >&2
    exit 2
fi
program=$(realpath "$1") kernel=$2 processors=$3
shift 3
ports=$processors
for word in "$@"; do
    case $word in functions=*) ports=${word#functions=} ;; esac
done
rm -f guest.log console
cc -Wall -Wextra -Werror -std=gnu11 -O2 -static -pthread -o init "$here/guest.c" || exit 1
echo init | cpio -o -H newc --quiet | gzip -1 > initrd || exit 1
# shellcheck disable=SC2086
"$program" --ports "$ports" --log log --trace trace --pcap pcap ${OPTIONS-} -- qemu-system-x86_64 \
    -M q35,memory-backend=ram -object memory-backend-memfd,id=ram,size=256M,share=on -m 256M \
    -accel "${ACCEL:-tcg,thread=multi}" -smp "$processors" -nodefaults -display none -no-reboot \
    -kernel "$kernel" -initrd initrd -serial file:console -serial file:guest.log \
    -append "console=ttyS0 quiet panic=-1 no_timer_check processors=$processors $*"
status=$?
grep -h "^guest:" console
if [ $status -ne 0 ] || [ "$(tail -n 1 guest.log)" != end ]; then
    tail -n 5 console
    echo "guest.sh: status $status, and the guest wrote $(grep -c . guest.log) lines"
    exit 1
fi
