"""Cuts the power of a card: plays in a virtual machine on exFAT or vfat, notes each write and flush of the card, and rebuilds what it may hold at each moment.

usage: cards.py GBKEEP KERNEL [IMAGES [SEED]]     KERNEL: a folder that a package linux-image-.. of Debian was unpacked into (dpkg-deb -x)

A card keeps what was written before its last flush, and of what was written since any sectors of 512 bytes, older or newer. IMAGES (200) of each file system
are rebuilt so; in each the file system is read as it stands, and SAVE has to hold as many inputs as were told as saved before that moment. One line a file
system says how many did. The status is 1 where one has lost an input, or where none of the images of a card that lies about flushing has (there each
sector since the game was begun may be missing, so that the test sees what it looks for).

It needs Debian's qemu-system-x86, busybox-static, exfatprogs, dosfstools, mtools for vfat and exfat-fuse with a loop device for exFAT, and root."""
import os
import random
import re
import shutil
import struct
import subprocess
import sys
import tempfile
from pathlib import Path

ROOT = Path(__file__).resolve().parent.parent.parent
DEMO = ROOT / 'examples/demo/demo.gb'
MODULES = {'exfat': ['fs/exfat/exfat'], 'vfat': ['fs/fat/fat', 'fs/fat/vfat']}
SECTOR, PARTITION, CARD = 512, 60 << 20, 64 << 20
MARK = (PARTITION + (1 << 20)) // SECTOR
SAVES = 25
FLUSH, FUA, DISCARD = 1, 2, 4
INIT = '''#!/bin/busybox sh
busybox mkdir -p /proc /sys /dev /mnt /tmp
busybox mount -t proc proc /proc; busybox mount -t devtmpfs dev /dev
for again in 1 2 3; do for one in /modules/*.ko; do busybox insmod $one 2> /dev/null; done; done
for wait in 1 2 3 4 5 6 7 8 9; do [ -e /dev/vda ] || busybox sleep 1; done
busybox mount -t KIND /dev/vda /mnt || busybox poweroff -f
mark() { busybox printf '%-512s' "told $1" > /tmp/mark; busybox dd if=/tmp/mark of=/dev/vda bs=512 seek=MARK oflag=direct conv=notrunc 2> /dev/null; }
cd /mnt
/gbkeep new /demo.gb game.gbkeep
mark 0
busybox mkfifo /tmp/in /tmp/out
/gbkeep stream /demo.gb game.gbkeep < /tmp/in > /tmp/out &
exec 3> /tmp/in 4< /tmp/out
read word count <&4
i=1
while [ $i -le SAVES ]; do
    n=0
    while [ $n -lt 12 ]; do busybox printf 'frames %02x 5\\n' $((i * 7 + n & 255)) >&3; n=$((n + 1)); done
    echo save >&3
    read word count <&4
    mark $count
    i=$((i + 1))
done
echo played $count
exec 3>&-
wait
cd /; busybox umount /mnt
busybox poweroff -f
'''


def run(*words, **how):
    done = subprocess.run([str(word) for word in words], stdout=subprocess.PIPE, stderr=subprocess.STDOUT, **how)
    if done.returncode != 0:
        sys.exit(f'{done.stdout.decode(errors="replace")[-2000:]}\n{words[0]} ended with status {done.returncode}')
    return done.stdout


def libraries(program):
    return re.findall(r'(/\S+)', run('ldd', program).decode())


def boot_files(kernel, kind, gbkeep, room):
    """The system of the virtual machine, in memory: a shell, the modules, the program."""
    root = room / 'root'
    for folder in ('bin', 'modules'):
        (root / folder).mkdir(parents=True)
    shutil.copy('/bin/busybox', root / 'bin/busybox')
    modules = next((kernel / 'lib/modules').iterdir()) / 'kernel'
    wanted = ['drivers/virtio/virtio', 'drivers/virtio/virtio_ring', 'drivers/virtio/virtio_pci_legacy_dev', 'drivers/virtio/virtio_pci_modern_dev',
              'drivers/virtio/virtio_pci', 'drivers/block/virtio_blk', 'fs/nls/nls_cp437', 'fs/nls/nls_ascii', 'fs/nls/nls_iso8859-1', 'fs/nls/nls_utf8', *MODULES[kind]]
    for number, name in enumerate(wanted):
        shutil.copy(modules / f'{name}.ko', root / f'modules/{number:02}.ko')
    shutil.copy(gbkeep, root / 'gbkeep')
    shutil.copy(DEMO, root / 'demo.gb')
    for path in libraries(gbkeep):
        target = root / path.lstrip('/')
        target.parent.mkdir(parents=True, exist_ok=True)
        shutil.copy(path, target)
    init = root / 'init'
    init.write_text(INIT.replace('KIND', kind).replace('MARK', str(MARK)).replace('SAVES', str(SAVES)))
    init.chmod(0o755)
    names = b'\n'.join(os.fsencode(path.relative_to(root)) for path in sorted(root.rglob('*')))
    (room / 'initrd').write_bytes(subprocess.run(['busybox', 'cpio', '-o', '-H', 'newc'], input=names, cwd=root, capture_output=True, check=True).stdout)
    return room / 'initrd'


def play(kernel, kind, gbkeep, room):
    """Plays on a card, and answers what it held before and its writes and flushes after."""
    card, log = room / 'card', room / 'log'
    card.write_bytes(b'')
    os.truncate(card, PARTITION)
    run(*(['mkfs.exfat', card] if kind == 'exfat' else ['mkfs.vfat', '-F', '32', card]))
    os.truncate(card, CARD)
    before = card.read_bytes()
    log.write_bytes(b'')
    os.truncate(log, 1 << 20)
    vmlinuz = next((kernel / 'boot').glob('vmlinuz-*'))
    said = run('qemu-system-x86_64', '-accel', 'tcg', '-cpu', 'max', '-m', '256', '-nographic', '-net', 'none', '-no-reboot', '-kernel', vmlinuz,
               '-initrd', boot_files(kernel, kind, gbkeep, room), '-append', 'console=ttyS0 quiet panic=-1',
               '-blockdev', f'driver=file,filename={card},node-name=card', '-blockdev', f'driver=file,filename={log},node-name=log',
               '-blockdev', 'driver=blklogwrites,file=card,log=log,node-name=noted', '-device', 'virtio-blk-pci,drive=noted,write-cache=on', timeout=300).decode(errors='replace')
    if f'played {SAVES * 60}' not in said:
        sys.exit(f'{kind}: the game was not played:\n{said[-2000:]}')
    return before, entries(log.read_bytes())


def entries(log):
    """The writes (sector, bytes), flushes (None) and marks (a count) of a log of the card, in their order."""
    magic, version, count, size = struct.unpack_from('<QQQI', log)
    if magic != 0x6a736677736872 or version != 1 or size != SECTOR:
        sys.exit('the log of the card is of another kind')
    found, at = [], SECTOR
    for _ in range(count):
        sector, sectors, flags, _ = struct.unpack_from('<QQQQ', log, at)
        at += SECTOR
        if flags & FLUSH:
            found.append(None)
        if flags & DISCARD or not sectors:
            continue
        data = log[at:at + sectors * SECTOR]
        at += sectors * SECTOR
        if sector == MARK:
            found.append(int(data.split()[1]))
        else:
            found.append((sector, data))
            if flags & FUA:
                found.append(None)
    return found


def image(before, noted, moment, randomly):
    """What the card may hold at a moment; and the count that was told before it."""
    card, unsure, told = bytearray(before), [], 0
    for one in noted[:moment]:
        if isinstance(one, int):
            told = one
        elif one is None:
            for sector, data in unsure:
                card[sector * SECTOR:sector * SECTOR + len(data)] = data
            unsure = []
        else:
            unsure.append(one)
    chance = randomly.choice([0, 0.1, 0.5, 0.9, 1])
    for sector, data in unsure:
        for piece in range(0, len(data), SECTOR):
            if randomly.random() < chance:
                card[sector * SECTOR + piece:sector * SECTOR + piece + SECTOR] = data[piece:piece + SECTOR]
    return bytes(card[:PARTITION]), told


def game_of(kind, card, room):
    """SAVE, as the file system is read; None where it is not there."""
    path, copy = room / 'cut', room / 'game.gbkeep'
    path.write_bytes(card)
    copy.unlink(missing_ok=True)
    if kind == 'vfat':
        subprocess.run(['mcopy', '-n', '-i', path, '::game.gbkeep', copy], capture_output=True)
    else:
        place = room / 'place'
        place.mkdir(exist_ok=True)
        device = run('losetup', '--find', '--show', '--read-only', path).decode().strip()
        if subprocess.run(['mount.exfat-fuse', '-o', 'ro', device, place], capture_output=True).returncode == 0:
            try:
                if (place / 'game.gbkeep').exists():
                    shutil.copy(place / 'game.gbkeep', copy)
            except OSError:
                pass
            run('umount', place)
        run('losetup', '-d', device)
    return copy if copy.exists() else None


def count_of(gbkeep, game, room):
    """How many inputs the program finds in it; -1 where it is refused."""
    if game is None:
        return -1
    done = subprocess.run([gbkeep, 'frame', DEMO, game, room / 'out.pgm'], capture_output=True, text=True)
    return int(done.stdout.split()[1]) if done.returncode == 0 else -1


def cut(kind, gbkeep, before, noted, images, randomly, room, lies):
    """How many of the images have all that was told, and how many were looked at."""
    good = 0
    first = next(at for at, one in enumerate(noted) if one == 0 and isinstance(one, int))
    for number in range(images):
        moment = randomly.randrange(first + 1, len(noted) + 1)
        card, told = image(before, noted, moment, randomly) if not lies else lying(before, noted, first, moment, randomly)
        count = count_of(gbkeep, game_of(kind, card, room), room)
        good += count >= told
        if count < told and not lies:
            print(f'{kind}: image {number}, after {moment} of {len(noted)}: {told} inputs were told, {count} are there')
    return good


def lying(before, noted, first, moment, randomly):
    """The same of a card that says that it has flushed, and has not: whatever was written since the game was begun may be missing."""
    whole, told = bytearray(before), 0
    for one in noted[:first + 1]:
        if isinstance(one, tuple):
            whole[one[0] * SECTOR:one[0] * SECTOR + len(one[1])] = one[1]
    for one in noted[first + 1:moment]:
        if isinstance(one, tuple):
            for piece in range(0, len(one[1]), SECTOR):
                if randomly.random() < 0.5:
                    at = one[0] * SECTOR + piece
                    whole[at:at + SECTOR] = one[1][piece:piece + SECTOR]
        elif isinstance(one, int):
            told = one
    return bytes(whole[:PARTITION]), told


def main():
    if not 3 <= len(sys.argv) <= 5:
        sys.exit(__doc__)
    gbkeep, kernel = os.path.abspath(sys.argv[1]), Path(sys.argv[2]).resolve()
    images, seed = int(sys.argv[3]) if len(sys.argv) > 3 else 200, int(sys.argv[4]) if len(sys.argv) > 4 else 1
    status = 0
    for kind in MODULES:
        randomly = random.Random(seed)
        with tempfile.TemporaryDirectory(prefix='cards-') as folder:
            room = Path(folder)
            before, noted = play(kernel, kind, gbkeep, room)
            good = cut(kind, gbkeep, before, noted, images, randomly, room, False)
            few = max(images // 4, 20)
            lied = cut(kind, gbkeep, before, noted, few, randomly, room, True)
        writes, flushes = sum(isinstance(one, tuple) for one in noted), sum(one is None for one in noted)
        print(f'{kind}: {writes} writes and {flushes} flushes; {good} of {images} images have all that was told; of a card that lies, {lied} of {few}', flush=True)
        status |= good != images or lied == few
    return status


if __name__ == '__main__':
    sys.exit(main())
