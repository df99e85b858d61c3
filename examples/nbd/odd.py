"""Writes at odd offsets and lengths: FILE PLAIN SEED. Both files get the same writes, and reads in between find the same."""
import os
import random
import sys

file, plain = (os.open(path, os.O_RDWR) for path in sys.argv[1:3])
rng = random.Random(int(sys.argv[3]))
size = os.fstat(plain).st_size
for turn in range(400):
    length = rng.choice([1, 7, 511, 512, 4095, 4096, 4097, 10000, 70001])
    offset = rng.randrange(min(size, 40 << 20) - length)
    data = rng.randbytes(length)
    for target in (file, plain):
        assert os.pwrite(target, data, offset) == length
    offset = rng.randrange(min(size, 40 << 20) - length)
    assert os.pread(file, length, offset) == os.pread(plain, length, offset), (turn, offset, length)
os.fsync(file)
print("400 writes and reads at odd offsets: the same")
