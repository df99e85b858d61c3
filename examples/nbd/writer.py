"""Makes files in FOLDER until an error: FOLDER NOTED SEED. A file is noted, by its SHA-256, once it and its folder are fsynced."""
import hashlib
import itertools
import os
import random
import sys

folder, noted, rng = sys.argv[1], sys.argv[2], random.Random(int(sys.argv[3]))


def synced(path, data=None):
    target = os.open(path, os.O_RDONLY if data is None else os.O_WRONLY | os.O_CREAT)
    try:
        if data is not None:
            assert os.write(target, data) == len(data)
        os.fsync(target)
    finally:
        os.close(target)


try:
    os.mkdir(folder)
    synced(os.path.dirname(folder))
    for number in itertools.count():
        data = rng.randbytes(rng.randrange(1, 120000))
        path = f"{folder}/{number}"
        synced(path, data)
        synced(folder)
        with open(noted, "a") as notes:
            notes.write(f"{hashlib.sha256(data).hexdigest()}  {os.path.basename(folder)}/{number}\n")
except OSError as error:
    print(f"the writer stopped: {error.strerror}")
