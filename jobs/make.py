# Makes NAME.job and NAME.listing for each NAME.hex beside it: `python3 make.py`, run by hand when a sample changes. A
# .hex file has the bytes of a job in hex, with words after '#'. The listing is computed by the page as written in Python
# (crates/test_published/job.py), and not by the reference itself, which has to print the same bytes.
import sys
from pathlib import Path

HERE = Path(__file__).resolve().parent
sys.dont_write_bytecode = True
sys.path.insert(0, str(HERE.parent / "crates" / "test_published"))

from job import listing


def data_of(text):
    return bytes.fromhex(" ".join(line.split("#")[0] for line in text.splitlines()))


for source in sorted(HERE.glob("*.hex")):
    data = data_of(source.read_text())
    source.with_suffix(".job").write_bytes(data)
    source.with_suffix(".listing").write_text(listing(data))
