"""Files for runs over a few events: two logs over an image of four words, a branch that is taken 33 times and a return."""

HEADER = "addr,itype,priv,cause,tval\n"
BRANCH = "8000000c,5,3,,\n"
BASE = ["--base", "80000000"]
LOGS = ["hart00.csv", "hart01.csv"]
FILES = {
    "four.bin": bytes.fromhex("13000000 13000000 67800000 63000000"),
    "hart00.csv": (HEADER + BRANCH * 33).encode(),
    "hart01.csv": (HEADER + "80000000,0,3,,\n80000004,0,3,,\n80000008,6,3,,\n80000004,0,3,,\n").encode(),
    "bad.csv": (HEADER + "80000000,0,3,,\n80000008,6,3,,\n").encode(),
    "turns.txt": b"0 c " * 5 + b"1 c " * 4,
    "names.txt": b"80000008 T leave\n80000000 T main\n",
    "lines.txt": b"0 1f\n1 1f\n0 cf00\n",
}
