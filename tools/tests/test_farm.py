"""The workflow of `examples/farm`: its table, on this machine and on a Slurm of one node where a job is killed."""
import os
import shutil
import subprocess
import sys
import time
import unittest

from support import TOOLS, TOP, TRACEBENCH, InFolder
import built

FARM = os.path.join(TOP, "examples/farm")
SNAKEMAKE = shutil.which("snakemake", path="/usr/bin")
SLURM = [shutil.which(name, path="/usr/sbin:/usr/bin") for name in ("munged", "slurmctld", "slurmd", "sbatch")]
HARTS, SIZE = 7, 3
DAMAGE = "{ head -c 3000 {sent}; tail -c +4001 {sent}; } >{received}"
CHECKED = "logs/a b.csv: legal, 9 events\nlogs/c.csv: legal, 8 events\n"
AUDITED = """hart 0: 5 sent, 4 came, 1 lost, 0 repeated, 0 late, 0 changed, 0 strange, not whole
hart 0: lost in 1 runs, the longest of 1
hart 1: 6 sent, 7 came, 0 lost, 1 repeated, 0 late, 0 changed, 0 strange, not whole
all: 11 sent, 11 came, 1 lost, 1 repeated, 0 late, 0 changed, 0 strange, not whole
result: not whole
"""
COMPARED = """hart 0: 9 events, 5 packets, 30 payload bytes, decoded 3, beginning
hart 0: row 4: log 80000014,0,3,,
hart 0: row 4: decoded end
hart 1: 8 events, 6 packets, 30 payload bytes, decoded 8, whole
result: not whole
"""
TABLE = """hart,log,events,sent,came,lost,repeated,late,changed,strange,path
0,logs/a b.csv,9,5,4,1,0,0,0,0,not whole
1,logs/c.csv,8,6,7,0,1,0,0,0,not whole
"""


class Folder(InFolder):
    def text(self, name):
        with open(self.path(name)) as file:
            return file.read()


class Table(Folder):
    def made(self, *texts):
        for place, text in enumerate(texts):
            self.file(str(place), text)
        paths = [self.path(str(place)) for place in range(len(texts))]
        words = [sys.executable, os.path.join(FARM, "table"), self.path("table.csv"), *paths]
        return subprocess.run(words, capture_output=True, text=True)

    def test_a_row_for_each_hart(self):
        self.assertEqual(self.made(CHECKED, AUDITED).returncode, 0)
        self.assertEqual(self.text("table.csv"), TABLE)

    def test_what_is_decoded(self):
        self.assertEqual(self.made(CHECKED, AUDITED, COMPARED).returncode, 0)
        header, first, second = TABLE.splitlines()
        self.assertEqual(self.text("table.csv").splitlines(),
                         [header + ",decoded,decoding", first + ",3,beginning", second + ",8,whole"])

    def test_a_hart_that_is_lacking(self):
        ran = self.made(CHECKED, AUDITED.replace("hart 1", "hart 2"))
        self.assertEqual((ran.returncode, ran.stderr.rpartition(": ")[2]), (1, "no line says what became of hart 1\n"))


@unittest.skipUnless(TRACEBENCH and SNAKEMAKE, "the program is not built, or snakemake is not there")
class Workflow(Folder):
    def setUp(self):
        super().setUp()
        os.mkdir(self.path("logs"))
        for hart in range(HARTS):
            image, log = built.generated(TRACEBENCH, "mixed", 1000 + 500 * hart)
            self.file(f"logs/hart{hart:02}.csv", log)
        self.file("image.bin", image)

    def begun(self, *options, results="results", path=DAMAGE, **environment):
        """A run that goes on, with its folder of results and the path."""
        words = [SNAKEMAKE, "-s", os.path.join(FARM, "Snakefile"), *options, "--config", "logs=logs", "image=image.bin",
                 "base=80000000", f"harts={SIZE}", f"tracebench={TRACEBENCH}", f"results={results}", f"path={path}"]
        return subprocess.Popen(words, cwd=self.folder, env={**os.environ, **environment}, stdout=subprocess.PIPE,
                                stderr=subprocess.STDOUT, text=True)

    def ran(self, *options, **how):
        run = self.begun(*options, **how)
        return run.communicate(timeout=300)[0], run.returncode

    def test_on_one_machine(self):
        said, status = self.ran("--cores", "2")
        self.assertEqual(status, 0, said)
        rows = [row.split(",") for row in self.text("results/table.csv").splitlines()[1:]]
        self.assertEqual([row[1] for row in rows], [f"logs/hart{hart:02}.csv" for hart in range(HARTS)])
        self.assertGreater(sum(int(row[5]) for row in rows), 0)
        self.assertEqual([row[10] == "whole" for row in rows], [row[5] == "0" for row in rows])
        self.assertEqual(self.ran("--cores", "2")[0].count("Nothing to be done"), 1)

    def test_an_illegal_log(self):
        with open(self.path("logs/hart03.csv"), "a") as file:
            file.write("80000002,0,3,,\n")
        said, status = self.ran("--cores", "2")
        self.assertEqual(status, 1)
        self.assertIn("logs/hart03.csv: row ", said)
        self.assertFalse(os.path.exists(self.path("results/table.csv")))

    @unittest.skipUnless(all(SLURM), "Slurm is not there")
    def test_on_slurm_with_a_job_that_is_killed(self):
        self.assertEqual(self.ran("--cores", "2")[1], 0)
        slurm = os.path.join(TOOLS, "one-node-slurm")
        subprocess.run([slurm, "start", self.path("slurm")], check=True, capture_output=True)
        self.addCleanup(subprocess.run, [slurm, "stop", self.path("slurm")], check=True)
        environment = {"SLURM_CONF": self.path("slurm/slurm.conf")}
        run = self.begun("--profile", os.path.join(FARM, "slurm"), results="again", path="sleep 10; " + DAMAGE, **environment)
        self.kill_job("farm-path", environment)
        said = run.communicate(timeout=300)[0]
        self.assertEqual(run.returncode, 0, said)
        self.assertEqual(said.count("Trying to restart job"), 1)
        self.assertEqual(self.text("again/table.csv"), self.text("results/table.csv"))

    def kill_job(self, name, environment):
        """Kills the processes of the first job of a name, once it runs."""
        def said(*words):
            return subprocess.run(words, env={**os.environ, **environment}, capture_output=True, text=True).stdout.split("\n")

        for _ in range(300):
            if job := said("squeue", "-h", "-n", name, "-t", "R", "-o", "%A")[0]:
                break
            time.sleep(1)
        time.sleep(2)
        numbers = [line.split()[0] for line in said("scontrol", "listpids", job)[1:] if line]
        subprocess.run(["kill", "-9", *numbers], check=True, capture_output=True)


if __name__ == "__main__":
    unittest.main()
