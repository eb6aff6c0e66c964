"""`tools/page`: what a page says of an audit and of a capture without what was sent, what is wrong with a file that is
none, and that the table of harts is sorted."""
import html.parser
import io
import os
import re
import shutil
import subprocess
import unittest
from random import Random

import audit_tables
from support import BASE, TOOLS, TOP, TRACEBENCH, InFolder
import built
import wire

PYTHON = "/usr/bin/python3"
PACKAGES = "import jinja2, matplotlib, pandas"
IS_THERE = os.path.exists(PYTHON) and subprocess.run([PYTHON, "-c", PACKAGES], capture_output=True).returncode == 0
CHROMIUM = shutil.which("chromium")
RECEIVED = os.path.join(TOP, "examples/audit/audit_received.txt")
MEASURED = """hart,events,retirements,traps,branches,packets,payload_bytes
0,9,8,1,0,4,10
1,8,8,0,0,4,20
all,17,16,1,0,8,30
"""
LISTED = """kind,offset,hart,number,packet,added,first,last,first_symbol
message,00000010,0,0,open,0,,,
message,0000001c,0,1,sync,1,80000000,80000000,main
message,0000002c,0,2,address,0,,,
message,00000039,0,3,address,5,80000004,80000014,main
message,00000045,0,4,sync,4,80000018,80000024,main
message,00000055,0,5,close,2,80000028,8000002c,"f(int, int)"
message,00000060,1,0,open,0,,,
message,0000006c,1,1,sync,1,80000000,80000000,main
message,0000007c,1,2,address,0,,,
message,00000089,1,3,address,0,,,
message,00000095,1,4,close,3,80000004,8000000c,main
"""
OF_LIST = (
    "kind,place,offset,hart,number,packet,addr,diff,priv,branch,trap,cause,tval,handler,epc,map,report,mode,ended,bad,"
    "waits,closed,treatment,reason,late,bytes,added,first,last,first_symbol,first_distance,last_symbol,last_distance"
).split(",")
SALVAGED = """kind,hart,number,last,count,offset,second,mode,closed,reason
hart,0,,,,,,differential,no,
mode,0,,,,,,full,,
stretch,0,0,3,3,,,,,
gap,0,,,2,,,,,
stretch,0,8,9,5,,,,,
bad,0,10,,,00000100,,,,bad packet: Unsupported
bad,0,11,,,00000110,,,,"closing, but number 12 came"
doubtful,0,12,,,00000120,00000200,,,
gap,0,,,1,,,,,
stretch,0,13,13,1,,,,,
alone,0,99,,,00000240,,,,
copies,0,,,1,,,,,
late,0,,,4,,,,,
hart,1,,,,,,full,yes,
stretch,1,0,4,1007,,,,,
bytes,,,,12,00000058,,,,
bytes,,,,3,00000260,,,,
strangers,,,,2,,,,,
"""
TIMES = """# of a link with two sources
0 0 1f @1000000

1 8504 @1500000
0,1,7300000020,@2000000
0	2	0a @2500000
1 8504
0 3 4f @9000000
"""
KEPT = """
import sys
sys.path.insert(0, sys.argv[1])
from paging import salvaged, tables
for path in sys.argv[2:]:
    found = salvaged.read(tables.Source(path))
    names = "rows", "stretches", "missing", "bad", "doubtful", "alone", "far", "copies", "late"
    print(sorted((hart, [counts[name] for name in names]) for hart, counts in found.harts.items()),
          found.bytes, found.byte_runs, found.strangers)
"""
COMPARED = """hart 0: 20 events, 5 packets, 30 payload bytes, decoded 10, beginning
hart 0: row 11: log 80000014,0,3,,
hart 0: row 11: decoded end
hart 1: 20 events, 5 packets, 30 payload bytes, decoded 20, whole
result: not whole
"""
STRIP = """hart,first,last,function,rows
0,0,3,"main",3
0,4,7,"main",4
0,8,11,"f(int, int)",3
1,0,1,"idle",2
"""
SCROLLS = """<script>
const shown = document.querySelector(".scroll");
document.title = (shown.scrollHeight > shown.clientHeight) + " " + (shown.scrollWidth > shown.clientWidth);
</script>"""
CLICKS = """<script>
const order = () => [...document.querySelectorAll(".harts tbody th")].map((cell) => cell.textContent).join(" ");
const orders = [order()];
const click = (name) => { for (const button of document.querySelectorAll("th button"))
  if (button.textContent === name) button.click(); orders.push(order()); };
click("lost"); click("lost"); click("verdict"); click("hart"); click("hart");
const sorted = document.querySelectorAll("[aria-sort]");
document.title = orders.join(", ") + "; " + sorted.length + " " + sorted[0].textContent;
</script>"""


def in_classes(values):
    """How many values are 0, 1, 2, 3 to 4 and so on, from the least class that has one to the greatest."""
    classes = [(value - 1).bit_length() + 1 if value else 0 for value in values]
    return [classes.count(at) for at in range(min(classes), max(classes) + 1)]


def table(*rows):
    return "".join(line + "\n" for line in (",".join(audit_tables.COLUMNS), *rows))


def of_example():
    with open(RECEIVED) as file:
        return audit_tables.table_of(file.read(), 10)


def of_listed():
    """The example's audit, with as many messages sent of hart 0 as the list has."""
    return of_example().replace("hart,,,0,,,,,,,5,", "hart,,,0,,,,,,,6,")


def listed(*rows, more=()):
    """A table of `list --salvage` of rows (columns and values), and columns after the last."""
    return "".join(",".join(line) + "\n" for line in (
        [*OF_LIST, *more], *([row.get(name, "") for name in (*OF_LIST, *more)] for row in rows)))


def message(offset, hart, number, treatment, added="", **more):
    """A row of a message in a table of `list --salvage`."""
    return {
        "kind": "message",
        "offset": f"{offset:08x}",
        "hart": str(hart),
        "number": str(number),
        "packet": "sync",
        "treatment": treatment,
        "added": str(added),
        "late": "no",
        **more,
    }


def changed(messages, random):
    """Some messages with a few faults."""
    messages = list(messages)
    for _ in range(random.randrange(1, 5)):
        at = random.randrange(len(messages))
        fault = random.randrange(5)
        if fault == 0:
            del messages[at:at + random.randrange(1, 4)]
        elif fault == 1:
            messages.insert(random.randrange(len(messages)), messages[at])
        elif fault == 2:
            messages.insert(random.randrange(len(messages)), messages.pop(at))
        elif fault == 3:
            place = random.randrange(11, len(messages[at]))
            messages[at] = (
                messages[at][:place]
                + bytes([messages[at][place] ^ 1 << random.randrange(8)])
                + messages[at][place + 1 :]
            )
        else:
            messages[at] = messages[at][:random.randrange(1, len(messages[at]))]
    return messages


class Reader(html.parser.HTMLParser):
    """The texts of a page: its tables as lists of rows of cells, and its paragraphs."""

    def __init__(self, text):
        super().__init__()
        self.tables, self.paragraphs, self.into = [], [], None
        self.feed(text)

    def handle_starttag(self, tag, attrs):
        if tag == "table":
            self.tables.append([])
        elif tag == "tr":
            self.tables[-1].append([])
        elif tag in ("th", "td"):
            self.tables[-1][-1].append("")
            self.into = tag
        elif tag == "p":
            self.paragraphs.append("")
            self.into = tag

    def handle_endtag(self, tag):
        if tag == self.into:
            self.into = None

    def handle_data(self, data):
        if self.into == "p":
            self.paragraphs[-1] += data
        elif self.into:
            self.tables[-1][-1][-1] += data


@unittest.skipUnless(IS_THERE, "matplotlib, pandas or Jinja2 of Debian is not there")
class Page(InFolder):
    def ran(self, audit, *options):
        """What a run over the text of an audit comes to, and the page."""
        page = os.path.join(self.folder, "page.html")
        words = [os.path.join(TOOLS, "page"), *options, self.file("audit.csv", audit), page]
        ran = subprocess.run(words, capture_output=True, text=True)
        return ran, page

    def made(self, audit, *options):
        ran, page = self.ran(audit, *options)
        self.assertEqual((ran.returncode, ran.stdout, ran.stderr), (0, "", ""))
        with open(page, encoding="utf-8") as file:
            return file.read()

    def refused(self, said, audit, *options, status=2):
        with self.subTest(said):
            ran, page = self.ran(audit, *options)
            self.assertEqual((ran.returncode, ran.stdout), (status, ""))
            self.assertEqual(ran.stderr.replace(self.folder + "/", ""), f"page: {said}\n")
            self.assertFalse(os.path.exists(page))

    def test_the_example(self):
        page = Reader(self.made(of_example()))
        self.assertEqual(page.paragraphs[0], "✗ not whole")
        self.assertEqual(page.paragraphs[1:3], ["2 harts: 10 messages sent, 10 came, 2 lost (20.0 %).",
                                                "Of those that came 1 repeated, 1 late, 1 changed."])
        harts, places, by_hart, late, runs = page.tables
        self.assertEqual(harts[1][:8], ["0", "not whole", "5", "5", "1", "1", "0", "0"])
        self.assertEqual(harts[2][:8], ["1", "not whole", "5", "5", "1", "0", "1", "1"])
        self.assertEqual(places[0], ["places", "lost", "repeated", "late", "changed"])
        self.assertEqual([row[1:] for row in places[1:]], [
            ["0", "0", "0", "0"], ["0", "0", "0", "0"], ["0", "1", "0", "0"], ["1", "0", "0", "0"], ["0", "0", "0", "0"],
            ["0", "0", "0", "0"], ["0", "0", "0", "0"], ["0", "0", "1", "0"], ["0", "0", "0", "1"], ["1", "0", "0", "0"]])
        self.assertEqual(by_hart, [["hart", *(f"{kind}: first and last place" for kind in ("lost", "changed", "repeated", "late"))],
                                   ["hart 0", "3", "", "2", ""], ["hart 1", "9", "8", "", "7"]])
        self.assertEqual(late[1:], [["1", "1"]])
        self.assertEqual(runs[1:], [["1", "2", "2"]])

    def strips(self, text):
        return "--list", self.file("list.csv", LISTED), "--functions", self.file("strip.csv", text)

    def test_where_the_program_was(self):
        """Message 2 of hart 0 is lost: it adds no row, and with it go rows 1 to 8, the 5 of message 3 and the 3 of message 4 before its
        own."""
        audit = table("run,,,0,2,2,,,,,,,,,,,,,,,", "hart,,,0,,,,,,,6,5,1,0,0,0,0,1,1,0,not whole",
                      "hart,,,1,,,,,,,5,5,0,0,0,0,0,0,0,0,whole", "result,10,,,1,,,0,,,,,,,,,0,0,,,not whole")
        page = Reader(self.made(audit, *self.strips(STRIP)))
        found = page.tables[3]
        self.assertEqual(found, [["function", "rows", "rows lost"], ["main", "8", "7"], ["f(int, int)", "4", "1"], ["idle", "2", "0"]])
        self.assertIn("Most lost rows are of main: 7 of 8, by the function of each part.", page.paragraphs)

    def test_strips_that_are_none(self):
        good = of_listed()
        self.refused("strip.csv: line 1: no table of `tools/timeline --strip`", good, *self.strips("hart,first\n"))
        self.refused("strip.csv: line 3: no row of `tools/timeline --strip`", good, *self.strips(STRIP.replace("0,4,7", "0,x,7")))
        self.refused("strip.csv: no row: give it what `tools/timeline --strip` writes", good, *self.strips(STRIP.splitlines()[0] + "\n"))
        ran, _ = self.ran(good, "--functions", self.file("strip.csv", STRIP))
        self.assertEqual(ran.returncode, 2)
        self.assertIn("--functions wants --list FILE", ran.stderr)

    def of_harts(self, count):
        rows = [f"hart,,,{hart},,,,,,,20000,19990,10,10,10,10,10,10,10,10,not whole" for hart in range(count)]
        return self.made(table(*rows, "result,400,,,,,,0,,,,,,,,,0,0,,,not whole"))

    @unittest.skipUnless(CHROMIUM, "Chromium is not there")
    def test_64_harts_have_no_scroll_bar(self):
        for count, want in ((64, "false false"), (65, "true false")):
            path = self.file("long.html", self.of_harts(count).replace("</body>", SCROLLS + "</body>"))
            words = [CHROMIUM, "--headless", "--no-sandbox", "--disable-gpu", f"--user-data-dir={self.folder}/chromium",
                     "--window-size=1100,900", "--dump-dom", "file://" + path]
            dom = subprocess.run(words, capture_output=True, text=True, timeout=120).stdout
            self.assertEqual(re.search("<title>(.*)</title>", dom)[1], want)

    def test_it_stands_alone(self):
        page = self.made(of_example())
        self.assertEqual(re.findall(r"(?:src|href|srcset)=\"(?!data:image/svg)", page), [])
        self.assertNotIn("@import", page)
        self.assertNotIn("url(", page)
        self.assertEqual(page.count("<script"), 1)
        self.assertEqual(page, self.made(of_example()))

    def test_a_lost_run_is_where_its_hart_goes_on(self):
        page = Reader(self.made(table(
            "message,4,,0,9,,skips,6,,,,,,,,,,,,,", "message,6,,0,5,,late,4,,,,,,,,,,,,,", "run,,,0,3,4,,,,,,,,,,,,,,,",
            "run,,,0,6,8,,,,,,,,,,,,,,,", "run,,,0,12,15,,,,,,,,,,,,,,,",
            "hart,,,0,,,,,,,16,7,9,0,1,0,0,3,4,4,not whole", "result,7,,,4,,,0,,,,,,,,,0,0,,,not whole")))
        self.assertEqual([row[:2] for row in page.tables[1][5:]], [["4", "5"], ["5", "0"], ["6", "4"]])
        self.assertEqual(page.tables[3][1:], [["2", "1", "2"], ["3 to 4", "2", "7"]])

    def test_what_is_lost_at_the_end_is_at_the_last_place(self):
        """Of two harts and 4 messages: hart 0 lost one before place 1 and two at its end, hart 1 nothing."""
        page = Reader(self.made(table(
            "message,1,,0,2,,skips,1,,,,,,,,,,,,,", "run,,,0,1,1,,,,,,,,,,,,,,,", "run,,,0,3,4,,,,,,,,,,,,,,,",
            "hart,,,0,,,,,,,5,2,3,0,0,0,0,2,2,0,not whole", "hart,,,1,,,,,,,2,2,0,0,0,0,0,0,0,0,whole",
            "result,4,,,1,,,0,,,,,,,,,0,0,,,not whole")))
        self.assertEqual(page.tables[1][1:], [["0", "0"], ["1", "1"], ["2", "0"], ["3", "2"]])
        self.assertEqual(page.tables[2], [["hart", "lost: first and last place"], ["hart 0", "1 to 3"]])
        self.assertIn("Each strip is a hart, each part of it 1 place.", page.paragraphs)

    def test_numbers_keep_their_digits(self):
        """Of two runs: the first number of one is no double, and the other ends with the last number that there is."""
        page = Reader(self.made(table(
            "run,,,0,9007199254740993,9007199254740994,,,,,,,,,,,,,,,",
            "run,,,0,9223372036854775805,9223372036854775806,,,,,,,,,,,,,,,",
            "hart,,,0,,,,,,,5,1,4,0,0,0,0,2,2,0,not whole", "result,1,,,0,,,0,,,,,,,,,0,0,,,not whole")))
        self.assertEqual(page.tables[2][1:], [["2", "2", "4"]])

    def test_a_whole_path(self):
        page = Reader(self.made(table("hart,,,0,,,,,,,5,5,0,0,0,0,0,0,0,0,whole", "all,,,,,,,,,,5,5,0,0,0,0,0,,,,whole",
                                      "result,5,,,,,,0,,,,,,,,,0,0,,,whole")))
        self.assertEqual(page.paragraphs[0], "✓ whole")
        self.assertEqual(len(page.tables), 1)

    def test_without_numbers(self):
        page = Reader(self.made(table(
            "message,2,,0,,,extra,,,,,,,,,,,,,,", "hart,,,0,,,,,,,5,6,0,,,,1,0,0,,not whole",
            "all,,,,,,,,,,5,6,0,,,,1,,,,not whole", "result,6,,,2,,headers differ,,,,,,,,,,0,,,,not whole")))
        self.assertEqual(page.tables[0][0], ["hart", "verdict", "sent", "came", "lost", "extra", "runs of losses",
                                             "longest run", "lost %"])
        self.assertIn("Of those that came 1 extra.", page.paragraphs)
        self.assertIn("The headers of SENT and RECEIVED differ.", page.paragraphs)
        self.assertEqual(page.tables[1][0], ["places", "extra"])

    def test_a_stranger_of_a_hart_that_sent_has_not(self):
        page = Reader(self.made(table("message,5,,65535,18446744073709551615,,stranger,,,,,,,,,,,,,,",
                                      "hart,,,0,,,,,,,5,5,0,0,0,0,0,0,0,0,whole",
                                      "result,6,,,5,,,0,,,,,,,,,1,0,,,not whole")))
        self.assertIn("Of those that came 1 strange.", page.paragraphs)
        self.assertEqual(page.tables[1][-1], ["5", "1"])

    def test_a_summary(self):
        page = Reader(self.made(table("hart,,,0,,,,,,,5,4,1,0,0,0,0,1,1,0,not whole", "result,4,,,3,,,9,,,,,,,,,0,2,,,not whole")))
        self.assertIn("9 bytes in 2 runs are of no message.", page.paragraphs)
        self.assertIn("The audit is a summary (--summary), so where it happened is not shown.", page.paragraphs)

    def test_the_other_files(self):
        page = Reader(self.made(
            of_listed(), "--list", self.file("list.csv", LISTED), "--measure", "8=" + self.file("8.csv", MEASURED),
            "--measure", "64=" + self.file("64.csv", MEASURED.replace("10\n1", "8\n1")),
            "--compare", self.file("compare.txt", COMPARED)))
        harts, _, _, _, _, taken, bits = page.tables
        self.assertEqual(harts[0][-4:], ["rows a loss costs", "rows", "rows decoded", "log"])
        # Open 0; sync 1 + 5 and the 3 before the next sync; address 8; address 8; sync 4 + 2; close 2.
        self.assertEqual(harts[1][-4:], [f"{(0 + 9 + 8 + 8 + 6 + 2) / 6:.1f}", "20", "10", "beginning"])
        # Open 0, as the next sync alone is of it; sync 1 + 3; address 3; address 3; close 3.
        self.assertEqual(harts[2][-4:], [f"{(0 + 4 + 3 + 3 + 3) / 5:.1f}", "20", "20", "whole"])
        self.assertEqual(
            taken[1:], [["0", "2"], ["1", "0"], ["2", "1"], ["3 to 4", "4"], ["5 to 8", "3"], ["9 to 16", "1"]]
        )
        self.assertEqual(bits, [["hart", "period 8", "period 64"], ["hart 0", "10.000", "8.000"], ["hart 1", "20.000", "20.000"],
                                ["all", "15.000", "15.000"]])
        self.assertIn("`compare`: 30 of 40 rows of the logs are decoded (75.0 %), not whole. It stops at the first fault of any hart; "
                      "`decode --lossy` goes on after lost messages.", page.paragraphs)

    @unittest.skipUnless(TRACEBENCH, "the program is not built")
    def test_rows_that_a_lost_message_takes_away(self):
        """They are those that `decode --lossy` does not print where one message is missing."""
        image, log = self.generated("branches")
        capture = self.of_program("encode", "--base", f"{BASE:x}", "--period", "32", image, log)
        messages, gone = [message for _, message in wire.messages(capture, len(wire.header()))], []
        for lost in range(len(messages)):
            left = self.file("left.capture", capture[:len(wire.header())] + b"".join(messages[:lost] + messages[lost + 1:]))
            text = self.of_program("decode", "--lossy", "--base", f"{BASE:x}", image, left).decode()
            gone.append(300 - sum(line.startswith("8000") for line in text.splitlines()))
        sent = self.file("sent.capture", capture)
        listed = self.of_program("list", "--format", "csv", "--base", f"{BASE:x}", image, sent)
        count = len(messages)
        audit = table(
            "message,1,,0,2,,skips,1,,,,,,,,,,,,,",
            "run,,,0,1,1,,,,,,,,,,,,,,,",
            f"hart,,,0,,,,,,,{count},{count - 1},1,0,0,0,0,1,1,0,not whole",
            f"result,{count - 1},,,1,,,0,,,,,,,,,0,0,,,not whole",
        )
        page = Reader(self.made(audit, "--list", self.file("list.csv", listed)))
        self.assertGreater(max(gone), 32)
        self.assertEqual(page.tables[0][1][-1], f"{sum(gone) / len(gone):,.1f}")
        self.assertEqual([int(count) for _, count in page.tables[3][1:]], in_classes(gone))

    def test_columns_and_rows_that_a_later_audit_has(self):
        """Lost and missing side by side, and sources that were exchanged."""
        lines = table(
            "exchanged,,,1,,,,,,,,,,,,,,,,,",
            "hart,,,0,,,,,,,5,5,2,0,0,1,0,1,2,0,not whole",
            "hart,,,1,,,,,,,5,5,0,0,0,0,0,0,0,0,whole",
            "result,10,,,1,,,0,,,,,,,,,0,0,,,not whole",
        ).splitlines()
        missing = ["missing", "", "1", "0", ""]
        page = Reader(self.made("".join(f"{line},{field}\n" for line, field in zip(lines, missing))))
        self.assertEqual(page.tables[0][0][4:6], ["lost", "missing"])
        self.assertEqual([row[4:6] for row in page.tables[0][1:]], [["2", "1"], ["0", "0"]])
        self.assertIn(
            "As those of hart 1 came messages of another hart: look at the wiring of the sources.", page.paragraphs
        )

    def test_what_salvage_says(self):
        """Numbers 4 and 5 of hart 0 did not come, 6 and 7 were passed over, 12 came with two payloads."""
        page = Reader(self.made(SALVAGED))
        self.assertEqual(
            page.paragraphs[:7],
            [
                "✗ not all is there",
                "Left: 1,016 rows of 2 harts, in 4 stretches.",
                "Messages: missing 3, bad 2, doubtful numbers 1, alone 1, copies 1, late 4.",
                "Messages of harts that are not known: 2.",
                "15 bytes in 2 runs are of no message.",
                "No closing packet of hart 0.",
                "A click on a column's name sorts by it, another one the other way around. “missing” are numbers that "
                "did not come; “passed over” are messages before the next synchronisation after a fault; “alone” and "
                "“far” have numbers that are not believed.",
            ],
        )
        harts, strip, marked, why, gaps = page.tables
        self.assertEqual(
            harts,
            [
                ["hart", "mode", "closed", *"rows left,stretches,missing,bad,doubtful numbers,alone,copies,late".split(",")],
                ["0", "differential", "no", "9", "3", "3", "2", "1", "1", "1", "4"],
                ["1", "full", "yes", "1,007", "1", "0", "0", "0", "0", "0", "0"],
            ],
        )
        self.assertEqual(
            strip,
            [
                ["hart", *(f"{kind}: first and last" for kind in ("gap", "bad", "doubtful", "passed", "stretch"))],
                ["0", "4 to 5", "10 to 11", "12", "6 to 7", "0 to 13"],
                ["1", "", "", "", "", "0 to 4"],
            ],
        )
        self.assertEqual(
            marked,
            [
                ["hart", *(f"{kind}: first and last" for kind in ("bad", "doubtful", "alone", "no message"))],
                ["0", "256 to 300", "288 to 540", "576 to 604", ""],
                ["1", "", "", "", ""],
                ["none", "", "", "", "88 to 610"],
            ],
        )
        self.assertEqual(why[1:], [["bad packet: Unsupported", "1"], ["closing, but a greater number came", "1"]])
        self.assertEqual(gaps[1:], [["1", "1"], ["2", "1"]])

    def test_a_salvage_that_finds_all(self):
        page = Reader(self.made(SALVAGED.splitlines()[0] + "\nhart,3,,,,,,full,yes,\nstretch,3,0,4,7,,,,,\n"))
        self.assertEqual(page.paragraphs[:3], ["✓ nothing is missing", "Left: 7 rows of 1 hart, in 1 stretch.",
                                               "No message is missing, damaged or passed over."])
        self.assertEqual(len(page.tables), 2)

    def test_totals_and_far_numbers_of_a_later_salvage(self):
        rows = "far,1,8716800,,,00000300,,,,\n", "all,,,,1016,,,,,rows\nall,,,,1,,,,,far\n"
        page = Reader(self.made(SALVAGED.replace("bytes,,,,12", rows[0] + "bytes,,,,12") + rows[1]))
        self.assertIn("`salvage` counts: 1,016 rows, 1 far.", page.paragraphs)
        self.assertEqual([row[9] for row in page.tables[0]], ["far", "0", "1"])
        self.assertEqual([row[-1] for row in page.tables[1][1:]], ["0 to 13", "0 to 4"])
        self.assertEqual([row[4] for row in page.tables[2][1:]], ["", "768 to 796", ""])

    def test_what_the_list_of_a_salvage_says(self):
        """The damaged capture of the guide: number 2 came before 1, 3 twice, and the last message is cut."""
        page = Reader(
            self.made(
                listed(
                    message(0x10, 0, 0, "taken", 0, closed="no"),
                    message(0x1C, 0, 2, "taken", 0, closed="no"),
                    message(0x28, 0, 1, "taken", 1, closed="no", late="yes"),
                    message(0x38, 0, 3, "taken", 2, closed="no"),
                    message(0x48, 0, 3, "copy"),
                    {"kind": "bytes", "offset": "00000058", "bytes": "12"},
                )
            )
        )
        self.assertEqual(
            page.paragraphs[:5],
            [
                "✗ not all is there",
                "Left: 3 rows of 1 hart, in 1 stretch.",
                "Messages: decoded 4, copies 1, late 1.",
                "12 bytes in 1 run are of no message.",
                "No row closes hart 0.",
            ],
        )
        self.assertEqual(
            page.tables,
            [
                [
                    [
                        "hart",
                        "closed",
                        "rows left",
                        "stretches",
                        "decoded",
                        "passed over",
                        "missing",
                        "bad",
                        "doubtful numbers",
                        "alone",
                        "copies",
                        "late",
                    ],
                    ["0", "no", "3", "1", "4", "0", "0", "0", "0", "0", "1", "1"],
                ],
                [
                    ["hart", *(f"{kind}: first and last" for kind in ("no message", "copy", "stretch"))],
                    ["0", "", "72 to 87", "16 to 71"],
                    ["none", "88 to 99", "", ""],
                ],
            ],
        )

    def test_each_fate_in_a_list_of_a_salvage(self):
        """Of hart 1 numbers 3 and 4 did not come, 5 is passed over, 6 bad, 7 passed over, 8 doubtful; 9 begins a
        stretch that closes at 10. Number 900 is far, and was decoded."""
        page = Reader(
            self.made(
                listed(
                    message(0x10, 1, 0, "taken", 0, closed="no"),
                    message(0x20, 1, 1, "taken", 2, closed="no"),
                    message(0x30, 1, 2, "taken", 0, closed="no"),
                    message(0x40, 1, 5, "passed"),
                    message(0x50, 1, 6, "bad", reason="bad packet: Unsupported"),
                    message(0x60, 1, 7, "passed"),
                    message(0x70, 1, 8, "doubtful"),
                    message(0x80, 1, 8, "doubtful"),
                    message(0x90, 1, 900, "taken", 1, closed="no", far="yes"),
                    message(0xA0, 1, 9, "taken", 1, closed="no"),
                    message(0xB0, 1, 10, "taken", 4, closed="yes"),
                    message(0xC0, 77, 5, "stranger"),
                    more=["far"],
                )
            )
        )
        self.assertEqual(page.tables[0][1], ["1", "yes", "8", "3", "5", "2", "3", "1", "1", "0", "1", "0", "0"])
        self.assertEqual(
            page.tables[1],
            [
                [
                    "hart",
                    *(
                        f"{kind}: first and last"
                        for kind in ("gap", "bad", "doubtful", "far", "no message", "passed", "stretch")
                    ),
                ],
                ["1", "64", "80 to 95", "112 to 143", "144 to 159", "", "64 to 111", "16 to 191"],
                ["none", "", "", "", "", "192 to 220", "", ""],
            ],
        )
        self.assertIn("Messages of harts that are not known: 1.", page.paragraphs)
        self.assertEqual(page.tables[3][1:], [["1", "1"], ["2", "1"]])

    def test_tables_of_another_kind(self):
        wanted = "give it what `audit`, `salvage` or `list --salvage` writes with --format csv"
        self.refused(f"audit.csv: a table of `measure`: {wanted}", MEASURED)
        self.refused(f"audit.csv: a table of `tools/timeline --strip`: {wanted}", STRIP)
        self.refused(f"audit.csv: a table of `decode`: {wanted}", "addr,itype,priv,cause,tval\n80000000,0,3,,\n")
        self.refused(f"audit.csv: a table of `list` without --salvage: {wanted}", listed(message(0x10, 0, 0, "", 0)))
        self.refused(
            "audit.csv: line 3: the treatment is none that a message has",
            listed(message(0x10, 0, 0, "taken"), message(0x20, 0, 1, "lost")),
        )
        self.refused("audit.csv: line 2: offset is no offset", listed({**message(0, 0, 0, "taken"), "offset": "x"}))
        self.refused("audit.csv: no audit, and --list, --functions, --measure and --compare go with one", SALVAGED,
                     "--compare", self.file("c.txt", COMPARED))
        self.refused("audit.csv: line 4: number is not a number", SALVAGED.replace("stretch,0,0,", "stretch,0,x,"))
        self.refused("audit.csv: line 4: not 10 fields", SALVAGED.replace("stretch,0,0,", "stretch,0,"))
        self.refused(
            "audit.csv: line 4: no row of its hart before it", SALVAGED.replace("stretch,0,0,", "stretch,1,0,")
        )
        self.refused(
            "audit.csv: line 5: the kind is none that a table of `salvage` has",
            SALVAGED.replace("gap,0,,,2", "gap?,0,,,2"),
        )
        self.refused(
            "audit.csv: no row of a hart: give it what `salvage --format csv` writes", SALVAGED.splitlines()[0] + "\n"
        )

    def test_a_list_of_another_capture(self):
        wanted, good = "give it what `list --format csv` writes of SENT", of_listed()
        self.refused(
            f"list.csv: hart 0 has 6 messages, and 5 were sent: {wanted}",
            of_example(),
            "--list",
            self.file("list.csv", LISTED),
        )
        self.refused(
            f"list.csv: hart 1 has 0 messages, and 5 were sent: {wanted}",
            good,
            "--list",
            self.file("list.csv", LISTED[: LISTED.index("message,00000060")]),
        )
        self.refused(
            f"list.csv: line 12: the list stops here, at a message that is refused: {wanted}",
            good,
            "--list",
            self.file("list.csv", LISTED.replace("message,00000095", "refused,00000095")),
        )
        self.refused(
            f"list.csv: a table of `list --salvage`: {wanted}",
            good,
            "--list",
            self.file("list.csv", listed(message(0x10, 0, 0, "taken", 0))),
        )
        self.refused(
            "list.csv: a table of `salvage --format csv`: give it what `list --format csv` writes",
            good,
            "--list",
            self.file("list.csv", SALVAGED),
        )

    def test_messages_over_time(self):
        """Hart 0 is silent from 1.5 s to 8 s, hart 1 from its only message to the end."""
        for text in of_example(), SALVAGED:
            page = Reader(self.made(text, "--times", self.file("lines.txt", TIMES)))
            rates = next(table for table in page.tables if table[0][-1] == "from (s)")
            self.assertEqual(rates, [
                ["hart", "messages", "a second", "most a second in a bar", "longest silence (s)", "from (s)"],
                ["hart 0", "4", "0.5", "30.0", "6.5", "1.5"], ["hart 1", "1", "0.1", "30.0", "7.5", "0.5"]])
            self.assertIn("5 messages in 8 s, 0.6 a second. Each bar is of 0.0333 s.", page.paragraphs)
            self.assertIn("Hart 1 has the longest silence: 7.5 s, from 0.5 s on.", page.paragraphs)
            self.assertIn("Lines without a time, which are not counted: 1.", page.paragraphs)
        page = Reader(self.made(of_example(), "--times", self.file("lines.txt", "0 1f @5\n"), "--ticks", "10"))
        self.assertIn("1 message in 0 s. Each bar is of 1 s.", page.paragraphs)

    def test_times_that_are_none(self):
        good = of_example()
        self.refused(
            "lines.txt: no line has @TIME: `tools/unwrap --times` writes it",
            good,
            "--times",
            self.file("lines.txt", "0 0 1f\n"),
        )
        self.refused(
            "lines.txt: line 2: @soon is no time", good, "--times", self.file("lines.txt", "0 0 1f @1\n0 1 1f @soon\n")
        )
        self.refused(
            "lines.txt: line 1: no line of a hart, a payload and @TIME",
            good,
            "--times",
            self.file("lines.txt", "hart 0 1f @1\n"),
        )

    @unittest.skipUnless(TRACEBENCH, "the program is not built")
    def test_both_tables_of_a_salvage_count_the_same(self):
        """Of captures of two harts in which messages were taken out, doubled, exchanged, changed or cut."""
        image, log = self.generated("mixed")
        capture = self.of_program("encode", "--base", f"{BASE:x}", "--period", "16", image, log, log)
        start, paths = len(wire.header(harts=2)), []
        self.assertEqual(capture[:start], wire.header(harts=2, period=16))
        sent, random = [part for _, part in wire.messages(capture, start)], Random(7)
        for at in range(40):
            damaged = self.file("damaged.capture", capture[:start] + b"".join(changed(sent, random)))
            for command in ["salvage"], ["list", "--salvage"]:
                written = self.of_program(*command, "--format", "csv", "--base", f"{BASE:x}", image, damaged)
                paths.append(self.file(f"{at}{command[0]}.csv", written))
        ran = subprocess.run([PYTHON, "-c", KEPT, TOOLS, *paths], capture_output=True, text=True, check=True)
        lines = ran.stdout.splitlines()
        self.assertEqual(lines[::2], lines[1::2])
        self.assertGreater(len(set(lines)), 20)

    def generated(self, mix):
        """The files of an image and of a log of 300 rows."""
        image, log = built.generated(TRACEBENCH, mix, 300)
        return self.file("image.bin", image), self.file("log.csv", log)

    def of_program(self, *words):
        """What the program prints."""
        return subprocess.run([TRACEBENCH, *words], capture_output=True).stdout

    def test_a_file_that_is_none(self):
        header = table()
        good = of_example()
        self.refused("audit.csv: empty: give it what `audit`, `salvage` or `list --salvage` writes with --format csv", "")
        self.refused("audit.csv: no text: give it what `audit --format csv` writes", b"\xff\xffrvtrace2\0\0\n")
        self.refused("audit.csv: line 1: no table of `audit --format csv`: it has none of its columns", "hart 0: 5 sent\n")
        self.refused("audit.csv: line 1: the column verdict is lacking: give it what `audit --format csv` writes",
                     header.replace(",verdict", ""))
        self.refused("audit.csv: line 2: 1 fields, not 21", header + "message\n")
        self.refused("audit.csv: line 2: 22 fields, not 21", header + "message" + "," * 21 + "\n")
        self.refused("audit.csv: line 3: place is not a number", good.replace("message,3,", "message,x,"))
        self.refused("audit.csv: line 3: place is not a number", good.replace("message,3,", "message,-3,"))
        self.refused("audit.csv: line 3: the kind is none that an audit has", good.replace("message,3,", "massage,3,"))
        self.refused("audit.csv: line 5: the fate is none that a message has", good.replace(",late,1", ",early,1"))
        self.refused("audit.csv: line 5: by is not 1 or more", good.replace(",late,1", ",late,"))
        self.refused("audit.csv: line 8: the last number is below the first", good.replace("run,,,0,2,2", "run,,,0,2,1"))
        self.refused("audit.csv: no row of the result: the table is cut short", good[:good.index("all,")])
        self.refused("audit.csv: place 9 is past the 9 messages of the result", good.replace("result,10,", "result,9,"))
        self.refused("audit.csv: line 13: the file ends inside a line", good[:-4])
        self.refused("audit.csv: line 14: a row after the result", good + "bytes" + "," * 20 + "\n")

    def test_another_file_that_is_none(self):
        good = of_example()
        self.refused("list.csv: line 1: the column added is lacking: give it what `list --format csv` writes", good,
                     "--list", self.file("list.csv", "kind,hart,number,packet\n"))
        self.refused("list.csv: line 3: number is not a number", good,
                     "--list", self.file("list.csv", LISTED.replace("1c,0,1", "1c,0,one")))
        self.refused("list.csv: no message is a sync", good,
                     "--list", self.file("list.csv", LISTED.replace(",sync,", ",3,")))
        self.refused("--measure m.csv: PERIOD=FILE is wanted, with a period of 1 to 65535", good, "--measure", "m.csv")
        self.refused("m.csv: line 3: 2 fields, not 7", good,
                     "--measure", "8=" + self.file("m.csv", MEASURED.replace("1,8,8,0,0,4", "1")))
        self.refused("c.txt: line 1: no line of `compare`", good, "--compare", self.file("c.txt", "hart 0\n"))
        self.refused("c.txt: no line of the result: give it what `compare` prints", good,
                     "--compare", self.file("c.txt", COMPARED[:COMPARED.index("result")]))
        self.refused("none.csv: No such file or directory", good, "--list", os.path.join(self.folder, "none.csv"), status=3)

    def test_a_million_faults(self):
        out = io.StringIO()
        audit_tables.write_large(out, 100_000, 50_000)
        self.assertLess(len(self.made(out.getvalue())), 3_000_000)

    @unittest.skipUnless(CHROMIUM, "Chromium is not there")
    def test_the_table_is_sorted(self):
        counts = {0: 10, 1: 9, 2: 100, 3: 0}
        rows = [f"hart,,,{hart},,,,,,,200,100,{lost},0,0,0,0,0,0,0,{'not ' if lost else ''}whole" for hart, lost in counts.items()]
        page = self.made(table(*rows, "result,400,,,,,,0,,,,,,,,,0,0,,,not whole"))
        path = self.file("clicked.html", page.replace("</body>", CLICKS + "</body>"))
        words = [CHROMIUM, "--headless", "--no-sandbox", "--disable-gpu", f"--user-data-dir={self.folder}/chromium",
                 "--dump-dom", "file://" + path]
        dom = subprocess.run(words, capture_output=True, text=True, timeout=120).stdout
        title = re.search("<title>(.*)</title>", dom)[1]
        self.assertEqual(title, "0 1 2 3, 3 1 0 2, 2 0 1 3, 0 1 2 3, 0 1 2 3, 3 2 1 0; 1 hart")


if __name__ == "__main__":
    unittest.main()
