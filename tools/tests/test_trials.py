"""Tests of tools/trials, with stand-ins for the toolchain and for both programs: the first difference is found."""
import os
import platform
import subprocess

from room import TOOLS, Room


# Writes its line for a stream, another for each set and start and for saved benches, and for a pair with both sights; from event AT on
# it counts one more. What it shows names set and start too.
PROGRAM = """\
#!/bin/sh
case $1 in
generate) i=0; while [ $i -lt $3 ]; do echo record $i ${4:+of set $4}; i=$((i + 1)); done ;;
show) sed "s/\$/${2:+from start $2}/" ;;
*) [ "$1" = trials ] && shift
    saved=0; [ "$1" = images ] && { saved=1; shift; }
    sights=; [ "$1" = pairs ] && { sights='7 7'; shift; }
    echo $1 $2 $(($1 * 1000 + $2 + ($2 > AT) + ${3:-0} * 100000 + ${4:-0} * 1000000 + saved * 10000000)) $sights ;;
esac
"""


class Trials(Room):
    def setUp(self):
        super().setUp()
        self.script("bin/rt", '#!/bin/sh\nexit 9\n')
        self.script("tools/program", '#!/bin/sh\necho program "$@"\nexit "${FAULT:-0}"\n')
        self.emulator = f"on/{platform.machine()}/toolchain/bin/qemu-x86_64"
        self.script(self.emulator, '#!/bin/sh\nshift 3\nexec "$@"\n')
        self.script("second/build", f'#!/bin/sh\ncp "{self.root}/other" "$1/second"\n')
        for name in ("trials", "machine.py", "find-rt"):
            self.script(f"tools/{name}", (TOOLS / name).read_text("utf-8"))
        self.programs(1000000, 1000000)

    def programs(self, proved, second):
        self.script("target/bin/trials", PROGRAM.replace("AT", str(proved)))
        self.script("other", PROGRAM.replace("AT", str(second)))

    def run_it(self, *words, **settings):
        """The status, and the lines written."""
        setting = {**os.environ, **settings, "PATH": f"{self.root / 'bin'}:{os.environ['PATH']}"}
        setting.pop("RATTLE_HOME", None)
        done = subprocess.run([self.root / "tools/trials", *words], env=setting, stdout=subprocess.PIPE,
                              stderr=subprocess.STDOUT, encoding="utf-8")
        return done.returncode, done.stdout.splitlines()

    def test_agreement(self):
        status, said = self.run_it("3-5", "200")
        self.assertEqual((status, said), (0, ["3 200 3200", "4 200 4200", "5 200 5200", "600 events, no difference"]))

    def test_first_difference_is_found_wherever_it_stands(self):
        for at in (0, 1, 41, 99):
            self.programs(at, 1000000)
            status, said = self.run_it("3", "100")
            self.assertEqual(status, 1)
            self.assertTrue(said[0].startswith(f"The digests differ from record {at} on"))
            self.assertEqual(said[4:-1], [f"record {i}" for i in range(max(0, at - 19), at + 1)])

    def test_a_difference_of_the_second_digest_alone_is_found(self):
        for program, at in (("target/bin/trials", 41), ("other", 1000000)):
            self.script(program, PROGRAM.replace("AT", "1000000").replace(" ;;\nesac", f" $(($2 > {at})) ;;\nesac"))
        self.assertEqual(self.run_it("3", "41"), (0, ["3 41 3041 0", "41 events, no difference"]))
        status, said = self.run_it("3", "100")
        self.assertEqual((status, said[1:3]), (1, ["  proved: 3 42 3042 1", "  second: 3 42 3042 0"]))
        self.assertTrue(said[0].startswith("The digests differ from record 41 on"))

    def test_set_and_start_reach_both_programs(self):
        self.assertEqual(self.run_it("3", "200", "2", "5")[1][0], "3 200 5203200")
        self.assertEqual(self.run_it("3", "200", "2")[1][0], "3 200 203200")
        self.programs(41, 1000000)
        status, said = self.run_it("3", "100", "2", "5")
        self.assertEqual((status, said[-2]), (1, "record 41 of set 2from start 5"))
        self.script("target/bin/trials", PROGRAM.replace("AT", "1000000").replace("${4:-0}", "0"))
        self.assertEqual(self.run_it("3", "100", "2", "5")[0], 1)

    def test_saved_benches_reach_both_programs(self):
        status, said = self.run_it("images", "3-4", "250", "2", "5")
        self.assertEqual((status, said), (0, ["3 250 15203250", "4 250 15204250", "500 events and 4 stops, no difference"]))
        self.script("target/bin/trials", PROGRAM.replace("AT", "1000000").replace("saved=1", "saved=0"))
        self.assertEqual(self.run_it("images", "3", "250")[0], 1)

    def test_pairs_reach_both_programs(self):
        status, said = self.run_it("pairs", "3-4", "250", "2", "5")
        self.assertEqual((status, said), (0, ["3 250 5203250 7 7", "4 250 5204250 7 7", "500 turns and 4 stops, no difference"]))
        self.programs(199, 1000000)
        status, said = self.run_it("pairs", "3", "250")
        self.assertEqual((status, len(said)), (1, 4))
        self.assertTrue(said[0].startswith("The digests differ from turn 199 on"))
        self.assertTrue(said[3].startswith("There is a stop behind it"))

    def test_sights_that_differ_are_no_agreement(self):
        for program in ("target/bin/trials", "other"):
            self.script(program, PROGRAM.replace("AT", "1000000").replace("7 7", "7 8"))
        status, said = self.run_it("pairs", "3", "250")
        self.assertEqual((status, said[0]), (1, "3 250 3250 7 8"))
        self.assertEqual(self.run_it("3", "250")[0], 0)

    def test_stop_behind_the_first_difference_is_told(self):
        for at, told in ((99, True), (150, False), (199, True)):
            self.programs(at, 1000000)
            status, said = self.run_it("images", "3", "300")
            self.assertEqual((status, said[-1].startswith("There is a stop behind it")), (1, told), at)
            self.assertTrue(said[0].startswith(f"The digests differ from record {at} on"))
        self.assertFalse(self.run_it("3", "300")[1][-1].startswith("There is a stop"))

    def test_faults_are_no_agreement(self):
        self.assertEqual(self.run_it("3", "100", FAULT="1")[0], 2)
        self.script("target/bin/trials", "#!/bin/sh\nexit 0\n")
        self.assertEqual(self.run_it("3", "100")[0], 2)

    def test_emulator_that_is_missing_is_told_where_the_processor_needs_one(self):
        (self.root / self.emulator).unlink()
        status, said = self.run_it("3", "100")
        told = f"trials: the toolchain has no emulator for this machine at {(self.root / self.emulator).parent}"
        native = platform.machine() == "x86_64"
        self.assertEqual((status, said), (0, ["3 100 3100", "100 events, no difference"]) if native else (2, [told]))

    def test_words_that_are_not_understood(self):
        for words in ((), ("3",), ("5-3", "100"), ("4294967296", "1"), ("3", "-1"), ("x", "1"), ("3", "1", "x"),
                      ("3", "1", "0", "0", "0"), ("images",), ("images", "3"), ("3", "1", "images"), ("image", "3", "1"),
                      ("pairs",), ("pairs", "3"), ("pairs", "images", "3", "1")):
            self.assertEqual(self.run_it(*words)[0], 2)
