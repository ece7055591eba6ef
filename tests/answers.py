"""What the built compiler, and Free Pascal where it is at hand, answer for the texts of the scripts beside this file."""
import os
import re
import shutil
import subprocess
import tempfile

TOP = os.path.dirname(os.path.dirname(os.path.abspath(__file__)))
COMPILER = os.environ.get("OPC") or os.path.join(TOP, "crates", "opc", "out", "opc")
FREE_PASCAL = shutil.which(os.environ.get("OPC_FPC32", "fpc32"))
# Thousands of small files are written much faster in memory.
if os.access("/dev/shm", os.W_OK):
    tempfile.tempdir = "/dev/shm"
LINE = re.compile(r"opc: [^\n]*:(\d+:\d+): (V\d+) (.*)\n")


def texts():
    """The texts of the rules by their numbers, and the numbers of the features by their texts."""
    with open(os.path.join(TOP, "crates", "op_base", "specs", "Rule.antt"), encoding="utf-8") as file:
        rows = re.findall(r'\((\d+), codes "([^"]*)"\)', file.read())
    is_feature = re.compile("not in this profile: ").match
    return {int(number): text for number, text in rows if not is_feature(text)}, {text: number for number, text in rows if is_feature(text)}


RULES, NUMBERS = texts()


def free_pascal():
    """Free Pascal for 32 bits, by the name in OPC_FPC32, as `fpc32`, or among the tools beside the repository; None where none of these compiles."""
    beside = os.path.join(os.path.dirname(TOP), "shared", "tools", "fpc32")
    found = FREE_PASCAL or shutil.which(beside)
    with tempfile.TemporaryDirectory() as folder:
        written(folder, "p.pas", "begin end.")
        return found if found and subprocess.run([found, "p.pas", "program"], cwd=folder, capture_output=True).returncode == 0 else None


def expanded(text):
    """«a × 3» is aaa, «a#, × 3» is a0,a1,a2, and «13» the character of that number."""
    text = re.sub(r"«(\d+)»", lambda m: chr(int(m[1])), text)
    return re.sub(r"«([^»]+?) × (\d+)»", lambda m: "".join(m[1].replace("#", str(k)) for k in range(int(m[2]))), text)


def written(folder, name, text):
    with open(os.path.join(folder, name), "w", encoding="latin-1") as file:
        file.write(text)


def refusal(line):
    """The place, the rule and the feature of a line on the error stream, or None."""
    told = LINE.fullmatch(line)
    if not told or told[2] == "V13" and told[3] not in NUMBERS:
        return None
    return f"{told[1]}: {told[2]}" + (f" {NUMBERS[told[3]]}" if told[2] == "V13" else "")


def checked(folder, name):
    """`ok`, or where which rule is broken; what else `opc check` tells of a file begins with its status."""
    run = subprocess.run([COMPILER, "check", name], cwd=folder, capture_output=True)
    out, err = run.stdout.decode("latin-1"), run.stderr.decode("latin-1")
    if (run.returncode, out, err) == (0, "ok\n", ""):
        return "ok"
    told = refusal(err) if run.returncode == 121 and not out else None
    return told or f"status {run.returncode}: {(out + err)[:200]}"


def taken(folder, name):
    """Free Pascal takes the program."""
    return subprocess.run([FREE_PASCAL, name, "program"], cwd=folder, capture_output=True).returncode == 0


if __name__ == "__main__":
    free_pascal()
