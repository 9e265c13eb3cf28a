"""Runs the cases of a folder through the C caller and through Python, and compares status and bytes.

    python3 cases.py COMMAND FOLDER

A case is a folder with its files, WORDS (a word a line), STATUS and OUT.
"""
import os
import subprocess
import sys

sys.path.insert(0, os.path.join(os.path.dirname(os.path.abspath(__file__)), ".."))
import irs


def read(path, mode="rb"):
    with open(path, mode) as file:
        return file.read()


def main(command, folder):
    wrong = 0
    names = sorted(name for name in os.listdir(folder) if os.path.isdir(os.path.join(folder, name)))
    for name in names:
        case = os.path.join(folder, name)
        words = read(os.path.join(case, "WORDS"), "r").splitlines()
        want = (int(read(os.path.join(case, "STATUS"), "r")), read(os.path.join(case, "OUT")))
        files = {word: read(os.path.join(case, word)) for word in words[1:] if os.path.isfile(os.path.join(case, word))}
        by_c = subprocess.run([os.path.abspath(command)] + words, cwd=case, stdout=subprocess.PIPE)
        for how, got in (("C", (by_c.returncode, by_c.stdout)), ("Python", tuple(irs.run(words, files))[:2])):
            if got != want:
                wrong += 1
                print(f"{name} through {how}: status {got[0]}, wanted {want[0]}: {' '.join(words)}")
    print(f"{folder}: {len(names)} cases through C and Python, {wrong} wrong")
    return 1 if wrong else 0


if __name__ == "__main__":
    sys.exit(main(*sys.argv[1:]))
