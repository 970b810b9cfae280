"""Prints each Python file of the repository, by its ending or its first line: for pyflakes."""
import os
import subprocess

TOP = os.path.dirname(os.path.dirname(os.path.dirname(os.path.dirname(os.path.abspath(__file__)))))


def main():
    listed = subprocess.run(["git", "-C", TOP, "ls-files", "-z"], stdout=subprocess.PIPE, check=True).stdout
    for name in sorted(os.fsdecode(listed).split("\0")[:-1]):
        path = os.path.join(TOP, name)
        if os.path.isfile(path) and not os.path.islink(path):
            with open(path, "rb") as file:
                head = file.readline(100)
            if name.endswith(".py") or head.startswith(b"#!") and b"python3" in head:
                print(path)


if __name__ == "__main__":
    main()
