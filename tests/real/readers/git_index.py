"""Git index: those of repositories that git makes and lists."""

import os
import re
import shutil

from common import COUNT, Format, run


def make_git_index():
    """Of repositories with folders, links, programs, other repositories, files to be added and conflicts."""
    names = "-c", "user.name=a", "-c", "user.email=a@example"
    tables = "-c", "index.recordOffsetTable=true", "-c", "index.recordEndOfIndexEntries=true", "-c", "index.threads=2"
    for number in range(COUNT):
        git = ["git", "-C", "from", *names, *(tables if number % 4 == 3 else [])]
        run("git", "init", "-q", "from")
        for it in range(1 + number * number):
            folder = f"from/{('', 'src/', 'src/below/', 'a folder/')[it % 4]}"
            os.makedirs(folder, exist_ok=True)
            with open(f"{folder}{'long' * (it % 9 * number % 60)}{it}.txt", "w") as file:
                file.write(f"{it}\n" * it)
        os.symlink("0.txt", "from/link")
        os.chmod("from/0.txt", 0o755)
        run(*git, "add", ".")
        if number % 2:
            run(*git, "commit", "-q", "-m", "all")
        others = f"160000 {'5' * 40} 0\tother\n" if number % 3 else ""
        others += "".join(f"100644 {str(it) * 40} {it}\tboth.txt\n" for it in (1, 2, 3)) if number % 5 == 2 else ""
        run(*git, "update-index", "--index-info", input=others)
        if number % 5 == 4:
            with open("from/new.txt", "w") as file:
                file.write("new\n")
            run(*git, "add", "-N", "new.txt")
            run(*git, "update-index", "--assume-unchanged", "0.txt")
        run(*git, "update-index", "--index-version", (2, 4, 3)[number % 3])
        if number % 4 == 1:
            run(*git, "update-index", "--untracked-cache", "--force-write-index")
        shutil.move("from/.git/index", f"{number:02}.index")
        shutil.rmtree("from")


def git_index(value, _):
    facts, name = {}, ""
    for it in value["entries"]:
        dropped = it.get("dropped", len(name))
        if "dropped_low" in it:
            dropped = (dropped - 0x80 + 1) * 0x80 + it["dropped_low"]
        name = name[: len(name) - dropped] + it["name"]
        mode, flags = it["mode"], it["flags"]
        times = [(it[of]["seconds"], it[of]["nanoseconds"]) for of in ("changed", "modified")]
        numbers = [it["device"], it["inode"], it["user"], it["group"], it["size"]["magnitude"]]
        added = bool(it.get("more", {}).get("to_be_added"))
        kind = [f"{mode['kind']:o}{mode['permissions']:04o}", bytes(it["content"]).hex(), added]
        facts[f"{name} {flags['stage']}"] = [*kind, bool(flags["assumed"]), *times, *numbers]
    return facts


def git_index_by_tool(file):
    run("git", "init", "-q", "--bare", "told.git")
    of = os.environ | {"GIT_INDEX_FILE": os.path.realpath(file)}
    printed = run("git", "--git-dir=told.git", "ls-files", "--stage", "--debug", "-z", env=of)
    shutil.rmtree("told.git")
    pattern = r"(\d+) (\w+) (\d)\t(.*?)\0  ctime: (\d+):(\d+)\n  mtime: (\d+):(\d+)\n"
    pattern += r"  dev: (\d+)\tino: (\d+)\n  uid: (\d+)\tgid: (\d+)\n  size: (\d+)\tflags: (\w+)\n"
    facts = {}
    for mode, content, stage, name, *rest, flags in re.findall(pattern, printed):
        changed, modified, *numbers = (int(it) for it in rest[:2]), (int(it) for it in rest[2:4]), *map(int, rest[4:])
        bits = int(flags, 16)
        kind = [mode, content, bool(bits & 0x20000000), bool(bits & 0x8000)]
        facts[f"{name} {stage}"] = [*kind, tuple(changed), tuple(modified), *numbers]
    return facts


FORMATS = {
    "git_index": Format("git_index", "Index", make_git_index, git_index, git_index_by_tool),
}
