#!/usr/bin/env python3
"""The test command and tools/release, over a copy of the repository's top with made-up scripts in place of those of this folder, and
stand-ins for the toolchain and tools/edits: that scripts run side by side, what counts as failed, what a quick run leaves out, what is no
program; which verdict the gate leaves, and what is released."""
import hashlib
import os
import re
import shutil
import stat
import subprocess
import tarfile
import tempfile
import time

import counting

ROOT = os.path.dirname(os.path.dirname(os.path.abspath(__file__)))
SCRATCH = tempfile.TemporaryDirectory()
PROGRAM = '#!/usr/bin/env bash\n[[ $1 == --version ]] && echo warehouse 1.2 || echo said\n'
RT = """#!/usr/bin/env bash
[[ $1 == version ]] && echo kit-0 && exit
mkdir -p crates/warehouse/out
cp program crates/warehouse/out/warehouse
echo "2 passed, 0 failed"
"""
GOOD = '[[ $("$WAREHOUSE" word) == said ]] && echo "3 passed, 0 failed" && exit 0; echo "0 passed, 1 failed"; exit 1'


def write(path, text):
    os.makedirs(os.path.dirname(path), exist_ok=True)
    with open(path, "w", encoding="utf-8") as it:
        it.write(text)
    os.chmod(path, stat.S_IRWXU)
    return path


def tree(name, changes=()):
    """A copy of the test command with a script, which asks the program for a word, under each name that it has; these changed."""
    top = f"{SCRATCH.name}/{name}"
    names = sorted(set(re.findall(r"tests/\w+\.\w+", text_of(f"{ROOT}/test"))))
    for name in names:
        write(f"{top}/{name}", f"#!/usr/bin/env bash\n{GOOD}\n")
    for name, text in dict(changes).items():
        write(f"{top}/tests/{name}", f"#!/usr/bin/env bash\n{text}\n")
    os.makedirs(f"{top}/tools")
    for name in ("test", *(f"tools/{it}" for it in ("content.sh", "release", "lanes.py", "gate_cpu.py", "edit_rounds.py"))):
        shutil.copy(f"{ROOT}/{name}", f"{top}/{name}")
    return top, write(f"{top}/build", PROGRAM), len(names)


def gate(name, changes=()):
    """A tree that is a repository, in which the whole gate can run: the folder, and a command in it."""
    top, _, _ = tree(name, changes)
    for path, text in {"crates.txt": "warehouse:\n", "crates/warehouse/src/main.rt": "", ".gitignore": "out/\n__pycache__/\n", "program": PROGRAM,
                       "python/warehouse/__init__.py": "", "python/apart.py": "", "bin/rt": RT, "tools/edits": "#!/bin/sh\necho 1 passed, 0 failed\n"}.items():
        write(f"{top}/{path}", text)
    env = {**os.environ, "PATH": f"{top}/bin:{os.environ['PATH']}", "GIT_CONFIG_GLOBAL": "/dev/null", "HOME": top}

    def run(*words):
        ran = subprocess.run(words, cwd=top, stdin=subprocess.DEVNULL, capture_output=True, text=True, check=False, env=env)
        return ran.returncode, ran.stdout + ran.stderr

    run("git", "init", "-q")
    assert commit(run)[0] == 0
    return top, run


def commit(run):
    run("git", "add", "-A")
    return run("git", "-c", "user.name=a", "-c", "user.email=a@b", "commit", "-qm", "a")


def text_of(path):
    with open(path, encoding="utf-8") as it:
        return it.read()


def quick(top, *words):
    """The status of a quick run, what it said, and its seconds."""
    begun = time.time()
    ran = subprocess.run([f"{top}/test", "--quick", *words], stdin=subprocess.DEVNULL, capture_output=True, text=True, check=False)
    return ran.returncode, ran.stdout, time.time() - begun


def commands(said):
    """The scripts that ran, or that wanted a compiler which is not here."""
    return sorted(re.findall(r"(?m)^== (\w+\.\w+)$", said)) + sorted(set(re.findall(r"test: (\S+) NOT RUN", said)))


def test_each_script_is_run_and_told():
    top, build, names = tree("good", {"tools_more.py": GOOD, "tools_apart.py": "exit 1"})
    status, said, _ = quick(top, build)
    found = commands(said)
    assert "tools_more.py" in found and "tools_apart.py" not in found and len(set(found)) == names + 1, said
    ran = re.findall(r"(?m)^-- (\S+): \d+ s$", said)
    assert {*ran} | {*re.findall(r"test: (\S+) NOT RUN", said)} == {*found}, said
    assert (status, said.splitlines()[-1]) == (0, f"{3 * len(ran)} passed, 0 failed"), said


def test_they_run_side_by_side():
    if len(os.sched_getaffinity(0)) == 1:
        return
    # each waits until another runs too
    with tempfile.TemporaryDirectory() as room:
        meets = f'touch {room}/$$; for _ in {{1..600}}; do set -- {room}/*; (($# > 1)) && break; sleep 0.1; done; (($# > 1)) || exit 1; {GOOD}'
        top, build, _ = tree("slow", {name: meets for name in ("run.sh", "vehicles.py", "launcher.sh", "clients.sh")})
        status, said, _ = quick(top, build)
    assert status == 0, said


def test_what_counts_as_failed():
    for at, script in enumerate(("exit 0", 'echo "0 passed, 0 failed"', 'echo "3 passed, 0 failed"; exit 1', 'echo "2 passed, 1 failed"; exit 1')):
        top, build, _ = tree(f"bad{at}", {"vehicles.py": script})
        status, said, _ = quick(top, build)
        assert status == 1 and said.splitlines()[-1].endswith(" passed, 1 failed"), said


def test_a_script_that_is_skipped_whole_is_told():
    top, build, _ = tree("skipped", {"vehicles.py": 'echo "0 passed, 0 failed, 3 skipped"', "run.sh": 'echo "2 passed, 0 failed, 1 skipped"'})
    status, said, _ = quick(top, build)
    assert status == 0 and "test: 4 skipped" in said.splitlines() and said.splitlines()[-1].endswith(" passed, 0 failed"), said
    top, build, _ = tree("unskipped", {"vehicles.py": 'echo "0 passed, 0 failed, 3 skipped"; exit 1'})
    status, said, _ = quick(top, build)
    assert status == 1 and said.splitlines()[-1].endswith(" passed, 1 failed"), said


def test_a_script_past_its_bound_is_ended():
    top, build, _ = tree("long", {"run.sh": "sleep 100"})
    write(f"{top}/test", text_of(f"{top}/test").replace("most=400 ", "most=3 "))
    status, said, seconds = quick(top, build)
    assert status == 1 and "test: run.sh was ended after 3 s" in said and seconds < 60, said


def test_what_is_no_program_fails():
    top, _, names = tree("none")
    status, said, _ = quick(top, "/bin/true")
    assert status == 1 and re.search(r"(?m)^0 passed, \d+ failed$", said) and len(set(commands(said))) == names, said
    for none in (f"{top}/nothing", top):
        status, said, _ = quick(top, none)
        assert (status, said.splitlines()[-1]) == (1, "0 passed, 1 failed"), said


def test_words_that_are_not_taken():
    top, build, _ = tree("words")
    for words in (["--quick", build, build], ["--slow"], [""]):
        ran = subprocess.run([f"{top}/test", *words], stdin=subprocess.DEVNULL, capture_output=True, text=True, check=False)
        assert ran.returncode == 2 and "--quick [BUILD]" in ran.stderr, ran


def test_the_gate_leaves_its_verdict():
    top, run = gate("gate", {"tools_apart.py": "echo '1 passed, 0 failed'"})
    status, said = run("./test")
    last = re.findall(r"(?m)^\d+ passed, \d+ failed$", said)[-1]
    assert status == 0 and re.fullmatch(r"\d+ passed, 0 failed", last) and "== tools_apart.py" in said, said
    made = hashlib.sha256(PROGRAM.encode()).hexdigest()
    head = run("git", "rev-parse", "HEAD")[1].strip()
    assert text_of(f"{top}/out/verdict") == f"gate: {last}\ntoolchain: kit-0\ncommit: {head}\nprogram: {made}\n", text_of(f"{top}/out/verdict")
    assert text_of(f"{top}/crates/warehouse/out/.built").startswith("kit-0\n")
    write(f"{top}/more", "")    # a tree with changes has none
    assert run("./test")[0] == 0 and not os.path.exists(f"{top}/out/verdict")
    os.remove(f"{top}/more")
    write(f"{top}/tests/vehicles.py", "#!/bin/sh\necho 1 passed, 1 failed; exit 1\n")
    commit(run)
    assert run("./test")[0] == 1 and not os.path.exists(f"{top}/out/verdict")


def test_a_release():
    top, run = gate("release")
    refused = lambda words: (lambda status, said: status == 1 and words in said)(*run("tools/release"))
    assert refused("there is no out/verdict")
    assert run("./test")[0] == 0
    status, said = run("tools/release")
    assert status == 0 and "made, and not published" in said and "No licence is named yet" in said, said
    name = f"warehouse-1.2-{run('git', 'rev-parse', 'HEAD')[1][:12]}"
    made = f"{top}/out/release/{name}.tar.gz"
    with tarfile.open(made) as it:
        files = {os.path.relpath(member.name, name): it.extractfile(member).read().decode() for member in it if member.isfile()}
    assert {*files} == {"warehouse", "VERDICT", "SHA256SUMS", "python/warehouse/__init__.py"}, files
    assert files["warehouse"] == PROGRAM and files["VERDICT"] == text_of(f"{top}/out/verdict") + "licence: none is named yet\n"
    sums = dict(reversed(line.split("  ./")) for line in files.pop("SHA256SUMS").splitlines())
    assert sums == {path: hashlib.sha256(text.encode()).hexdigest() for path, text in files.items()}
    with open(made, "rb") as it:
        before = it.read()
    assert text_of(f"{made}.sha256") == f"{hashlib.sha256(before).hexdigest()}  {name}.tar.gz\n"
    assert run("tools/release", f"{top}/out/again")[0] == 0
    with open(f"{top}/out/again/{name}.tar.gz", "rb") as it:
        assert it.read() == before

    write(f"{top}/crates/warehouse/out/warehouse", PROGRAM + "# another\n")
    assert refused("is not the program that the gate built")
    write(f"{top}/crates/warehouse/out/warehouse", PROGRAM)
    verdict = text_of(f"{top}/out/verdict")
    for old, new, why in (("gate: ", "gate: 1 passed, 1 failed ", "no gate without fault"), ("commit: ", "commit: 0", "the gate's word is of commit 0")):
        write(f"{top}/out/verdict", verdict.replace(old, new))
        assert refused(why), why
    write(f"{top}/out/verdict", verdict)
    write(f"{top}/deploy/build_deb", '#!/bin/sh\ncat "$1" "$3" > "$2/it.deb"\necho "$SOURCE_DATE_EPOCH" >> "$2/it.deb"\necho "$2/it.deb"\n')
    assert refused("the tree has changes")
    commit(run)
    assert refused("the gate's word is of commit")
    assert run("./test")[0] == 0
    status, said = run("tools/release")
    assert status == 0, said
    name = f"warehouse-1.2-{run('git', 'rev-parse', 'HEAD')[1][:12]}"
    with tarfile.open(f"{top}/out/release/{name}.tar.gz") as it:
        assert f"{name}/deploy/build_deb" in it.getnames()
        verdict = it.extractfile(f"{name}/VERDICT").read().decode()
    if shutil.which("dpkg-deb"):
        package = text_of(f"{top}/out/release/it.deb")
        assert package == f"{PROGRAM}{verdict}{run('git', 'log', '-1', '--format=%ct')[1]}" and f"{top}/out/release/it.deb" in said, said
        assert text_of(f"{top}/out/release/it.deb.sha256") == f"{hashlib.sha256(package.encode()).hexdigest()}  it.deb\n"


if __name__ == "__main__":
    counting.main(globals(), (), SCRATCH)
