#!/usr/bin/env python3
"""Tests of deploy/: the Debian package is made and has all that it should, its completion, manuals and Python command work, the unit is one that
systemd takes, and its scripts serve three clients over pipes, end with them, and stop beside them.

    tests/tools_deploy.py
    tests/tools_deploy.py --booted    by hand, as root: a Debian 12 of its own is booted (mmdebstrap, systemd-nspawn), and the package's service serves,
                                      is killed, refused and stopped under its systemd

The program is that of WAREHOUSE, else the one that the gate built. The container file is not tried. The last line is `N passed, M failed`, and `, K skipped` where a test needs what is not here; status 1 where one failed.
"""
import functools
import getpass
import os
import shutil
import subprocess
import sys
import tempfile
import threading
import time

import counting
from fleet_cast import broker_program, free_port, python_with_paho

ROOT = os.path.dirname(os.path.dirname(os.path.abspath(__file__)))
DEPLOY = f'{ROOT}/deploy'
PROGRAM = os.path.abspath(os.environ.get('WAREHOUSE') or f'{ROOT}/crates/warehouse/out/warehouse')
SCRATCH = tempfile.TemporaryDirectory()
SECONDS = 120    # for one command
MAP = 'type octile\nheight 3\nwidth 6\nmap\n......\n......\n......\n'
POINTS = 'station a 1 0\nstation b 4 0\nparking P 0 2\nparking Q 5 2\nagent P\nagent Q\n'


def run(*words, **given):
    return subprocess.run(words, stdin=subprocess.DEVNULL, capture_output=True, text=True, check=False, timeout=SECONDS, **given)


def needs(name, package):
    found = shutil.which(name)
    if found is None:
        raise counting.Skipped(f'no {name} (apt-get install {package})')
    return found


def build(name):
    """A package of the program: its path."""
    needs('dpkg-deb', 'dpkg')
    done = run(f'{DEPLOY}/build_deb', PROGRAM, f'{SCRATCH.name}/{name}', __file__, env={**os.environ, 'SOURCE_DATE_EPOCH': '1700000000'})
    assert (done.returncode, done.stderr) == (0, ''), done
    return done.stdout.strip()


@functools.lru_cache(None)
def package():
    """The package, and what it holds in a folder."""
    made, top = build('one'), f'{SCRATCH.name}/installed'
    subprocess.run(['dpkg-deb', '-x', made, top], check=True)
    return made, top


def read(path, mode='r'):
    with open(path, mode) as it:
        return it.read()


def test_same_bytes():
    assert read(package()[0], 'rb') == read(build('two'), 'rb')


def test_what_it_holds():
    _, top = package()
    assert read(f'{top}/usr/bin/warehouse', 'rb') == read(PROGRAM, 'rb')
    assert read(f'{top}/usr/share/doc/warehouse/VERDICT') == read(__file__)
    assert 'licence' in read(f'{top}/usr/share/doc/warehouse/copyright')
    for path in ('lib/systemd/system/warehouse@.service', 'usr/share/doc/warehouse/examples/tmpfiles.conf',
                 'usr/share/doc/warehouse/examples/options', 'usr/share/doc/warehouse/examples/mosquitto-acl'):
        assert read(f'{top}/{path}') == read(f'{DEPLOY}/{os.path.basename(path)}'), path
    package_of = f'{top}/usr/lib/python3/dist-packages/warehouse'
    for folder, folders, names in os.walk(f'{ROOT}/python/warehouse'):
        folders[:] = [it for it in folders if it != '__pycache__']
        for name in names:
            path = os.path.relpath(f'{folder}/{name}', f'{ROOT}/python/warehouse')
            assert read(f'{package_of}/{path}', 'rb') == read(f'{folder}/{name}', 'rb'), path


def test_lintian():
    needs('lintian', 'lintian')
    done = run('lintian', '--allow-root', '--fail-on', 'error', '--display-level', '>=warning', package()[0])
    assert (done.returncode, done.stdout) == (0, ''), done


def test_manuals():
    needs('man', 'man-db')
    _, top = package()
    for name, wanted in (('warehouse', '--replies'), ('warehouse-py', 'dashboard')):
        done = run('man', '--warnings', '-l', f'{top}/usr/share/man/man1/{name}.1.gz', env={**os.environ, 'MANPAGER': 'cat', 'MANWIDTH': '80', 'LC_ALL': 'C'})
        assert (done.returncode, done.stderr) == (0, ''), done
        assert wanted in done.stdout, done.stdout


def completed(*words):
    """What the completion offers behind these words, the last of them begun."""
    _, top = package()
    script = 'source "$1"; shift; COMP_WORDS=("$@"); COMP_CWORD=$(($# - 1)); "_${1/-/_}"; printf "%s\\n" "${COMPREPLY[@]}"'
    done = run('bash', '-c', script, 'bash', f'{top}/usr/share/bash-completion/completions/{words[0]}', *words, cwd=SCRATCH.name)
    assert (done.returncode, done.stderr) == (0, ''), done
    return done.stdout.split()


def test_completion():
    assert completed('warehouse', '') == ['check', 'replay', 'verify', 'live', 'serve', 'state', 'help', '--help', '--version']
    assert completed('warehouse', 'replay', '--repl') == ['--replies']
    assert sorted(completed('warehouse', 'replay', '--replies', '')) == ['full', 'placed', 'short']
    assert completed('warehouse', 'serve', '--cli') == ['--client']
    assert completed('warehouse', 'live', '--cli') == []
    with open(f'{SCRATCH.name}/run.log', 'w'):
        assert completed('warehouse', 'serve', '--log', 'run') == ['run.log']
        assert completed('warehouse-py', 'stats', 'run') == ['run.log']
    assert completed('warehouse-py', 'de') == ['demo']
    assert completed('warehouse-py', 'demo', '--ag') == ['--agents']
    assert completed('warehouse-py', 'vda5050', '--out') == ['--out-after']


def test_python_command():
    if run('/usr/bin/python3', '-c', 'import sys; sys.exit(sys.version_info < (3, 10))').returncode:
        raise counting.Skipped('no /usr/bin/python3 of 3.10 or later')
    _, top = package()
    env = {'PYTHONPATH': f'{top}/usr/lib/python3/dist-packages', 'PYTHONDONTWRITEBYTECODE': '1', 'PATH': '/usr/bin:/bin'}
    done = run(f'{top}/usr/bin/warehouse-py', 'make-instance', '--columns', '20', '--rows', '12', '--agents', '2', '--tasks', '3', env=env)
    assert done.returncode == 0 and done.stdout.startswith('type octile\n'), done
    assert run(f'{top}/usr/bin/warehouse-py', 'no-such', env=env).returncode == 2
    for words, usage in ((['--help'], 'usage: warehouse-py SUBCOMMAND ..\n'), (['stats', '--help'], 'usage: warehouse-py stats ')):
        assert run(f'{top}/usr/bin/warehouse-py', *words, env=env).stdout.startswith(usage), words


def test_unit():
    needs('systemd-analyze', 'systemd')
    _, top = package()
    units = f'{SCRATCH.name}/units'
    os.makedirs(units)
    text = read(f'{top}/lib/systemd/system/warehouse@.service')
    with open(f'{units}/warehouse@.service', 'w') as unit:
        unit.write(text.replace('/usr/lib/warehouse/', f'{top}/usr/lib/warehouse/').replace('Documentation=', '#'))
    done = run('systemd-analyze', 'verify', '--recursive-errors=no', f'{units}/warehouse@.service')
    assert (done.returncode, done.stderr) == (0, ''), done
    done = run('systemd-analyze', 'security', '--offline=true', '--threshold=10', f'{units}/warehouse@.service')
    assert done.returncode == 0, done


# -------------------------------------------------------------------------------------------- the broker

# Who hears a message: each line is user, topic, and those whom it reaches. The text is the line's number; what comes is printed.
SAYS = '''
import sys, time
from warehouse.vda5050.broker import Address, Mqtt
users = ('v0', 'v1', 'adapter', 'desk')
links = {user: Mqtt(user, Address('127.0.0.1', int(sys.argv[1]), user, 'p-' + user), user) for user in users}
for link in links.values():
    link.subscribe([('#', 1)])
    link.start()
for user, link in links.items():
    assert link.take(20), user
time.sleep(0.5)
lines = [line.split() for line in sys.stdin]
for number, (user, topic) in enumerate(lines):
    links[user].publish(topic, str(number), 1)
links['adapter'].publish('warehouse/last', 'last', 1)
came, until = {user: [] for user in users}, time.monotonic() + 20
def take(user, wait):
    came[user] += [message.payload.decode() for message in links[user].take(wait)]
for user in ('adapter', 'desk'):
    while 'last' not in came[user]:
        assert time.monotonic() < until, (user, came)
        take(user, 0.3)
time.sleep(0.5)
for user in users:
    take(user, 0.1)
for number, (user, topic) in enumerate(lines):
    print(user, topic, *sorted(user for user in users if str(number) in came[user]))
for link in links.values():
    link.end()
'''
VEHICLE = 'uagv/v2/torchdaisy/v0/'
HEARD = [*((f'v0 {VEHICLE}{topic}', 'adapter') for topic in ('state', 'connection', 'visualization', 'factsheet')),    # what a vehicle says of itself
         *((f'v0 {VEHICLE}{topic}', '') for topic in ('order', 'instantActions')), ('v1 uagv/v2/torchdaisy/v0/state', ''), ('v0 warehouse/order', ''),
         ('v0 warehouse/command', ''), *((f'adapter {VEHICLE}{topic}', 'adapter v0') for topic in ('order', 'instantActions')),
         *((f'desk {VEHICLE}{topic}', '') for topic in ('order', 'state')), ('desk warehouse/order', 'adapter desk'), ('desk warehouse/command', ''),
         ('adapter warehouse/order/o1', 'adapter desk'), ('adapter warehouse/status', 'adapter desk')]


def test_access_list_of_the_broker() -> None:
    """Each user may say and hear what the list says, and nothing else; one without a name may nothing."""
    if not (broker_program() and python_with_paho() and shutil.which('mosquitto_passwd')):
        raise counting.Skipped('no mosquitto, or no paho-mqtt (apt-get install mosquitto python3-paho-mqtt)')
    folder, port = os.path.join(SCRATCH.name, 'broker'), free_port()
    os.mkdir(folder)
    for user in ('v0', 'v1', 'adapter', 'desk'):
        done = run('mosquitto_passwd', *(['-c'] if user == 'v0' else []), '-b', f'{folder}/passwords', user, f'p-{user}')
        assert done.returncode == 0, done
    shutil.copy(f'{DEPLOY}/mosquitto-acl', f'{folder}/acl')
    os.chmod(f'{folder}/acl', 0o600)
    with open(f'{folder}/conf', 'w') as file:
        file.write(f'user {getpass.getuser()}\nlistener {port} 127.0.0.1\nallow_anonymous false\npassword_file {folder}/passwords\nacl_file {folder}/acl\nlog_type error\n')
    broker = subprocess.Popen([broker_program(), '-c', f'{folder}/conf'], stdin=subprocess.DEVNULL, stdout=subprocess.PIPE, stderr=subprocess.STDOUT)
    try:
        said = subprocess.run([python_with_paho(), '-c', SAYS, str(port)], input=''.join(f'{line}\n' for line, _ in HEARD), capture_output=True, text=True,
                              timeout=SECONDS, env={**os.environ, 'PYTHONPATH': f'{ROOT}/python', 'PYTHONDONTWRITEBYTECODE': '1'})
    finally:
        broker.kill()
    assert said.returncode == 0, (said, broker.stdout.read())
    assert said.stdout.splitlines() == [f'{line} {heard}'.strip() for line, heard in HEARD], said.stdout


# ------------------------------------------------------------------------------------------- the service

class Client:
    """One of the service's clients, over the pipes of its folder. Nothing here waits for longer than a bound."""

    def __init__(self, folder):
        self.until = time.monotonic() + SECONDS
        self.replies = os.open(f'{folder}/out', os.O_RDONLY | os.O_NONBLOCK)
        self.begun = b''
        self.greeting, _, tag = self.line().rpartition(' ')
        self.commands = os.open(f'{folder}/in', os.O_WRONLY | os.O_NONBLOCK)
        os.write(self.commands, f'begin {tag}\n'.encode())

    def line(self):
        while b'\n' not in self.begun:
            assert time.monotonic() < self.until, f'no reply: {self.begun!r}'
            try:
                came = os.read(self.replies, 65536)
            except BlockingIOError:
                came = b''
            self.begun += came
            if not came:
                time.sleep(0.01)
        line, _, self.begun = self.begun.partition(b'\n')
        return line.decode()

    def ask(self, line):
        os.write(self.commands, f'{line}\n'.encode())
        return self.line()


def floor(name):
    """The folders of a floor, as systemd would make them, with what deploy/options and deploy/tmpfiles.conf name: the environment of a start."""
    folders = {part: f'{SCRATCH.name}/{name}/{part.lower()}' for part in ('CONFIGURATION_DIRECTORY', 'STATE_DIRECTORY', 'RUNTIME_DIRECTORY')}
    for folder in folders.values():
        os.makedirs(folder, 0o700)
    for path, text in (('map', MAP), ('points', POINTS), ('options', read(f'{DEPLOY}/options'))):
        with open(f'{folders["CONFIGURATION_DIRECTORY"]}/{path}', 'w') as it:
            it.write(text)
    for line in read(f'{DEPLOY}/tmpfiles.conf').splitlines():
        kind, path, mode = (line.split() + ['', '', ''])[:3]
        if path.startswith('/run/warehouse/main/'):
            place = folders['RUNTIME_DIRECTORY'] + path.removeprefix('/run/warehouse/main')
            os.mkdir(place, int(mode, 8)) if kind == 'd' else os.mkfifo(place, int(mode, 8))
    return folders


def start(folders):
    return subprocess.Popen([f'{DEPLOY}/warehouse-serve'], env={**os.environ, **folders, 'WAREHOUSE': PROGRAM}, stdin=subprocess.DEVNULL,
                            stdout=subprocess.PIPE, stderr=subprocess.PIPE, text=True)


def test_service():
    folders = floor('one')
    pipes = folders['RUNTIME_DIRECTORY']
    service = start(folders)
    try:
        fleet, desk, end = (Client(f'{pipes}/{it}') for it in ('floor', 'desk', 'end'))
        assert [it.greeting for it in (fleet, desk, end)] == ['entries 0'] * 3
        assert desk.ask('submit order1 a b') == 'accepted 0'
        assert desk.ask('tick') == 'refused C3'
        assert fleet.ask('token 0').startswith('took 0 path 0,2 ')
        assert fleet.ask('close') == 'refused C3'
        service.kill()
        service.wait(SECONDS)
        # the same start goes on behind what was acknowledged
        service = start(folders)
        fleet, desk, end = (Client(f'{pipes}/{it}') for it in ('floor', 'desk', 'end'))
        assert [it.greeting for it in (fleet, desk, end)] == ['entries 1', 'entries 1', 'entries 0']
        for _ in range(20):
            assert fleet.ask('tick').startswith('clock ')
        assert end.ask('close') == 'closed'
        out, said = service.communicate(timeout=SECONDS)
        assert service.returncode == 0, said
        log = read(f'{folders["STATE_DIRECTORY"]}/run.log')
        assert log.splitlines()[-1] == 'end 23', log
        assert read(f'{folders["STATE_DIRECTORY"]}/board').startswith('wboard 1\n')
    finally:
        service.kill()


def stop(folders, service):
    """What systemd runs to stop a service."""
    pid = {'MAINPID': str(service.pid)} if service else {}
    return run(f'{DEPLOY}/warehouse-stop', env={**os.environ, **folders, **pid, 'WAREHOUSE_PY': f'{ROOT}/tools/py'})


def ends(service):
    """The status of a service that ends by itself, as its parent waits for it, which systemd does too."""
    ended = []
    waits = threading.Thread(target=lambda: ended.append(service.wait(SECONDS)))
    waits.start()
    return waits, ended


def test_service_stops():
    folders = floor('three')
    log, lines = f'{folders["STATE_DIRECTORY"]}/run.log', []
    service = start(folders)
    try:
        for life in range(3):
            fleet, desk = (Client(f'{folders["RUNTIME_DIRECTORY"]}/{it}') for it in ('floor', 'desk'))
            assert (fleet.greeting, desk.greeting) == (f'entries {2 * life}', f'entries {life}')
            assert desk.ask('submit order a b') == f'accepted {life}'
            assert desk.ask('stop') == 'refused C3'
            assert [fleet.ask('tick'), fleet.ask('tick')] == [f'clock {2 * life + it} picked 0 dropped 0' for it in (1, 2)]
            waits, ended = ends(service)
            done = stop(folders, service)
            assert (done.returncode, done.stderr) == (0, ''), done
            waits.join()
            assert ended == [0] and service.communicate() == ('', '')
            now = read(log).splitlines()
            assert now[:len(lines)] == lines and len(now) == 2 + 3 * (life + 1), now    # it grows, and has no last line
            lines = now
            service = start(folders)
        # one that has ended is stopped by nothing
        assert Client(f'{folders["RUNTIME_DIRECTORY"]}/end').ask('close') == 'closed'
        assert service.wait(SECONDS) == 0
        assert stop(folders, None).returncode == 0
        assert read(log).splitlines()[-1] == 'end 10'
    finally:
        service.kill()


def test_service_refused():
    folders = floor('two')
    with open(f'{folders["CONFIGURATION_DIRECTORY"]}/points', 'a') as points:
        points.write('station c 9 9\n')
    service = start(folders)
    out, said = service.communicate(timeout=SECONDS)
    assert (service.returncode, out) == (1, '') and said.startswith('refused P'), (service.returncode, out, said)


# ------------------------------------------------------------------------------------ a running systemd

BOOTED = r'''
cd /etc/warehouse/main
is() { [[ $2 == "$3" ]] && echo "right: $1" || echo "wrong: $1: $2, and not $3"; }
shown() { local name all=; for name; do all+="$(systemctl show warehouse@main -p "$name" --value) "; done; echo "${all% }"; }
ask() { su -s /bin/sh warehouse -c "warehouse-py client --wait 10 /run/warehouse/main/$1" | paste -sd ';'; }
systemctl enable --now warehouse@main 2> /dev/null
is 'a client' "$(printf 'submit o a b\ntick\n' | ask desk)" 'entries 0;accepted 0;refused C3'
is 'another' "$(printf 'token 0\ntick\n' | ask floor)" 'entries 0;took 0 path 0,2 0,1 0,0 1,0 2,0 3,0 4,0;clock 1 picked 0 dropped 0'
systemctl kill -s KILL warehouse@main
sleep 3
is 'killed' "$(shown ActiveState NRestarts)" 'active 1'
is 'it resumes' "$(printf 'tick\n' | ask floor)" 'entries 2;clock 2 picked 0 dropped 0'
SECONDS=0
systemctl stop warehouse@main
is 'stopped' "$((SECONDS < 5)) $(shown ActiveState Result ExecMainStatus)" '1 inactive success 0'
is 'the log has no end' "$(tail -n 1 /var/lib/warehouse/main/run.log)" '0 tick = clock 2 picked 0 dropped 0'
cp points points.right; echo 'station c 9 9' >> points
systemctl start warehouse@main; sleep 3
is 'refused input' "$(shown ActiveState ExecMainStatus NRestarts)" 'failed 1 0'
cp points.right points; cp options options.right; echo '--none' >> options; systemctl reset-failed warehouse@main
systemctl start warehouse@main; sleep 3
is 'refused words' "$(shown ActiveState ExecMainStatus NRestarts)" 'failed 2 0'
grep -v ':stop' options.right > options; systemctl reset-failed warehouse@main
systemctl start warehouse@main; sleep 1; systemctl stop warehouse@main
is 'no client to stop it' "$(shown ActiveState Result ExecMainStatus)" 'inactive success 15'
cp options.right options; systemctl reset-failed warehouse@main
(cd /var/lib/warehouse/main && exec su -s /bin/sh warehouse -c 'exec flock -x run.log sleep 3') &
sleep 1; systemctl start warehouse@main; sleep 1
is 'another has the log' "$(shown ExecMainStatus)" 3
sleep 5
is 'it tries again' "$(shown ActiveState)" active
is 'and closes' "$(printf 'close\n' | ask end); $(sleep 1; shown ActiveState Result NRestarts | cut -d ' ' -f 1,2); $(tail -n 1 /var/lib/warehouse/main/run.log)" 'entries 0;closed; inactive success; end 5'
'''


def booted() -> bool:
    """Whether all is right; it prints each line."""
    top = f'{SCRATCH.name}/booted'
    subprocess.run(['mmdebstrap', '--quiet', '--variant=minbase', '--include=systemd-sysv,dbus,python3,adduser', 'bookworm', top], check=True)
    shutil.copy(package()[0], f'{top}/warehouse.deb')
    subprocess.run(['chroot', top, 'dpkg', '-i', '/warehouse.deb'], check=True, stdout=subprocess.DEVNULL)
    os.makedirs(f'{top}/etc/warehouse/main')
    for path, text in (('map', MAP), ('points', POINTS), ('options', read(f'{DEPLOY}/options'))):
        with open(f'{top}/etc/warehouse/main/{path}', 'w') as it:
            it.write(text)
    shutil.copy(f'{DEPLOY}/tmpfiles.conf', f'{top}/etc/tmpfiles.d/warehouse.conf')
    with open(f'{top}/judge', 'w') as it:
        it.write(BOOTED)
    machine = subprocess.Popen(['systemd-nspawn', '--quiet', '--register=no', '--keep-unit', '--private-network', '-D', top, '-b'], stdin=subprocess.DEVNULL,
                               stdout=subprocess.DEVNULL, stderr=subprocess.DEVNULL)
    try:
        inside, until = [], time.monotonic() + 60
        while not inside or not os.path.exists(f'/proc/{inside[0]}/root/run/warehouse/main/stop/in'):
            assert time.monotonic() < until, 'it does not boot'
            inside = run('pgrep', '-P', str(machine.pid)).stdout.split()
            time.sleep(1)
        said = run('nsenter', '-t', inside[0], '-m', '-u', '-i', '-n', '-p', '--', 'bash', '/judge')
    finally:
        machine.terminate()
        machine.wait()
    print(said.stdout + said.stderr, end='')
    return said.stdout.count('right: ') == len(said.stdout.splitlines()) == BOOTED.count('\nis ')


if __name__ == '__main__':
    if sys.argv[1:] == ['--booted']:
        sys.exit(not booted())
    counting.main(globals(), [it for it in globals() if it.startswith('test_')], SCRATCH)
