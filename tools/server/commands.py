"""Runs the commands of docs/SERVER.md, in their order, as a new user does."""

import json
import os
import re
import shutil
import socket
import subprocess
import sys
import time

from serving import HERE, until

PAGE = os.path.join(HERE, "docs", "SERVER.md")
PORTS = {"8000": None, "8001": None}


def blocks(kind):
    """The blocks of code of this kind on the page."""
    with open(PAGE, encoding="utf-8") as page:
        return re.findall(rf"```{kind}\n(.*?)```", page.read(), re.DOTALL)


def free_port():
    with socket.create_server(("127.0.0.1", 0)) as server:
        return str(server.getsockname()[1])


def ran(folder, env, script):
    """What a script of the shell says, and the status with which it ends."""
    done = subprocess.run(
        ["sh", "-e", "-c", script], cwd=folder, env=env, capture_output=True, text=True, timeout=500, check=False
    )
    return done.returncode, done.stdout + done.stderr


def check(tally, room):
    """Installs the package, serves the page's first file, and makes the page's calls; nginx takes its lines."""
    folder = os.path.join(room, "commands")
    os.mkdir(folder)
    env = environment()
    os.symlink(os.path.join(HERE, "bindings"), os.path.join(folder, "bindings"))
    install, first, calls, *_ = blocks("sh")
    made = [line for line in install.splitlines() if line.startswith(("v/bin", "/usr/bin/python3"))]
    status, said = ran(folder, env, "\n".join(made).replace("/usr/bin/python3", sys.executable))
    tally.compare(
        "the server is installed",
        (status, os.path.exists(os.path.join(folder, "v", "bin", "entangle-server"))),
        (0, True),
    )
    ports = {name: free_port() for name in PORTS}
    with open(os.path.join(folder, "lunch.toml"), "w", encoding="utf-8") as file:
        file.write(blocks("toml")[0])
    command, printed = re.search(r"^(v/bin.*?--check) +# prints: (.*)$", first, re.MULTILINE).groups()
    tally.compare("the file is checked", ran(folder, env, command), (0, printed + "\n"))
    words = ["v/bin/entangle-server", "lunch.toml", "--port", ports["8000"], "--operate-port", ports["8001"]]
    with open(os.path.join(folder, "log"), "wb") as log:
        server = subprocess.Popen(words, cwd=folder, env=env, stdout=log, stderr=log)
    try:
        ready = f"curl -sf http://127.0.0.1:{ports['8001']}/readyz"
        tally.note("it serves", until(lambda: ran(folder, env, ready)[0] == 0))
        _calls(tally, folder, env, ports, calls)
        _tokens(tally, folder, env)
        _behind_nginx(tally, folder, ports)
    finally:
        server.terminate()
        tally.compare("SIGTERM ends it", server.wait(20), 0)


def program(tally, room):
    """The program of EMBEDDING books, is killed by signal 9, and goes on, where the package alone is installed."""
    with open(os.path.join(HERE, "docs", "EMBEDDING.md"), encoding="utf-8") as file:
        page = file.read()
    code = next(code for code in re.findall(r"```python\n(.*?)```", page, re.DOTALL) if "trips.sqlite" in code)
    wanted = re.findall(r"trip\.py .*# prints: (.*)\n", page)
    folder = os.path.join(room, "program")
    os.mkdir(folder)
    with open(os.path.join(folder, "trip.py"), "w", encoding="utf-8") as file:
        file.write(code)
    env = environment()
    os.symlink(os.path.join(HERE, "bindings"), os.path.join(folder, "bindings"))
    install = f"{sys.executable} -m venv env\nenv/bin/pip install --no-index --no-input bindings/python"
    tally.compare("the package is installed", ran(folder, env, install)[0], 0)
    words = [os.path.join(folder, "env", "bin", "python"), "trip.py"]
    first = subprocess.Popen([*words, "Mickey", "Minnie"], stdout=subprocess.PIPE, text=True, cwd=folder, env=env)
    said = [first.stdout.readline().strip()]
    first.kill()
    first.wait()
    first.stdout.close()
    for me, friend in (("Minnie", "Mickey"), ("Mickey", "Minnie")):
        done = subprocess.run([*words, me, friend], cwd=folder, env=env, capture_output=True, text=True, check=False)
        said.append(done.stdout.strip())
    tally.compare("the program of the page, after signal 9", said, [*wanted, wanted[-1]])


def environment():
    """An environment in which the package is found where it is installed."""
    env = {name: value for name, value in os.environ.items() if name not in ("PYTHONPATH", "ENTANGLE_LIBRARY")}
    built = os.environ.get("ENTANGLE_LIBRARY")
    return {**env, "ENTANGLE_ARCHIVE": os.path.dirname(os.path.abspath(built))} if built else env


def _calls(tally, folder, env, ports, calls):
    """The calls by curl; each comment says what has to be in the answer."""
    events = next(block for block in blocks("sh") if "/events" in block).replace("curl -sN", "timeout 3 curl -sN")
    lines, wanted = [], []
    for line in (calls + events).splitlines():
        command, _, comment = line.partition("  #")
        lines.append(f"{command}{'; echo' if command.startswith(('curl', 'timeout')) else ''}")
        wanted += re.findall(r'"\w+": (?:"\w+"|\{[^}]*\}|\[\[.*\]\])', comment)
    script = "\n".join(lines).replace(":8000", f":{ports['8000']}").replace("timeout 3", "! timeout 3")
    status, said = ran(folder, env, script)
    tally.compare("the calls are made", status, 0)
    tally.note("what the page says is answered", wanted and all(one in said for one in wanted), (wanted, said))
    tally.note("and told by events", "event: requests" in said, said)


def _tokens(tally, folder, env):
    """The file of tokens is one, and names no token."""
    script = next(block for block in blocks("sh") if "sha256 =" in block)
    status, said = ran(folder, env, script)
    words = [
        "v/bin/python",
        "-c",
        "import sys; from entangle.server._access import read_tokens; print(read_tokens(sys.argv[1]))",
    ]
    read = subprocess.run([*words, "tokens.toml"], cwd=folder, env=env, capture_output=True, text=True, check=False)
    tally.note("the file of tokens is made", status == 0 and "'Ann'" in read.stdout, (said, read.stdout, read.stderr))


def _behind_nginx(tally, folder, ports):
    """nginx with the page's lines, without TLS, passes calls and streams on."""
    nginx = shutil.which("nginx") or "/usr/sbin/nginx"
    if not os.access(nginx, os.X_OK):
        print("it lacks nginx: that is left out", flush=True)
        return
    port, (block,) = free_port(), blocks("nginx")
    block = re.sub(r".*ssl_certificate.*\n", "", block).replace("listen 443 ssl", f"listen 127.0.0.1:{port}")
    block = block.replace(":8000", f":{ports['8000']}")
    config = (
        f"daemon off; pid {folder}/pid; error_log {folder}/errors;\nevents {{}}\nhttp {{ access_log off;\n{block}}}\n"
    )
    with open(os.path.join(folder, "nginx.conf"), "w", encoding="utf-8") as file:
        file.write(config)
    server = subprocess.Popen([nginx, "-c", os.path.join(folder, "nginx.conf")], stderr=subprocess.DEVNULL)
    try:
        url = f"http://127.0.0.1:{port}/v1"
        tables = ["curl", "-s", f"{url}/tables/Lunches"]
        tally.note(
            "nginx passes calls on",
            until(lambda: b"Bistro" in subprocess.run(tables, capture_output=True, check=False).stdout, 20),
        )
        begun = time.monotonic()
        words = [
            "curl",
            "-sN",
            "-m",
            "3",
            "-H",
            "Content-Type: application/json",
            f"{url}/events",
            "-d",
            json.dumps({"keys": []}),
        ]
        said = subprocess.run(words, capture_output=True, check=False).stdout
        tally.note("and streams, unbuffered", b"event: requests" in said and time.monotonic() - begun < 10, said)
    finally:
        server.terminate()
        server.wait()
