"""Tests of a tool that ssh starts: the command of kits/bridge/README.md, with a real sshd for each connection."""
import os
import re
import shlex
import shutil
import subprocess

HERE = os.path.dirname(os.path.abspath(__file__))
PAGE = os.path.join(os.path.dirname(HERE), "bridge", "README.md")
SBIN = f"{os.environ['PATH']}:/usr/sbin:/usr/local/sbin"
SECONDS = 120
SCRIPT = """{declaration}
process P is
  let T : far, V : int in
    execute(far, T?) .
    ( snd-eval(T, twice(21)) . rec-value(T, V?) . printf("%d\\n", V) . snd-eval(T, {last}) . rec-value(T, V?) . snd-terminate(T, done)
      >> rec-disconnect(T) . printf("far is gone\\n") )
  endlet
toolbus(P)
"""
SERVER = """HostKey {folder}/host
AuthorizedKeysFile {folder}/user.pub
PidFile none
UsePAM no
StrictModes no
PasswordAuthentication no
PermitRootLogin prohibit-password
"""
CLIENT = """Host far
  ProxyCommand {sshd} -i -f {folder}/server
  IdentityFile {folder}/user
  IdentitiesOnly yes
  StrictHostKeyChecking no
  UserKnownHostsFile /dev/null
  LogLevel ERROR
"""


def lacking():
    """What this machine lacks for these tests, or None."""
    missing = next((it for it in ("ssh", "ssh-keygen", "sshd") if not shutil.which(it, path=SBIN)), None)
    needs_folder = os.geteuid() == 0 and not os.path.isdir("/run/sshd")
    return missing or ("/run/sshd, which sshd needs" if needs_folder else None)


def write(folder, name, text):
    with open(os.path.join(folder, name), "w", encoding="utf-8") as it:
        it.write(text)


def declaration():
    """The declaration of the page, with a settings file for ssh, and the tool of these tests."""
    with open(PAGE, encoding="utf-8") as it:
        found = re.search(r'`(tool far is \{ command = "ssh .* HOST sh tool\.sh" \})`', it.read())
    return found[1].replace("ssh ", "ssh -F client ", 1).replace("HOST", "far").replace("tool.sh", os.path.join(HERE, "far.sh"))


def steps(log):
    lines = [re.sub(r"^\d+ ", "", line) for line in log.splitlines()]
    return [it for it in lines if re.match(r"[a-z-]+ \d+\.\d+ |finish|halt", it)]


def run(program, folder, last):
    """Runs the script: its steps, the texts on the standard error, and the status."""
    write(folder, "far.tb", SCRIPT.format(declaration=declaration(), last=last))
    words = [program, "run", "far.tb", "--ticks", str(10 * SECONDS)]
    ran = subprocess.run(words, cwd=folder, stdin=subprocess.DEVNULL, capture_output=True, text=True, timeout=SECONDS)
    return steps(ran.stdout), ran.stderr, ran.returncode


def far_tests(count, program, folder):
    os.makedirs(folder)
    for name in ("host", "user"):
        subprocess.run(["ssh-keygen", "-q", "-t", "ed25519", "-N", "", "-f", os.path.join(folder, name)], check=True)
    write(folder, "server", SERVER.format(folder=folder))
    write(folder, "client", CLIENT.format(folder=folder, sshd=shlex.quote(shutil.which("sshd", path=SBIN))))
    first = ["execute 1.1 far(1)", "snd-eval 1.2 far(1),twice(21)", "rec-value 1.3 far(1),42", 'printf 1.4 "42\\n"']
    whole = [*first, "snd-eval 1.5 far(1),twice(4)", "rec-value 1.6 far(1),8", "snd-terminate 1.7 far(1),done", "finish"]
    count.check("a tool that ssh starts", (whole, "the tool has ended\n", 0), run(program, folder, "twice(4)"))
    broken = [*first, "snd-eval 1.5 far(1),break", "rec-disconnect 1.8 far(1)", 'printf 1.9 "far is gone\\n"', "finish"]
    got, _, status = run(program, folder, "break")
    count.check("a connection of ssh that breaks", (broken, 0), (got, status))
