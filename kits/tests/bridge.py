"""Tests of kits/bridge/mqtt.py with a real broker, mosquitto, on the loopback."""
import contextlib
import os
import pwd
import re
import shutil
import signal
import socket
import subprocess
import time

KITS = os.path.dirname(os.path.dirname(os.path.abspath(__file__)))
PYTHONS = ["python3", "/usr/bin/python3"]
# On a machine with much other work, the many terms take minutes.
SECONDS = 600
MANY = 10_000
AWAY = "mqtt.py: the broker is away: trying again\n"
LOST = "mqtt.py: the broker has lost the session: messages can be lost or come twice\n"
REFUSED = """tool mqtt is { command = "PYTHON mqtt.py --port PORT --id refused" }
process P is
  let M : mqtt, V : term in
    execute(mqtt, M?) . rec-event(M, ready) .
    snd-eval(M, publish("a/#", 1)) . rec-value(M, V?) . printf("%t\\n", V) .
    snd-eval(M, publish(a, 1)) . rec-value(M, V?) . printf("%t\\n", V) . snd-terminate(M, done)
  endlet
toolbus(P)
"""
SHOW = """tool mqtt is { command = "/usr/bin/python3 mqtt.py --id shows --subscribe numbers" }
process P is
  let M : mqtt, X : int in
    execute(mqtt, M?) . rec-event(M, ready) . printf("ready\\n") .
    ( rec-event(M, message("numbers", X?)) . snd-ack-event(M, message("numbers", X)) . printf("%d\\n", X) )
    * ( rec-event(M, message("numbers", end)) . snd-terminate(M, done) )
  endlet
toolbus(P)
"""
BAD = ["f(", "3.5", "x" * 65_600, "\\xff"]
PUBLISH = """
import sys
import paho.mqtt.publish as it
payloads = sys.argv[2:]
it.multiple([("numbers", text.encode().replace(b"\\\\xff", b"\\xff"), 2, False) for text in payloads], port=int(sys.argv[1]))
"""


def python_with_paho():
    """A Python that has paho-mqtt, or None."""
    for python in PYTHONS:
        with contextlib.suppress(OSError):
            if subprocess.run([python, "-c", "import paho.mqtt.client"], capture_output=True).returncode == 0:
                return python
    return None


def broker_program():
    return shutil.which("mosquitto", path=f"{os.environ['PATH']}:/usr/sbin:/usr/local/sbin")


def until(holds, seconds=SECONDS):
    end = time.monotonic() + seconds
    while not holds():
        if time.monotonic() > end:
            raise TimeoutError(f"nothing after {seconds} seconds")
        time.sleep(0.02)


class Broker:
    """A broker that keeps its sessions in a file, at a free port."""

    def __init__(self, folder):
        with socket.create_server(("127.0.0.1", 0)) as it:
            self.port = it.getsockname()[1]
        os.makedirs(os.path.join(folder, "kept"))
        self.settings = os.path.join(folder, "settings")
        with open(self.settings, "w", encoding="utf-8") as it:
            it.write(f"listener {self.port} 127.0.0.1\nallow_anonymous true\npersistence true\npersistence_location {folder}/kept/\n")
            # Without this line, a broker that root has started can't write the folder.
            it.write(f"user {pwd.getpwuid(os.getuid()).pw_name}\n")
        self.start()

    def start(self):
        self.running = subprocess.Popen([broker_program(), "-c", self.settings], stdout=subprocess.DEVNULL, stderr=subprocess.DEVNULL)
        until(self.answers)

    def answers(self):
        with contextlib.suppress(OSError), socket.create_connection(("127.0.0.1", self.port)):
            return True
        return False

    def stop(self):
        """Ends the broker, as a system does: it saves the sessions first."""
        self.end_by(signal.SIGTERM)

    def end_by(self, number):
        self.running.send_signal(number)
        self.running.wait()


class Bus:
    """A running bus in a folder of its own."""

    def __init__(self, program, folder, name, text):
        self.folder = os.path.join(folder, name)
        os.mkdir(self.folder)
        for file in ("bridge/mqtt.py", "python/toolbus.py"):
            shutil.copy(os.path.join(KITS, file), self.folder)
        with open(os.path.join(self.folder, "script.tb"), "w", encoding="utf-8") as it:
            it.write(text)
        with open(os.path.join(self.folder, "log"), "w") as log, open(os.path.join(self.folder, "errors"), "w") as errors:
            words = [program, "run", "script.tb", "--ticks", str(10 * SECONDS)]
            self.running = subprocess.Popen(words, cwd=self.folder, stdin=subprocess.DEVNULL, stdout=log, stderr=errors)

    def text(self, name="log"):
        with open(os.path.join(self.folder, name), encoding="utf-8", errors="replace") as it:
            return it.read()

    def count(self, word):
        return len(re.findall(rf"^\d+ {word} ", self.text(), re.M))

    def printed(self):
        return re.findall(r'^\d+ printf \S+ "(.*)\\n"$', self.text(), re.M)

    def ends(self):
        """Waits for the end, and returns the status."""
        try:
            return self.running.wait(SECONDS)
        except subprocess.TimeoutExpired:
            self.running.kill()
            raise


def script(name, python, port):
    with open(os.path.join(KITS, "bridge", name), encoding="utf-8") as it:
        return at_port(it.read(), python, port)


def at_port(text, python, port):
    return text.replace("/usr/bin/python3 mqtt.py", f"{python} mqtt.py --port {port}")


def publish(python, port, payloads):
    subprocess.run([python, "-c", PUBLISH, str(port), *payloads], check=True)


def many_terms(count, program, folder, python, broker):
    """Two buses hand over MANY terms. In the middle the broker ends, and starts again."""
    receiver = Bus(program, folder, "right", script("receive.tb", python, broker.port))
    until(lambda: receiver.printed())
    sender = Bus(program, folder, "left", script("send.tb", python, broker.port))
    until(lambda: sender.count("rec-value") > MANY // 4)
    broker.stop()
    time.sleep(0.5)
    sent = sender.count("rec-value")
    time.sleep(1)
    count.check("mqtt.py: nothing is confirmed while the broker is away", sent, sender.count("rec-value"))
    count.check("mqtt.py: one term waits for the broker", sent + 1, sender.count("snd-eval"))
    broker.start()
    count.check("mqtt.py: both buses end", (0, 0), (sender.ends(), receiver.ends()))
    count.check("mqtt.py: each term comes once and in order", ["ready", f"{MANY} numbers"], receiver.printed())
    count.check("mqtt.py: terms sent", MANY + 1, sender.count("rec-value"))
    count.check("mqtt.py: what it reports", (AWAY, AWAY), (sender.text("errors"), receiver.text("errors")))


def lost_session(count, program, folder, python, broker):
    """A broker that is killed has saved nothing. The tool reports this, and receives what comes afterwards."""
    bus = Bus(program, folder, "lost", at_port(SHOW, python, broker.port))
    until(lambda: bus.printed())
    broker.end_by(signal.SIGKILL)
    broker.start()
    until(lambda: LOST in bus.text("errors"))
    # The tool subscribes again: until then, the new broker keeps nothing for it.
    until(lambda: publish(python, broker.port, ["7"]) or len(bus.printed()) > 1)
    publish(python, broker.port, ["end"])
    count.check("mqtt.py: a lost session, status", 0, bus.ends())
    count.check("mqtt.py: a lost session", ({"ready", "7"}, AWAY + LOST), (set(bus.printed()), bus.text("errors")))


def bad_messages(count, program, folder, python, broker):
    """A message that is no term is reported and dropped. The others come."""
    receiver = Bus(program, folder, "bad", script("receive.tb", python, broker.port))
    until(lambda: receiver.printed())
    payloads = ["1", *BAD, " 2 ", "end"]
    publish(python, broker.port, payloads)
    count.check("mqtt.py: bad messages, status", 0, receiver.ends())
    count.check("mqtt.py: bad messages are dropped", ["ready", "2 numbers"], receiver.printed())
    reports = receiver.text("errors").splitlines()
    is_report = all(it.startswith("mqtt.py: dropped a message of numbers: ") for it in reports)
    count.check("mqtt.py: bad messages are reported", (len(BAD), True), (len(reports), is_report))


def refusals(count, program, folder, python, broker):
    bus = Bus(program, folder, "refused", REFUSED.replace("PYTHON", python).replace("PORT", str(broker.port)))
    count.check("mqtt.py: refused topics, status", 0, bus.ends())
    wanted = [r"refused(\"Publish topic cannot contain wildcards.\")", r"refused(\"the topic must be a string\")"]
    count.check("mqtt.py: refused topics", wanted, bus.printed())


def bridge_tests(count, program, folder):
    for number, test in enumerate((many_terms, lost_session, bad_messages, refusals)):
        broker = Broker(os.path.join(folder, f"broker-{number}"))
        try:
            test(count, program, folder, python_with_paho(), broker)
        finally:
            broker.stop()
