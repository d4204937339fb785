"""Systems whose server hands on messages between programs, for bench/peers: D-Bus, MQTT, and NATS.

Each has a server of its own that only its programs use: on a socket in the folder, or, for NATS, on a free port of 127.0.0.1. All programs
are killed at the end. The programs are dbus.c, mqtt.c, and nats.c.
"""
import contextlib
import os
import shlex
import shutil
import signal
import socket
import subprocess
import sys
import time
from typing import Callable, NamedTuple

from measure import TOP, write

BENCH = os.path.join(TOP, "bench")
BUS = """<!DOCTYPE busconfig PUBLIC "-//freedesktop//DTD D-Bus Bus Configuration 1.0//EN"
 "http://www.freedesktop.org/standards/dbus/1.0/busconfig.dtd">
<busconfig><type>session</type><listen>unix:path={}</listen><auth>EXTERNAL</auth>
<policy context="default"><allow send_destination="*"/><allow receive_sender="*"/><allow own="*"/></policy></busconfig>
"""
# As root, mosquitto would be another user, who may not use the folder.
MQTT = "listener 0 {}\nallow_anonymous true\npersistence false\nlog_type none\nuser root\n"
# What asks this program to end.
ENDING = (signal.SIGINT, signal.SIGTERM)
# How long a round of live programs may take to start and to end, in seconds.
PATIENCE = 30


def fresh(name):
    with contextlib.suppress(FileNotFoundError):
        os.remove(name)
    return name


@contextlib.contextmanager
def started(words, **options):
    """A program that is killed at the end, unless it has ended. A signal waits until the program is started, so none is left behind."""
    before = signal.pthread_sigmask(signal.SIG_BLOCK, ENDING)
    options = {"stdout": subprocess.DEVNULL, "stderr": subprocess.DEVNULL, **options}
    child = subprocess.Popen(words, preexec_fn=lambda: signal.pthread_sigmask(signal.SIG_SETMASK, before), **options)
    try:
        signal.pthread_sigmask(signal.SIG_SETMASK, before)
        yield child
    finally:
        if child.poll() is None:
            child.kill()
        child.wait()


def rate_in(path, count):
    """How many there were in a second, from so many lines."""
    end = time.monotonic() + PATIENCE
    while time.monotonic() < end:
        if os.path.exists(path):
            with open(path) as file:
                lines = file.read().splitlines()
            if len(lines) == count:
                return sum(int(number) / int(nanoseconds) * 1e9 for number, nanoseconds in map(str.split, lines))
        time.sleep(0.01)
    sys.exit(f"bench: the programs haven't written {count} lines to {path}")


# Servers: each gives what its programs find in their environment.

def wait_for(server, family, address):
    """Returns once a server takes connections."""
    end = time.monotonic() + PATIENCE
    while time.monotonic() < end and server.poll() is None:
        with socket.socket(family) as probe:
            if probe.connect_ex(address) == 0:
                return
        time.sleep(0.01)
    sys.exit(f"bench: {server.args[0]} takes no connections")


def free_port():
    with socket.socket() as probe:
        probe.bind(("127.0.0.1", 0))
        return probe.getsockname()[1]


@contextlib.contextmanager
def dbus_server():
    write("bus.conf", [BUS.format(os.path.abspath(fresh("bus.socket")))])
    words = ["dbus-daemon", "--config-file=bus.conf", "--nofork", "--nopidfile", "--print-address"]
    with started(words, stdout=subprocess.PIPE, text=True) as server:
        # It prints its address once it takes calls.
        yield {"DBUS_SESSION_BUS_ADDRESS": server.stdout.readline().strip()}


@contextlib.contextmanager
def mqtt_server():
    path = os.path.abspath(fresh("mqtt.socket"))
    write("mqtt.conf", [MQTT.format(path)])
    with started(["mosquitto", "-c", "mqtt.conf"]) as server:
        wait_for(server, socket.AF_UNIX, path)
        yield {"MQTT_SOCKET": path}


@contextlib.contextmanager
def nats_server():
    port = free_port()
    with started(["nats-server", "-a", "127.0.0.1", "-p", str(port)]) as server:
        wait_for(server, socket.AF_INET, ("127.0.0.1", port))
        yield {"NATS_PORT": str(port)}


class Broker(NamedTuple):
    """A system: its name, its program of bench/, the command of its server, how that is started, and the library that the program needs."""
    name: str
    program: str
    command: str
    serving: Callable
    library: str


BROKERS = (
    Broker("D-Bus", "dbus", "dbus-daemon", dbus_server, "libsystemd"),
    Broker("MQTT", "mqtt", "mosquitto", mqtt_server, "libmosquitto"),
    Broker("NATS", "nats", "nats-server", nats_server, ""),
)


# The trips of all pairs in a second, and the events that all hearers hear in a second.

@contextlib.contextmanager
def programs_of(broker):
    """Starts programs of a system by their arguments, beside its server. All end at the end."""
    with contextlib.ExitStack() as stack:
        environment = {**os.environ, **stack.enter_context(broker.serving())}
        yield lambda *words, **more: stack.enter_context(started([f"./{broker.program}", *map(str, words)], env=environment, **more))


def broker_pairs(broker, pairs, milliseconds):
    path = fresh("trips")
    with programs_of(broker) as start:
        answering = [start("answer", number, stdout=subprocess.PIPE) for number in range(1, pairs + 1)]
        for child in answering:
            # It prints a line once it can answer.
            child.stdout.readline()
        for number in range(1, pairs + 1):
            start("ask", milliseconds, path, number)
        return rate_in(path, pairs)


def broker_fan(broker, hearers, milliseconds):
    path = fresh("told")
    fresh("heard")
    with programs_of(broker) as start:
        for _ in range(hearers):
            start("hear")
        start("tell", milliseconds, path, hearers)
        return rate_in(path, 1)


# What is installed.

def left_out(system, what):
    print(f"left out: {system}, since {what}")
    return False


def has_commands(system, commands):
    missing = [command for command in commands if not shutil.which(command)]
    return left_out(system, f"there is no {' and no '.join(missing)}") if missing else True


def source(name):
    return os.path.join(BENCH, name)


def compiled(words):
    return subprocess.run(words, stdout=subprocess.DEVNULL, stderr=subprocess.DEVNULL, check=False).returncode == 0


def has_program(system, name, options=()):
    """Whether a C compiler builds a program of bench/."""
    return compiled(["cc", "-O2", "-o", name, source(f"{name}.c"), *options]) or left_out(system, f"cc fails on {name}.c")


def has_broker(broker):
    """Whether a system is installed. Its program is built then."""
    if not has_commands(broker.name, [broker.command, "cc"]):
        return False
    if not broker.library:
        return has_program(broker.name, broker.program)
    if not has_commands(broker.name, ["pkg-config"]):
        return False
    options = subprocess.run(["pkg-config", "--cflags", "--libs", broker.library], capture_output=True, text=True, check=False)
    if options.returncode:
        return left_out(broker.name, f"there are no headers of {broker.library}")
    return has_program(broker.name, broker.program, shlex.split(options.stdout))
