#!/usr/bin/python3
"""A tool that exchanges terms with other machines, by a broker of MQTT such as mosquitto.

usage: mqtt.py --id NAME [--host HOST] [--port PORT] [--subscribe TOPIC].. [--window N]

It needs the library paho-mqtt: on Debian, the package python3-paho-mqtt and /usr/bin/python3.

  ready                 the event that comes once, when the broker has all subscriptions
  publish(TOPIC, X)     an evaluation: publishes the text of the term X. Its value is `published` as soon as the broker has confirmed it,
                        or refused(WHY) if nothing can be published under this topic
  message(TOPIC, X)     the event for each message that arrives with the text of a term X. It is to be acknowledged

--id         the name of the kept session at the broker. Two tools with one name disconnect each other
--host       where the broker is (default localhost)
--port       the broker's port (default 1883)
--subscribe  a topic whose messages arrive, perhaps with the wildcards of MQTT; the option can come again
--window     how many events wait for their acknowledgement at the same time (default 100)

A message whose text is no term is reported on the standard error, and dropped.
"""
import argparse
import collections
import os
import sys
import threading

import paho.mqtt.client as mqtt

sys.path.insert(0, os.path.join(os.path.dirname(os.path.realpath(__file__)), "..", "python"))
from toolbus import LATER, Appl, BusGone, TermError, Tool, read_term, write_term  # noqa: E402

EXACTLY_ONCE = 2
MOST_RECONNECT_SECONDS = 2


class Bridge:
    """The tool, and its client of the broker. The client's calls come from a thread of its own."""

    def __init__(self, chosen):
        self.topics = chosen.subscribe
        self.window = chosen.window
        self.changing = threading.Lock()
        self.waiting = collections.deque()
        self.unacknowledged = 0
        self.was_ready = False
        self.tool = Tool()
        self.tool.eval("publish")(self.publish)
        self.tool.ack_event("message")(self.acknowledged)
        self.client = new_client(chosen.id)
        self.client.reconnect_delay_set(1, MOST_RECONNECT_SECONDS)
        self.client.on_connect = self.connected
        self.client.on_disconnect = self.disconnected
        self.client.on_subscribe = lambda *_: self.ready()
        self.client.on_publish = lambda *_: self.send(lambda: self.tool.value(Appl("published")))
        self.client.on_message = lambda client, data, message: self.arrived(message)
        self.client.connect_async(chosen.host, chosen.port)

    def run(self):
        self.client.loop_start()
        self.tool.run()
        self.client.disconnect()
        self.client.loop_stop()

    def send(self, call):
        """Sends the bus a line. If the bus is gone, the tool ends by itself."""
        try:
            call()
        except BusGone:
            pass

    # From the bus

    def publish(self, topic, term):
        if not isinstance(topic, str):
            return Appl("refused", "the topic must be a string")
        try:
            self.client.publish(topic, write_term(term), qos=EXACTLY_ONCE)
        except ValueError as error:
            return Appl("refused", str(error))
        return LATER

    def acknowledged(self, topic, term):
        with self.changing:
            self.unacknowledged -= 1
            self.pass_on()

    # From the broker

    def connected(self, client, data, flags, code):
        if code:
            self.tool.log(f"the broker refuses the connection: {mqtt.connack_string(code)}")
            return
        if self.was_ready and not flags["session present"]:
            self.tool.log("the broker has lost the session: messages can be lost or come twice")
        if self.topics:
            client.subscribe([(topic, EXACTLY_ONCE) for topic in self.topics])
        else:
            self.ready()

    def disconnected(self, client, data, code):
        if code:
            self.tool.log("the broker is away: trying again")

    def ready(self):
        if not self.was_ready:
            self.was_ready = True
            self.send(lambda: self.tool.event(Appl("ready")))

    def arrived(self, message):
        try:
            event = Appl("message", message.topic, read_term(message.payload))
            write_term(event)
        except TermError as error:
            self.tool.log(f"dropped a message of {message.topic}: {error}: {message.payload[:80]!r}")
            return
        with self.changing:
            self.waiting.append(event)
            self.pass_on()

    def pass_on(self):
        """Sends the bus as many events as the window allows."""
        while self.waiting and self.unacknowledged < self.window:
            self.unacknowledged += 1
            event = self.waiting.popleft()
            self.send(lambda: self.tool.event(event))


def new_client(name):
    """A client whose session the broker keeps."""
    if hasattr(mqtt, "CallbackAPIVersion"):
        return mqtt.Client(mqtt.CallbackAPIVersion.VERSION1, client_id=name, clean_session=False)
    return mqtt.Client(client_id=name, clean_session=False)


def options():
    parser = argparse.ArgumentParser(description=__doc__, formatter_class=argparse.RawDescriptionHelpFormatter)
    parser.add_argument("--id", required=True)
    parser.add_argument("--host", default="localhost")
    parser.add_argument("--port", type=int, default=1883)
    parser.add_argument("--subscribe", action="append", default=[], metavar="TOPIC")
    parser.add_argument("--window", type=int, default=100)
    return parser.parse_args()


if __name__ == "__main__":
    Bridge(options()).run()
