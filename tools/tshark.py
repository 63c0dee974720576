"""PTP messages as tshark shows them, and how a proved program is started: for tools/tshark_packets.py and compare/traffic."""

import json
import struct
import subprocess
import sys
from collections import namedtuple
from pathlib import Path

# The names below are tshark's, without their 'ptp.v2.'. Each type's timestamp, and its requester's clock and port.
BODIES = {0: ("sdr.origintimestamp",), 1: ("sdr.origintimestamp",), 2: ("pdrq.origintimestamp",)}
BODIES |= {8: ("fu.preciseorigintimestamp",)}
BODIES[3] = ("pdrs.requestreceipttimestamp", "pdrs.requestingportidentity", "pdrs.requestingsourceportid")
BODIES[9] = ("dr.receivetimestamp", "dr.requestingsourceportidentity", "dr.requestingsourceportid")
BODIES[10] = ("pdfu.responseorigintimestamp", "pdfu.requestingportidentity", "pdfu.requestingsourceportid")
# What tshark shows as signed, by the end of its name; on the wire it stands as it is.
SIGNED = {"logmessageperiod": 8, "timestamp.nanoseconds": 32, "correction.ns": 64}
# What tshark adds and the packet does not hold: a vendor by the clock's first bytes.
ADDED = {"clockidentity_manuf"}
ETHERNET = bytes.fromhex("011b19000000 020000000001 88f7")

# A PTP message: its bytes, tshark's texts by name, when the frame was captured in ns, the Ethernet addresses, the
# IP address it goes to (None without IP) and the UDP port it goes to (None without UDP).
Frame = namedtuple("Frame", "message shown time sender receiver address port")


def fail(text):
    sys.exit(f"{Path(sys.argv[0]).stem}: {text}")


def program(name):
    """The words that run a proved program."""
    binary = Path(__file__).resolve().parent.parent / "crates" / name / "out" / name
    if not binary.exists():
        fail(f"no {name} in crates/{name}/out; 'rt run' in crates/{name} proves and makes it")
    return [str(binary)]


def flat(tree, into):
    for name, value in tree.items():
        if isinstance(value, dict):
            flat(value, into)
        else:
            into[name] = value
    return into


def number(name, text):
    """A value as tshark shows it, as the number on the wire."""
    if name == "correction.subns":
        return round(float(text) * 65536)
    return int(text, 0) % 2 ** next((bits for end, bits in SIGNED.items() if name.endswith(end)), 128)


def nanoseconds(text):
    """Seconds with nine places behind the point, exactly."""
    seconds, _, rest = text.partition(".")
    if not (seconds.isdigit() and len(rest) == 9 and rest.isdigit()):
        fail(f"no capture time in nanoseconds: {text}")
    return int(seconds) * 10**9 + int(rest)


def shown_of(layers):
    fields = flat(layers["ptp"], {})
    shown = {name[7:]: text for name, text in fields.items() if name.startswith("ptp.v2.") and text != ""}
    shown = {name: text for name, text in shown.items() if not name.endswith("_raw")}
    if "_ws.malformed" in layers:
        shown["malformed"] = "1"
    return shown


def frames(path):
    """Of each PTP message in a capture, a Frame."""
    words = ["tshark", "-n", "-r", str(path), "-Y", "ptp", "-T", "json", "-x", "--no-duplicate-keys"]
    try:
        ran = subprocess.run(words, capture_output=True, text=True)
    except OSError:
        fail("tshark is not on the path")
    if ran.returncode != 0:
        fail(f"tshark on {path}: {ran.stderr.strip()}")
    for packet in json.loads(ran.stdout):
        layers = packet["_source"]["layers"]
        if isinstance(layers["ptp"], list):
            fail(f"{path}: more than one message in a frame")
        start = layers["ptp_raw"][1]
        frame = bytes.fromhex(layers["frame_raw"][0])
        udp = layers.get("udp")
        end = layers["udp_raw"][1] + int(udp["udp.length"]) if udp else len(frame)
        yield Frame(
            frame[start:end],
            shown_of(layers),
            nanoseconds(layers["frame"]["frame.time_epoch"]),
            layers["eth"]["eth.src"],
            layers["eth"]["eth.dst"],
            layers.get("ip", {}).get("ip.dst"),
            int(udp["udp.dstport"]) if udp else None,
        )


def capture(path, messages):
    """Messages as a capture of Ethernet frames."""
    with open(path, "wb") as out:
        out.write(struct.pack("<IHHiIII", 0xA1B2C3D4, 2, 4, 0, 0, 65535, 1))
        for n, message in enumerate(messages):
            frame = ETHERNET + message
            out.write(struct.pack("<IIII", n, 0, len(frame), len(frame)) + frame)
