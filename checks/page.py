#!/usr/bin/env python3
"""checks/page.py NAME: holds the JSON of a run, NAME.json, against what tshark and SHA-256 make of its capture, NAME.capture, and against the
lines of its text, its summary and its script. `checks/page` calls it. It fails with the first difference."""
import hashlib
import json
import re
import subprocess
import sys

SUBTYPES = ["MP_CAPABLE", "MP_JOIN", "DSS", "ADD_ADDR", "REMOVE_ADDR", "MP_PRIO", "MP_FAIL", "MP_FASTCLOSE", "MP_TCPRST"]
FLAGS = [(1, "F"), (2, "S"), (4, "R"), (16, ".")]
MPTCP = "tcp.options.mptcp."
HEADS = ["frame.time_epoch", "frame.interface_id", "ip.src", "tcp.flags", "tcp.seq", "tcp.len", "frame.comment"]
# Where a member of an option stands in what tshark tells.
FIELDS = {
    "MSS": {"size": "tcp.options.mss_val"},
    "WSCALE": {"shift": "tcp.options.wscale.shift"},
    "MP_CAPABLE": {"sender": "sendkey", "receiver": "recvkey", "length": "datalvllen", "checksum": "checksum"},
    "MP_JOIN": {"token": "recvtok", "nonce": "sendrand", "id": "addrid"},
    "DSS": {"ack": "rawdataack", "number": "rawdataseqno", "relative": "subflowseqno", "length": "datalvllen", "fin": "datafin.flag"},
    "ADD_ADDR": {"id": "addrid", "address": "ipv4", "port": "port"},
    "REMOVE_ADDR": {"ids": "addrid"},
    "MP_PRIO": {},
    "MP_FAIL": {"number": "rawdataseqno"},
    "MP_FASTCLOSE": {"key": "recvkey"},
    "MP_TCPRST": {"reason": "rst_reason"},
}
NAMES = sorted({field if field.startswith("tcp.") else MPTCP + field for fields in FIELDS.values() for field in fields.values()})


def number_of(word):
    """A number in decimal or in hexadecimal digits behind `0x`, or what else is told."""
    if isinstance(word, bool):
        return int(word)
    if isinstance(word, str) and re.fullmatch(r"0x[0-9a-f]+|\d+", word):
        return int(word, 0)
    return {"True": 1, "False": 0}.get(word, word)


def frames_of(capture):
    """What tshark tells of each frame, by the name of a field: a list of numbers, or words."""
    fields = HEADS + [MPTCP + "subtype"] + NAMES
    words = ["tshark", "-r", capture, "-T", "fields", "-E", "separator=|", "-E", "occurrence=a", "-E", "aggregator=,"]
    for field in fields:
        words += ["-e", field]
    out = subprocess.run(words, capture_output=True, text=True, check=True).stdout
    for line in out.splitlines():
        yield {field: [number_of(word) for word in cell.split(",")] if cell else [] for field, cell in zip(fields, line.split("|"))}


def told_of(segment):
    """What the options of a segment tell, by tshark's names."""
    told = {MPTCP + "subtype": [SUBTYPES.index(option["name"]) for option in segment["options"] if option["name"] in SUBTYPES]}
    for option in segment["options"]:
        members = {**option, **(option.get("mapping") or {})}
        for member, field in FIELDS[option["name"]].items():
            value = members.get(member)
            for one in value if isinstance(value, list) else [] if value is None else [value]:
                told.setdefault(field if field.startswith("tcp.") else MPTCP + field, []).append(number_of(one))
    return told


def waits(run, segment):
    """Whether a line of the script gives the segment's direction a rate, or a jitter."""
    way = segment["path"], segment["from"]
    return any(event["event"] in ("rate", "jitter") and (event["path"], event["from"]) == way for event in run["script"]["events"])


def by_capture(run, capture):
    """Each segment is a frame, with the same octets in its options, and each place and Data ACK is what SHA-256 makes of keys and numbers."""
    first = {side: int.from_bytes(hashlib.sha256(int(key, 16).to_bytes(8, "big")).digest()[-8:], "big") + 1 for side, key in run["keys"].items()}
    for side, key in run["keys"].items():
        assert int(run["tokens"][side], 16) == int.from_bytes(hashlib.sha256(int(key, 16).to_bytes(8, "big")).digest()[:4], "big"), "token"
    frames = list(frames_of(capture))
    assert len(frames) == len(run["segments"]), "how many"
    for segment, frame in zip(run["segments"], frames):
        where = f"segment {segment['number']} of {segment['from']} on path {segment['path']}"
        side = "a" if str(frame["ip.src"][0]).endswith(".1") else "b"
        tick = round(float(frame["frame.time_epoch"][0]) * 1000)
        assert (segment["tick"], segment["path"], segment["from"]) == (tick, frame["frame.interface_id"][0], side), where
        flags = "".join(letter for bit, letter in FLAGS if frame["tcp.flags"][0] & bit)
        assert (segment["flags"], segment["data"]["length"]) == (flags, frame["tcp.len"][0]), where
        assert segment["data"]["length"] == 0 or segment["data"]["position"] == frame["tcp.seq"][0], where
        assert segment["data"]["length"] > 0 or segment["data"]["place"] is None, where
        told = told_of(segment)
        for field in [MPTCP + "subtype", *NAMES]:
            assert told.get(field, []) == frame[field], f"{where}: {field}: {told.get(field)}, {frame[field]}"
        comment = ",".join(map(str, frame["frame.comment"]))
        fate = segment["fate"]
        arrival = next(word for word in ("lost", "queue full", "repeated", "late", "on time") if word in comment + "on time")
        # What waits for others only, by a rate, is late in the capture, and on time by the script's lines on it.
        assert fate["arrival"] == arrival or (arrival, fate["arrival"]) == ("late", "on time") and waits(run, segment), where
        assert (fate["stripped"], fate["altered"]) == ("stripped" in comment, "altered" in comment), where
        wide = 2 ** 32 if run["script"]["short"] else 2 ** 64
        for option in segment["options"]:
            if option["name"] == "DSS" and option["ack"] is not None:
                assert segment["data"]["acknowledged"] == (int(option["ack"], 16) - first["b" if side == "a" else "a"]) % wide, where
            if option["name"] == "DSS" and option["mapping"] is not None and segment["data"]["length"] > 0 and option["mapping"]["length"] > 0:
                begins = (int(option["mapping"]["number"], 16) - first[side]) % wide
                assert segment["data"]["place"] == begins + segment["data"]["position"] - option["mapping"]["relative"], where


def by_text(run, lines):
    """Each segment has its line, its number in its direction, and the ticks at which it arrives."""
    assert [segment["text"] for segment in run["segments"]] == lines, "texts"
    numbers = {}
    for segment, line in zip(run["segments"], lines):
        way = segment["path"], segment["from"]
        numbers[way] = numbers.get(way, 0) + 1
        assert segment["number"] == numbers[way], line
        note = re.search(r" \(([^)]*)\)$", line)
        note = note[1] if note else ""
        on_time = segment["tick"] + run["script"]["paths"][segment["path"]]["delay"]
        late, again = re.search(r"late by (\d+)", note), re.search(r"repeated after (\d+)", note)
        first = on_time + (int(late[1]) if late else 0)
        ticks = [] if "lost" in note or "queue full" in note else [first] + ([first + int(again[1])] if again else [])
        assert segment["fate"]["ticks"] == [tick for tick in ticks if tick < run["end"]], line


def by_script(run, lines):
    """The settings, the paths, and the other lines by their words, whose last but of path and fault is a tick."""
    told, paths, events = run["script"], [], []
    for words in (line.split() for line in lines[1:]):
        if words[0] in ("seed", "buffer"):
            assert number_of(told[words[0]]) == int(words[1]), words
        elif words[0] in ("checksum", "short"):
            assert told[words[0]] == (words[1] == "on"), words
        elif words[0] == "path":
            fields = dict(zip(words[2::2], words[3::2]))
            paths.append({"mss": int(fields["mss"]), "delay": int(fields["delay"]), "join": int(fields.get("join", 0)), "backup": "backup" in words})
        elif words[0] != "end":
            events.append(words)
    assert told["paths"] == paths, "paths"
    assert len(told["events"]) == len(events), "events"
    for event, words in zip(told["events"], events):
        values = [("on" if value else "off") if isinstance(value, bool) else value for value in event.values() if value is not None]
        ways = [word[0] if word in ("ab", "ba") else word for word in words]
        assert sorted(map(str, values)) == sorted(ways), words


def by_summary(run, lines):
    """The totals of each path and direction."""
    rows = [line.split() for line in lines[1:] if line.split()[0] != "all"]
    assert len(rows) == len(run["totals"]), "totals"
    for row, words in zip(run["totals"], rows):
        octets = row["octets"]
        numbers = [row["first"], row["last"], row["segments"], octets["all"], octets["new"], octets["again"], octets["moved"], row["lost"], row["rate"]["rtt"], row["rate"]["window"]]
        told = [row["path"], "ab" if row["from"] == "a" else "ba", *["-" if number is None else number for number in numbers]]
        assert list(map(str, told)) == [*words[:10], *words[12:14]], words


def main(name):
    """Looks at the JSON of this run."""
    def lines_of(file):
        with open(file, encoding="utf-8") as it:
            return it.read().splitlines()
    with open(f"{name}.json", encoding="utf-8") as it:
        run = json.load(it)
    by_capture(run, f"{name}.capture")
    by_text(run, lines_of(f"{name}.text"))
    by_script(run, [line for line in lines_of(f"{name}/script") if line and not line.startswith("#")])
    by_summary(run, lines_of(f"{name}.summary"))


main(sys.argv[1])
