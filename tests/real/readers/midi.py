"""MIDI: files that csvmidi makes, compared with midicsv."""

import os
import random
import re

from common import COUNT, Format, run


def make_midi():
    """Of one or several tracks, of each kind of event, texts and messages of other makers."""
    for number in range(COUNT):
        tracks = 1 + number % 5
        lines = [f"0, 0, Header, {1 if tracks > 1 else 0}, {tracks}, {(96, 480, 25)[number % 3]}"]
        for track in range(1, tracks + 1):
            lines += [f"{track}, 0, Start_track", f'{track}, 0, Title_t, "track {track}"']
            lines += [f"{track}, 0, Tempo, {500000 + number}", f"{track}, 0, Time_signature, 3, 2, 24, 8"]
            lines += [f"{track}, 0, Key_signature, {number % 7}, \"major\"", f'{track}, 0, Lyric_t, "{"la " * number}"']
            at = 0
            for _ in range(number * 7):
                at += random.choice((0, 0, 5, 127, 128, 20000))
                lines.append(f"{track}, {at}, {event(random.randrange(9))}")
            lines.append(f"{track}, {at}, End_track")
        lines.append("0, 0, End_of_file")
        with open("from.csv", "w") as file:
            file.write("\n".join(lines) + "\n")
        run("csvmidi", "from.csv", f"{number:02}.mid")
    os.remove("from.csv")


def event(kind):
    channel, first, second = random.randrange(16), random.randrange(128), random.randrange(128)
    return (
        f"Note_on_c, {channel}, {first}, {second}",
        f"Note_off_c, {channel}, {first}, {second}",
        f"Note_on_c, {channel}, {first}, 0",
        f"Control_c, {channel}, {first}, {second}",
        f"Program_c, {channel}, {first}",
        f"Pitch_bend_c, {channel}, {second << 7 | first}",
        f"Channel_aftertouch_c, {channel}, {first}",
        f"Poly_aftertouch_c, {channel}, {first}, {second}",
        f"System_exclusive, 3, 126, {first}, 247",
    )[kind]


KINDS = {8: "Note_off_c", 9: "Note_on_c", 10: "Poly_aftertouch_c", 11: "Control_c", 12: "Program_c"}
KINDS |= {13: "Channel_aftertouch_c", 14: "Pitch_bend_c"}


def number_of(it):
    """A number in groups of 7 bits."""
    value = 0
    for group in it.values():
        value = value << 7 | group & 127
    return value


def events(track):
    """The time, kind, channel and numbers of each event of a channel, and the time of each other one."""
    at = 0
    for it in track["events"]:
        at += number_of(it["wait"])
        if "one" not in it and "two" not in it:
            yield at, "other"
            continue
        kind, channel = KINDS[it["kind"] >> 4], it["kind"] & 15
        first = it.get("one") or it["two"]
        for of in [first, *first["again"]]:
            at += number_of(of["wait"]) if "wait" in of else 0
            values = [of["value"]] if "value" in of else [of["first"], of["second"]]
            yield at, kind, channel, *([values[1] << 7 | values[0]] if kind == "Pitch_bend_c" else values)


def midi(value, _):
    facts = {"header": [value["form"], value["track_count"], value["division"]]}
    for number, it in enumerate(value["tracks"], 1):
        facts[f"track {number}"] = list(events(it))
    return facts


def midi_by_tool(file):
    facts = {}
    for line in run("midicsv", file).splitlines():
        track, at, kind, *values = re.split(", ", line, maxsplit=3)
        if kind == "Header":
            facts["header"] = [int(it) for it in values[0].split(", ")]
        elif track != "0" and kind != "Start_track":
            numbers = [int(it) for it in values[0].split(", ")] if kind in KINDS.values() else []
            facts.setdefault(f"track {track}", []).append((int(at), kind if numbers else "other", *numbers))
    return facts


FORMATS = {"midi": Format("midi", "Midi", make_midi, midi, midi_by_tool)}
