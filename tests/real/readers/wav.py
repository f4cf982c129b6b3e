"""WAV: sounds that ffmpeg makes, compared with ffprobe and, of 16 bits, with Python's struct."""

import json
import struct
import zlib

from common import COUNT, Format, run
from sounds import TONE


def make_wav():
    """Of each coding of PCM, A-law and ADPCM, of one to six channels, with texts and, to a pipe, without sizes."""
    codings = "pcm_u8 pcm_s16le pcm_s24le pcm_s32le pcm_f32le pcm_f64le pcm_alaw pcm_mulaw".split()
    codings += ["adpcm_ima_wav", "adpcm_ms"]
    for number in range(COUNT):
        coding, name = codings[number % len(codings)], f"{number:02}.wav"
        channels = 1 + number % (2 if coding.startswith("adpcm") else 6)
        more = ["-c:a", coding, "-ac", channels, "-metadata", f"title=tone {number}", "-metadata", "artist=a"]
        tone = TONE.format(0.02 + number / 400, (8000, 11025, 44100, 48000)[number % 4])
        more += ["-bitexact"] if number % 3 else []
        run("ffmpeg", "-v", "error", "-y", "-f", "lavfi", "-i", tone, *more, name)


def wav(value, _):
    head = value["head"]["format"]
    facts = {"channels": head["channels"], "rate": head["frames_a_second"], "bits": head["bits"]}
    facts |= {"coding": head["coding"], "texts": {}}
    data = next(it for it in value["chunks"] if it["kind"] == int.from_bytes(b"data", "big"))
    facts["frames size"] = data["size"]["magnitude"]
    if "of_16_bits" in data and head["bits"] == 16:
        facts["samples"] = zlib.crc32(struct.pack(f"<{len(data['of_16_bits'])}h", *data["of_16_bits"]))
    for it in value["before"] + value["chunks"]:
        for of in it.get("list", {}).get("info", {}).get("texts", []):
            facts["texts"][bytes(of["name"]).decode()] = bytes(of["text"]).rstrip(b"\0").decode()
    return facts


def wav_by_tool(file):
    """The samples and their size by Python's struct."""
    told = json.loads(run("ffprobe", "-v", "error", "-of", "json", "-show_streams", "-show_format", file))
    stream, tags = told["streams"][0], told["format"].get("tags", {})
    names = {"title": "INAM", "artist": "IART", "encoder": "ISFT"}
    facts = {"channels": stream["channels"], "rate": int(stream["sample_rate"]), "bits": stream["bits_per_sample"]}
    facts["texts"] = {names[key]: it for key, it in tags.items() if key in names}
    with open(file, "rb") as sound:
        data = sound.read()
    at = 12
    while at < len(data):
        name, size = struct.unpack_from("<4sI", data, at)
        if name == b"fmt ":
            (facts["coding"],) = struct.unpack_from("<H", data, at + 8)
        if name == b"data":
            facts["frames size"] = size
            if stream["codec_name"] == "pcm_s16le":
                facts["samples"] = zlib.crc32(data[at + 8 : at + 8 + size])
        at += 8 + size + size % 2
    return facts


FORMATS = {"wav": Format("wav", "Wav", make_wav, wav, wav_by_tool, ("--endian", "little"))}
