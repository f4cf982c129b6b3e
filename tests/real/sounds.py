"""Sounds that ffmpeg makes."""

from common import COUNT, run


TONE = "sine=frequency=440:duration={}:sample_rate={}"


def make_sounds(kinds):
    for number in range(COUNT):
        ending, *options = kinds[number % len(kinds)]
        rate = (8000, 16000, 48000)[number % 3]
        tone = TONE.format(0.2 + number / 10, rate)
        run(
            "ffmpeg",
            "-v",
            "error",
            "-y",
            "-f",
            "lavfi",
            "-i",
            tone,
            "-metadata",
            f"title=tone {number}",
            *options,
            f"{number:02}.{ending}",
        )
