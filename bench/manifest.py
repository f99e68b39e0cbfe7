#!/usr/bin/env python3
"""How long `tams manifest` takes for a flow of so many segments, and how much memory, beside the opening of the store: that
is `manifest` of no range. `check`, which opens the store and reads its one small object, stands beside both.

    bench/manifest.py [SEGMENTS [ROUNDS]]

All segments name one object, under an id as long as those of the examples. Each round runs all in turn, and writes the
playlist into a file; the best round of each counts. The memory is the most that a run had, in its best round. What is
behind the opening is the difference of the two. Beside them stands the HLS muxer of ffmpeg, where it is on the path: it
copies a film of 2,000 frames into as many segments of a second each, and writes their playlist at the end. Its time is
scaled to so many segments; it writes the segments too.

The program has to be built: `cd crates/tams && rt run`; TAMS names another one. Files lie in BENCH_FOLDER, where it is set.
It needs Python's standard library.
"""
import os
import shutil
import subprocess
import sys
import tempfile
import time

HERE = os.path.dirname(os.path.abspath(__file__))
TAMS = os.environ.get("TAMS") or os.path.join(HERE, "..", "crates", "tams", "out", "tams")
STORE_ID = "00000000-0000-4000-8000-000000000001"
FLOW = "00000000-0000-4000-8000-0000000000f1"
BODY = b'{"source_id":"00000000-0000-4000-8000-0000000000a1","format":"urn:x-nmos:format:video"}'
OBJECT, BASE = f"{FLOW}.100000.0.ts", "http://127.0.0.1:8080"
# bytes of a block; those that a segment's record takes at most; the most segments of a list; the frames of ffmpeg's film
BLOCK, RECORD, LIST, FRAMES = 4096, 128, 1_000, 2_000


def asked(method, target, body):
    return f"{method} {target} HTTP/1.1\r\nContent-Length: {len(body)}\r\n\r\n".encode() + body


def requests(segments):
    """A flow, an object, and so many segments of two seconds each that name it."""
    yield asked("PUT", f"/flows/{FLOW}", BODY)
    yield asked("POST", f"/flows/{FLOW}/storage", b'{"object_ids":["%s"]}' % OBJECT.encode())
    yield asked("PUT", f"/media/{OBJECT}", b"abc")
    for first in range(0, segments, LIST):
        list_of = [f'{{"object_id":"{OBJECT}","timerange":"[{2 * place}:0_{2 * place + 2}:0)"}}'
                   for place in range(first, min(first + LIST, segments))]
        yield asked("POST", f"/flows/{FLOW}/segments", f'[{",".join(list_of)}]'.encode())


def made(folder, segments):
    """The path of a store with so many segments."""
    path, half = os.path.join(folder, "store"), segments * RECORD // BLOCK + 2
    words = [TAMS, "format", path, str(2 * half + 3), str(half), STORE_ID]
    subprocess.run(words, check=True, capture_output=True)
    with open(os.path.join(folder, "requests"), "w+b") as file:
        file.writelines(requests(segments))
        file.seek(0)
        subprocess.run([TAMS, "replay", path, BASE], stdin=file, check=True, capture_output=True)
    return path


def run(words, out):
    """The seconds of a program that writes into a file, and the most KiB that it had."""
    with open(out, "wb") as file:
        start = time.monotonic()
        with subprocess.Popen(words, stdin=subprocess.DEVNULL, stdout=file, stderr=subprocess.DEVNULL) as program:
            _, status, used = os.wait4(program.pid, 0)
            program.returncode = os.waitstatus_to_exitcode(status)
        seconds = time.monotonic() - start
    if program.returncode:
        sys.exit(f"{words[1]}: status {program.returncode}")
    return seconds, used.ru_maxrss


def muxed(folder, film):
    """The seconds of ffmpeg for a playlist of the film."""
    words = ["ffmpeg", "-v", "error", "-y", "-i", film, "-c", "copy", "-f", "hls", "-hls_time", "1",
             "-hls_playlist_type", "vod", os.path.join(folder, "film.m3u8")]
    seconds, _ = run(words, os.devnull)
    with open(os.path.join(folder, "film.m3u8"), encoding="utf-8") as file:
        found = file.read().count("#EXTINF:")
    if found != FRAMES:
        sys.exit(f"ffmpeg: {found} segments, not {FRAMES}")
    return seconds


def filmed(folder):
    """The path of a film of one frame a second, each of which is a key frame."""
    path = os.path.join(folder, "film.ts")
    words = ["ffmpeg", "-v", "error", "-f", "lavfi", "-i", f"color=size=64x64:rate=1:duration={FRAMES}", "-c:v", "mpeg2video",
             "-g", "1", path]
    subprocess.run(words, check=True)
    return path


def print_results(best, text, segments):
    (opening, opening_memory), (whole, whole_memory) = best["opening"], best["manifest"]
    for name, (seconds, memory) in best.items():
        print(f"{name}: {seconds:.3f} s" + (f", {memory} KiB" if memory else ""))
    print(f"behind the opening: {whole - opening:.3f} s; manifest takes {whole / opening:.2f} of the opening's time, and"
          f" {whole / best['check'][0]:.2f} of check's")
    print(f"memory behind the opening: {(whole_memory - opening_memory) * 1024 / text:.2f} times the {text} bytes of text")
    if "ffmpeg" in best:
        scaled = best["ffmpeg"][0] * segments / FRAMES
        print(f"ffmpeg: {scaled:.1f} s for {segments} segments, {scaled / whole:.1f} times all of manifest")


def main():
    segments = int(sys.argv[1]) if len(sys.argv) > 1 else 100_000
    rounds = int(sys.argv[2]) if len(sys.argv) > 2 else 5
    best = {}
    with tempfile.TemporaryDirectory(dir=os.environ.get("BENCH_FOLDER")) as folder:
        path, out = made(folder, segments), os.path.join(folder, "out")
        film = filmed(folder) if shutil.which("ffmpeg") else None
        for _ in range(rounds):
            for name, words in (("check", ["check", path]), ("opening", ["manifest", path, BASE, FLOW, "()"]),
                                ("manifest", ["manifest", path, BASE, FLOW, "_"])):
                best[name] = min(run([TAMS, *words], out), best.get(name, (float("inf"), 0)))
            if film:
                best["ffmpeg"] = min((muxed(folder, film), 0), best.get("ffmpeg", (float("inf"), 0)))
        text = os.path.getsize(out)
        with open(out, "rb") as file:
            found = file.read().count(b"#EXTINF:2.000000000,\n")
    if found != segments:
        sys.exit(f"unexpected: {found} entries")
    print_results(best, text, segments)
    print(f"best of {rounds} rounds of {segments} segments")


if __name__ == "__main__":
    main()
