#!/usr/bin/env python3
"""Fetches a stretch of a flow's timeline, and writes it as a file that a player plays.

    examples/fetch.py http://127.0.0.1:8000 00000000-0000-4000-8000-0000000000f1 '[2:0_7:0)' out.mp4

It needs ffmpeg. What is written has just the frames whose times lie in the timerange, encoded anew in what the ending
of the file's name asks for. Where the timeline has a gap, the file goes on with what comes behind it, and the gap is
told on standard error.

The objects lie in a folder beside the file until it is written. So a run that was broken off fetches none of them
twice when it is started again.
"""
import argparse
import hashlib
import os
import shutil
import sys
import uuid

sys.dont_write_bytecode = True      # the module's, which would lie beside it
from tams_client import SECOND, Failure, Progress, Store, run, run_tool, seconds_text, segments_of, timerange_of
from tams_client import timerange_text, timestamp_text

MULTI, JOINED = 'urn:x-nmos:format:multi', 'video/mp2t'
# sound may stand a little behind the pictures of the same time, and so in the segment behind the last
BEHIND = SECOND
ENCODERS = {ending: ['-c:v', 'libx264', '-preset', 'veryfast', '-crf', '18', '-c:a', 'aac']
            for ending in ('.mp4', '.mov', '.mkv', '.ts')}
# files of these endings get no pictures
SOUND = {'.wav', '.mp3', '.m4a', '.aac', '.flac', '.ogg', '.opus'}


# ---- the timeline


def found_segments(store, flow, start, end):
    """The segments that a stretch touches. Of pictures with sound, also what stands right behind it."""
    last = None if end is None else end + (BEHIND if flow['format'] == MULTI else 0)
    if start is not None and last is not None and start >= last:
        return []
    texts = ('' if point is None else timestamp_text(point) for point in (start, last))
    opening, closing = '[' if start is not None else '', ')' if last is not None else ''
    return list(segments_of(store, flow['id'], opening + '_'.join(texts) + closing))


def runs_of(segments, joined):
    """Segments that follow one another without a gap and are one cut: their bytes are joined."""
    runs = []
    for segment in segments:
        last = runs[-1][-1] if runs else None
        if joined and last and (last.end, last.ts_offset) == (segment.start, segment.ts_offset):
            runs[-1].append(segment)
        else:
            runs.append([segment])
    return runs


def clipped(runs, start, end):
    """The runs with the stretch that is wanted of each; those with none are left out."""
    for segments in runs:
        first, behind = segments[0].start, segments[-1].end
        first = first if start is None else max(first, start)
        behind = behind if end is None else min(behind, end)
        if first < behind:
            yield segments, first, behind


def gaps_of(stretches, start, end):
    """The gaps in a timerange, by the stretches that are there."""
    last = stretches[0][0] if start is None else start
    for first, behind in stretches:
        if last < first:
            yield last, first
        last = behind
    if end is not None and last < end:
        yield last, end


# ---- the files


def file_of(segment, folder):
    """Where an object's bytes lie. An object keeps its bytes, so a file that has its name is right for good."""
    return os.path.join(folder, hashlib.sha256(segment.address.encode()).hexdigest()[:32])


def fetch_objects(store, segments, folder, progress):
    """Fetches what isn't there, and says how many objects that were."""
    objects = {file_of(segment, folder): segment for segment in segments}
    count = 0
    for place, (path, segment) in enumerate(objects.items(), 1):
        if not os.path.exists(path):
            store.get_file(segment.address, path)
            count += 1
        progress.show(f'fetched {place} of {len(objects)} objects')
    progress.done()
    return count


def join(segments, folder):
    """A file with the bytes of all these segments."""
    path = os.path.join(folder, 'joined')
    with open(path, 'wb') as file:
        for segment in segments:
            with open(file_of(segment, folder), 'rb') as piece:
                shutil.copyfileobj(piece, file)
    return path


def seconds_of(count):
    """Nanoseconds as ffmpeg reads times."""
    return f'{"-" if count < 0 else ""}{abs(count) // SECOND}.{abs(count) % SECOND:09d}'


def cut(segments, first, behind, folder, made):
    """Writes what one run has of a stretch. Its objects' times and `ts_offset` add up to those of the timeline."""
    ending = os.path.splitext(made)[1].lower()
    start, end = (seconds_of(point - segments[0].ts_offset) for point in (first, behind))
    # pictures are taken or left whole, and sound by samples
    pictures = ['-map', '0:v?', '-filter:v', f'select=gte(t\\,{start})*lt(t\\,{end}),setpts=PTS-({start})/TB']
    run_tool(['ffmpeg', '-v', 'error', '-nostdin', '-y', '-copyts', '-i', f'file:{join(segments, folder)}',
              *([] if ending in SOUND else pictures),
              '-map', '0:a?', '-filter:a', f'atrim=start={start}:end={end},asetpts=PTS-({start})/TB',
              *ENCODERS.get(ending, []), f'file:{made}'])
    told = run_tool(['ffprobe', '-v', 'error', '-show_entries', 'packet=size', '-read_intervals', '%+#1',
                     '-of', 'csv=p=0', f'file:{made}'])
    if not told.strip():
        raise Failure(f'no frame lies in {timerange_text(first, behind)}')


def write(wanted, folder, out, progress):
    """Writes the file, from a piece for each run. Pieces of sound are put together before they are encoded."""
    ending, pieces = os.path.splitext(out)[1], []
    is_sound = ending.lower() in SOUND
    of_piece = '.wav' if is_sound and len(wanted) > 1 else ending
    for place, (segments, first, behind) in enumerate(wanted, 1):
        progress.show(f'cutting {place} of {len(wanted)} pieces')
        pieces.append(os.path.join(folder, f'piece_{place}{of_piece}'))
        cut(segments, first, behind, folder, pieces[-1])
    progress.done()
    made = pieces[0]
    if len(pieces) > 1:
        made = os.path.join(folder, f'made{ending}')
        listed = os.path.join(folder, 'pieces')
        with open(listed, 'w', encoding='utf-8') as file:
            for piece, (_, first, behind) in zip(pieces, wanted):
                file.write(f'file {os.path.basename(piece)}\nduration {seconds_of(behind - first)}\n')
        run_tool(['ffmpeg', '-v', 'error', '-nostdin', '-y', '-f', 'concat', '-i', f'file:{listed}', '-map', '0',
                  *([] if is_sound else ['-c', 'copy']), f'file:{made}'])
    os.replace(made, out)


def fetch(words, progress):
    start, end = timerange_of(words.timerange)
    with Store(words.store) as store:
        flow = store.ask('GET', f'/flows/{words.flow_id}')
        segments = found_segments(store, flow, start, end)
        wanted = list(clipped(runs_of(segments, flow.get('container') == JOINED), start, end))
        if not wanted:
            raise Failure(f'the flow has nothing there; it has segments in {flow["timerange"]}')
        for gap in gaps_of([stretch for _, *stretch in wanted], start, end):
            progress.tell(f'gap: nothing in {timerange_text(*gap)}, {seconds_text(gap[1] - gap[0])}')
        folder = f'{words.out}.parts'
        os.makedirs(folder, exist_ok=True)
        count = fetch_objects(store, [segment for segments, *_ in wanted for segment in segments], folder, progress)
    write(wanted, folder, words.out, progress)
    shutil.rmtree(folder)
    length = sum(behind - first for _, first, behind in wanted)
    progress.note(f'{words.out}: {seconds_text(length)}, {count} objects fetched')


def words_of():
    parser = argparse.ArgumentParser(description="Fetches a stretch of a flow's timeline as a file for a player.")
    parser.add_argument('store', help='its address, as http://127.0.0.1:8000')
    parser.add_argument('flow_id', type=uuid.UUID, help='a UUID')
    parser.add_argument('timerange', help="as '[2:0_7:0)'; '_' is all of the timeline")
    parser.add_argument('out', help='the file that is written; its ending says what is in it, as .mp4 or .wav')
    parser.add_argument('--quiet', action='store_true', help='says nothing but gaps where all goes well')
    return parser.parse_args()


def main():
    words = words_of()
    fetch(words, Progress(words.quiet))


run(main)
