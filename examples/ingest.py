#!/usr/bin/env python3
"""Cuts a media file into segments of MPEG-TS, and stores them as a flow.

    examples/ingest.py http://127.0.0.1:8000 00000000-0000-4000-8000-0000000000f1 film.mp4

It needs ffmpeg and ffprobe. Streams that MPEG-TS holds are copied and cut at their key frames; others are encoded
anew. The first picture stream gives the times, or the first sound stream where there is none: a segment goes from its
first frame to the first frame of the next one.

The cut files lie in a folder beside the input until all is stored. So a run that was broken off at any point goes on
with the same bytes when it is started again, and a run behind the last one finds all there and changes nothing.
"""
import argparse
import collections
import concurrent.futures
import contextlib
import fcntl
import json
import os
import shutil
import subprocess
import sys
import tempfile
import uuid

sys.dont_write_bytecode = True      # the module's, which would lie beside it
from tams_client import HINTS, SECOND, Failure, Progress, Segment, Store, quoted, run, run_tool, seconds_text
from tams_client import segments_of, timerange_text, timestamp_of, timestamp_text

# MPEG-TS counts 90,000 ticks a second, and begins anew behind 2^33 of them
TICKS, WRAP = 90_000, 1 << 33
LARGEST = 1_073_741_824
BATCH = 20
FORMATS = {'video': 'urn:x-nmos:format:video', 'audio': 'urn:x-nmos:format:audio', 'multi': 'urn:x-nmos:format:multi'}
# codecs that are copied, with the names under which a flow has them
CODECS = {'h264': 'video/h264', 'hevc': 'video/h265', 'mpeg2video': 'video/mpeg', 'aac': 'audio/aac',
          'mp2': 'audio/mpeg', 'mp3': 'audio/mpeg', 'ac3': 'audio/ac3', 'eac3': 'audio/eac3'}
# how others are encoded. With more than one thread the bytes are not the same each time
ENCODED = {'video': ['libx264', '-preset', 'veryfast', '-crf', '18', '-pix_fmt', 'yuv420p'],
           'audio': ['aac', '-b:a', '192k']}
THREADS = '1'
# so many cut files are looked at while others are cut
PROBES = 4
# the encoder takes even sizes alone
EVEN = 'pad=ceil(iw/2)*2:ceil(ih/2)*2'

# a cut file: its first and last tick as it has them, the ticks of its last frame, its frames and key frames, and
# whether it can be shown without the file before it
Piece = collections.namedtuple('Piece', 'name length first last last_length frames key_frames alone')
# what is stored of a piece
Stored = collections.namedtuple('Stored', 'segment path length details')


# ---- the input


def probed(path):
    """The streams of a file, as ffprobe shows them: pictures, then sound, then what is neither."""
    shown = json.loads(run_tool(['ffprobe', '-v', 'error', '-show_streams', '-of', 'json', f'file:{path}']))['streams']
    kinds = {'video': 0, 'audio': 1}
    cover = [stream for stream in shown if stream['disposition'].get('attached_pic')]
    shown = [stream for stream in shown if stream not in cover]
    shown.sort(key=lambda stream: kinds.get(stream.get('codec_type'), 2))
    return shown + cover


def streams_of(path, progress):
    """The streams that are stored: the first picture, and all sound."""
    shown = probed(path)
    streams = [stream for stream in shown if stream.get('codec_type') in ('video', 'audio')
               and not stream['disposition'].get('attached_pic')
               and (stream['codec_type'] == 'audio' or stream is shown[0])]
    for stream in shown:
        if stream not in streams:
            progress.tell(f'left out: stream {stream["index"]}'
                          f' ({stream.get("codec_type", "unknown")}, {stream.get("codec_name", "unknown")})')
    if not streams:
        raise Failure(f'{path}: it has neither picture nor sound')
    return streams


def format_of(streams):
    kinds = {stream['codec_type'] for stream in streams}
    return 'multi' if len(kinds) == 2 else kinds.pop()


def is_copied(stream):
    """MPEG-TS holds its codec. It has no place for a turn of the picture."""
    return stream['codec_name'] in CODECS and not any('rotation' in data for data in stream.get('side_data_list', []))


def flow_of(piece, source_id, label):
    """The body of the flow, by its first piece. Its numbers are whole: a store takes no others."""
    streams = probed(piece)
    body = {'source_id': source_id, 'format': FORMATS[format_of(streams)], 'container': 'video/mp2t', 'label': label}
    if len(streams) == 1:
        body['codec'] = CODECS[streams[0]['codec_name']]
    essence = {}
    for stream in reversed(streams):
        if stream['codec_type'] == 'audio':
            essence |= {'sample_rate': int(stream['sample_rate']), 'channels': stream['channels']}
        else:
            numerator, denominator = (int(part) for part in stream['r_frame_rate'].split('/'))
            essence |= {'frame_width': stream['width'], 'frame_height': stream['height'],
                        'frame_rate': {'numerator': numerator, 'denominator': denominator}}
    return body | {'essence_parameters': essence}


# ---- the cut


def cut_words(path, streams, seconds, encoded):
    """The words of the cut. No date or version goes into the bytes, and so they are the same each time."""
    words = ['ffmpeg', '-v', 'error', '-nostdin', '-i', f'file:{os.path.abspath(path)}', '-fflags', '+bitexact']
    for place, stream in enumerate(streams):
        words += ['-map', f'0:{stream["index"]}', f'-c:{place}']
        if is_copied(stream) and not encoded:
            words += ['copy']
            continue
        words += ENCODED[stream['codec_type']] + [f'-flags:{place}', '+bitexact+cgop', f'-threads:{place}', THREADS]
        if stream['codec_type'] == 'video':
            words += [f'-force_key_frames:{place}', f'expr:gte(t,n_forced*{seconds})', f'-filter:{place}', EVEN]
    return words + ['-f', 'segment', '-segment_format', 'mpegts', '-individual_header_trailer', '0', '-segment_time',
                    str(seconds), '-segment_list', 'pipe:1', '-segment_list_type', 'csv', '%06d.ts']


def piece_of(path, kind):
    """What ffprobe says of a cut file, by the frames of its first stream of this kind."""
    told = run_tool(['ffprobe', '-v', 'error', '-select_streams', f'{kind}:0', '-show_entries',
                     'packet=pts,duration,flags', '-of', 'json', f'file:{path}'])
    packets = [packet for packet in json.loads(told)['packets'] if 'pts' in packet]
    if not packets:
        raise Failure(f'{path}: ffprobe finds no times in it')
    ticks = sorted(packet['pts'] for packet in packets)
    # the decoder's own words for the last frame, or the length of the one before
    last_length = next((packet['duration'] for packet in packets if packet['pts'] == ticks[-1]
                        and packet.get('duration')), ticks[-1] - ticks[-2] if len(ticks) > 1 else 1)
    first = packets[0]
    return Piece(os.path.basename(path), os.path.getsize(path), ticks[0], ticks[-1], last_length, len(ticks),
                 sum('K' in packet['flags'] for packet in packets), first['pts'] == ticks[0] and 'K' in first['flags'])


def cut(path, streams, seconds, encoded, folder, progress):
    """The pieces of a file, in order. Each is looked at as soon as it is whole."""
    kind = 'a' if format_of(streams) == 'audio' else 'v'
    words, found = cut_words(path, streams, seconds, encoded), []
    with (tempfile.TemporaryFile() as complaint, concurrent.futures.ThreadPoolExecutor(PROBES) as pool,
          subprocess.Popen(words, stdin=subprocess.DEVNULL, stdout=subprocess.PIPE, stderr=complaint,
                           cwd=folder) as tool):
        for line in tool.stdout:
            name = line.decode().split(',')[0]
            found.append(pool.submit(piece_of, os.path.join(folder, name), kind))
            progress.show(f'cut {len(found)} segments')
        if tool.wait():
            complaint.seek(0)
            raise Failure(f'ffmpeg failed: {complaint.read().decode(errors="replace").strip()}')
    progress.done()
    if not found:
        raise Failure(f'{path}: ffmpeg finds no frame in it')
    return [piece.result() for piece in found]


def why_encode(pieces):
    """Why copied pieces don't do, or nothing."""
    if not all(piece.alone for piece in pieces):
        return 'its frames need others before their key frame'
    if any(piece.length > LARGEST for piece in pieces):
        return 'its key frames are too far apart for the largest object'
    return None


def cut_once(path, streams, words, work, progress):
    """What is kept of a whole cut: the folder of its files, and its pieces."""
    encoded = words.encode
    for stream in streams:
        if encoded or not is_copied(stream):
            progress.note(f'encoded: stream {stream["index"]} ({stream["codec_type"]}, {stream["codec_name"]})')
    for _ in range(2):
        folder = tempfile.mkdtemp(prefix='cut_', dir=work)
        pieces = cut(path, streams, words.seconds, encoded, folder, progress)
        reason = why_encode(pieces)
        if not reason or encoded:
            break
        progress.note(f'encoded anew: {reason}')
        encoded = True
    if reason:
        raise Failure(f'{path}: {reason}, encoded or not; take fewer --seconds')
    return {'folder': os.path.basename(folder), 'pieces': pieces}


def kept_cut(path, streams, words, work, progress):
    """The whole cut that lies in the work folder; else a new one. A run that was broken off may have left a tool at
    work, so each try has a folder of its own, and the list of its pieces comes last, in one step."""
    looked = os.stat(path)
    settings = [looked.st_size, looked.st_mtime_ns, words.seconds, words.encode]
    listed = os.path.join(work, 'cut.json')
    if os.path.exists(listed):
        with open(listed, encoding='utf-8') as file:
            kept = json.load(file)
        if kept['settings'] == settings:
            return kept | {'pieces': [Piece(*piece) for piece in kept['pieces']]}
        os.remove(listed)
    for name in os.listdir(work):
        if name.startswith('cut_'):
            shutil.rmtree(os.path.join(work, name), ignore_errors=True)
    made = cut_once(path, streams, words, work, progress) | {'settings': settings}
    with open(listed + '.part', 'w', encoding='utf-8') as file:
        json.dump(made, file)
    os.replace(listed + '.part', listed)
    return made


def remove_work(work):
    """The list goes first: without it, the files count for nothing."""
    os.remove(os.path.join(work, 'cut.json'))
    shutil.rmtree(work, ignore_errors=True)


# ---- the timeline


def nanoseconds(ticks):
    return ticks * SECOND // TICKS


def starts_of(pieces):
    """The first tick of each piece and the tick behind the last one, as if the count never began anew."""
    starts = []
    for piece in pieces:
        near = starts[-1] if starts else piece.first
        starts.append(piece.first + round((near - piece.first) / WRAP) * WRAP)
    last = pieces[-1]
    starts.append(starts[-1] + last.last - last.first + last.last_length)
    if any(after <= before for before, after in zip(starts, starts[1:])):
        raise Failure('the times of the file go back; try --encode')
    return starts


def timeline_of(pieces, flow_id, start, folder, is_video):
    """What is to be stored: each segment ends where the next one starts."""
    starts, timeline = starts_of(pieces), []
    shift = start - nanoseconds(starts[0])
    for piece, first, behind in zip(pieces, starts, starts[1:]):
        begin, end = nanoseconds(first) + shift, nanoseconds(behind) + shift
        object_id = f'{flow_id}.{timestamp_text(begin).replace(":", ".")}.ts'
        last_duration = end - begin - nanoseconds(piece.last - piece.first)
        if last_duration < 0:
            raise Failure('the times of the file go back; try --encode')
        details = {'last_duration': timestamp_text(last_duration)}
        if is_video:
            details |= {'sample_count': piece.frames, 'key_frame_count': piece.key_frames}
        segment = Segment(object_id, begin, end, begin - nanoseconds(piece.first), None)
        timeline.append(Stored(segment, os.path.join(folder, piece.name), piece.length, details))
    return timeline


# ---- the store


def flow_there(store, flow_id, streams, source_id):
    """Whether the flow is there already. One of another kind is a failure, and is told before the long work."""
    flow = store.find(f'/flows/{quoted(flow_id)}', 'NoFlow')
    wanted = FORMATS[format_of(streams)]
    if flow and flow['format'] != wanted:
        raise Failure(f'the flow {flow_id} has the format {flow["format"]}, and the file {wanted}')
    if flow and source_id and flow['source_id'] != source_id:
        raise Failure(f'the flow {flow_id} has the source {flow["source_id"]}')
    return bool(flow)


def shown_objects(store, flow_id, batch):
    """What the store shows of the objects of a batch, and the addresses of those that it didn't know."""
    names = [stored.segment.object_id for stored in batch]
    shown = {name: store.find(f'/objects/{quoted(name)}', 'UnknownObject') for name in names}
    unknown = [name for name in names if not shown[name]]
    if not unknown:
        return shown, {}
    made = store.ask('POST', f'/flows/{quoted(flow_id)}/storage', {'object_ids': unknown})
    return shown, {each['object_id']: each['put_url']['url'] for each in made['media_objects']}


def put_object(store, stored, shown, address):
    """Puts the bytes of an object, unless the store shows that it has them. Says whether they were put."""
    name = stored.segment.object_id
    if shown and shown['stored']:
        if shown['length'] != stored.length:
            raise Failure(f'the object {name} has {shown["length"]} bytes in the store, and {stored.length} here'
                          '\n  it was cut in another way: take the same --seconds and ffmpeg')
        return False
    store.put_file(address or store.media_address(name), stored.path)
    return True


def body_of(stored):
    """A segment as it is posted."""
    segment = stored.segment
    return {'object_id': segment.object_id, 'timerange': timerange_text(segment.start, segment.end),
            'ts_offset': timestamp_text(segment.ts_offset)} | stored.details


def segments_there(store, flow_id, timeline):
    """Those of the segments that the flow has already. Where others lie among them, nothing is stored."""
    span = timerange_text(timeline[0].segment.start, timeline[-1].segment.end)
    there = {segment[:3] for segment in segments_of(store, flow_id, span)}
    others = there - {stored.segment[:3] for stored in timeline}
    if others:
        object_id, start, end = min(others, key=lambda other: other[1])
        raise Failure(f'the flow has {object_id} in {timerange_text(start, end)}, which is no part of this cut'
                      '\n  ' + HINTS['Overlap'])
    return there


def store_all(store, flow_id, timeline, progress):
    """Stores what isn't there, and says how many objects and segments that were."""
    there = segments_there(store, flow_id, timeline)
    objects = segments = 0
    for first in range(0, len(timeline), BATCH):
        batch = timeline[first:first + BATCH]
        shown, addresses = shown_objects(store, flow_id, batch)
        for place, stored in enumerate(batch, first + 1):
            name = stored.segment.object_id
            objects += put_object(store, stored, shown[name], addresses.get(name))
            progress.show(f'stored {place} of {len(timeline)} segments')
        absent = [body_of(stored) for stored in batch if stored.segment[:3] not in there]
        if absent:
            store.ask('POST', f'/flows/{quoted(flow_id)}/segments', absent)
        segments += len(absent)
    progress.done()
    return objects, segments


def ingest(words, work, progress):
    flow_id, start = str(words.flow_id), timestamp_of(words.start)
    streams = streams_of(words.file, progress)
    with Store(words.store) as store:
        there = flow_there(store, flow_id, streams, words.source and str(words.source))
        # others may be served while the file is cut
        store.close()
        kept = kept_cut(words.file, streams, words, work, progress)
        timeline = timeline_of(kept['pieces'], flow_id, start, os.path.join(work, kept['folder']),
                               format_of(streams) == 'video')
        if not there:
            source_id = str(words.source or uuid.uuid5(words.flow_id, 'source'))
            store.ask('PUT', f'/flows/{flow_id}', flow_of(timeline[0].path, source_id, os.path.basename(words.file)))
        objects, segments = store_all(store, flow_id, timeline, progress)
    remove_work(work)
    longest = max(stored.segment.end - stored.segment.start for stored in timeline)
    progress.note(f'segments: {len(timeline)} in {timerange_text(start, timeline[-1].segment.end)}, the longest'
                  f' {seconds_text(longest)}; new: {objects} objects, {segments} segments')


def words_of():
    parser = argparse.ArgumentParser(description='Cuts a media file into segments, and stores them as a flow.')
    parser.add_argument('store', help='its address, as http://127.0.0.1:8000')
    parser.add_argument('flow_id', type=uuid.UUID, help='a UUID; the flow is made where it is not there')
    parser.add_argument('file', help='any file that ffmpeg reads')
    parser.add_argument('--source', type=uuid.UUID, help='the source of a new flow; made from its id where absent')
    parser.add_argument('--start', default='0:0', metavar='TIMESTAMP',
                        help='where the file starts on the timeline, as --start=10:500000000; 0:0 where absent')
    parser.add_argument('--seconds', type=float, default=2, help='length of a segment, at least up to a key frame')
    parser.add_argument('--encode', action='store_true', help='encodes anew, so that segments have just this length')
    parser.add_argument('--work', help='folder of the cut files; FILE.FLOW_ID.cut where absent')
    parser.add_argument('--quiet', action='store_true', help='says nothing where all goes well')
    words = parser.parse_args()
    if not words.seconds > 0:
        parser.error('--seconds is above 0')
    return words


def main():
    words = words_of()
    if not os.path.isfile(words.file):
        raise Failure(f'{words.file}: no such file')
    work = words.work or f'{words.file}.{words.flow_id}.cut'
    os.makedirs(work, exist_ok=True)
    folder = os.open(work, os.O_RDONLY)
    try:
        fcntl.flock(folder, fcntl.LOCK_EX | fcntl.LOCK_NB)
        ingest(words, work, Progress(words.quiet))
    except BlockingIOError as fault:
        raise Failure(f'{work}: another run is at work with it') from fault
    finally:
        # it stays where something is kept in it
        with contextlib.suppress(OSError):
            os.rmdir(work)


run(main)
