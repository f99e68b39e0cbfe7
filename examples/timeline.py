#!/usr/bin/env python3
"""Draws the timeline of a flow with its segments and gaps.

    examples/timeline.py http://127.0.0.1:8000 00000000-0000-4000-8000-0000000000f1 timeline.svg

Each segment has a row with its object and its length. Where there are more than a hundred, all stand in one row, and
a viewer shows what a segment is where the pointer rests on it.
"""
import argparse
import sys
import uuid

sys.dont_write_bytecode = True      # the modules', which would lie beside them
from svg_drawing import FAINT, MONO, RED, Drawing, text_width
from tams_client import SECOND, Failure, Store, run, seconds_text, segments_of, timerange_text

WIDTH, LEFT, RIGHT = 1_200, 40, 1_160
AXIS, LANE, ROWS, ROW = 100, 124, 176, 24
MOST_ROWS, MOST_TICKS = 100, 12
BLUES = ('#2f6fb3', '#79a9dc')
GAP = {'fill': '#fdecea', 'line': RED, 'stroke_dasharray': '4 3'}


class Scale:
    """Where points of a timeline stand in the picture."""

    def __init__(self, start, end):
        self.start, self.end = start, end

    def place(self, point):
        return LEFT + (RIGHT - LEFT) * (point - self.start) / (self.end - self.start)

    def ticks(self):
        """The points with a number: round ones, and not too many."""
        step = 1
        while (self.end - self.start) / step > MOST_TICKS:
            step = step * 5 // 2 if str(step)[0] == '2' else step * 2
        first = -(-self.start // step) * step
        return range(first, self.end + 1, step)


def items_of(segments):
    """Segments and the gaps between them, in order: start, end, and the segment or None."""
    last = segments[0].start
    for segment in segments:
        if segment.start > last:
            yield last, segment.start, None
        yield segment.start, segment.end, segment
        last = segment.end


def title_of(flow):
    return flow.get('label') or flow['id']


def about(flow, segments, gaps):
    """The line below the title."""
    parts = [flow['format'].rpartition(':')[2], flow.get('codec'), flow.get('container')]
    counts = f'{len(segments)} segments in {flow["timerange"]}, {gaps} gap{"" if gaps == 1 else "s"}'
    return ' · '.join([part for part in parts if part] + [counts, f'flow {flow["id"]}'])


def draw_axis(drawing, scale, bottom):
    for point in scale.ticks():
        x = scale.place(point)
        drawing.line(x, AXIS, x, bottom, FAINT)
        drawing.text(x, AXIS - 8, f'{point / SECOND:.9f}'.rstrip('0').rstrip('.'), 12, 'middle')
    drawing.line(LEFT, AXIS, RIGHT, AXIS)
    drawing.text(RIGHT, AXIS - 26, 'seconds', 12, 'end')


def draw_bar(drawing, scale, y, height, item, place):
    """A segment or a gap, with its words as a tip."""
    start, end, segment = item
    x, width = scale.place(start), max(scale.place(end) - scale.place(start), 0.5)
    tip = f'{segment.object_id if segment else "gap"}, {timerange_text(start, end)}, {seconds_text(end - start)}'
    if segment:
        drawing.box(x, y, width, height, BLUES[place % 2], '#ffffff' if width > 4 else 'none', tip)
    else:
        drawing.box(x, y, width, height, tip=tip, **GAP)


def draw_row(drawing, scale, y, item, place):
    """An item with its words, behind it where they have room, else before it, else upon it."""
    start, end, segment = item
    draw_bar(drawing, scale, y + 3, ROW - 6, item, place)
    words = f'{segment.object_id if segment else "gap"} · {seconds_text(end - start)}'
    # a white rim keeps the lines of the axis off the words
    more = {'stroke': '#ffffff', 'stroke_width': 4, 'paint_order': 'stroke'} | ({} if segment else {'fill': RED})
    width, baseline = text_width(words, 12) + 8, y + ROW / 2 + 4
    if scale.place(end) + width <= WIDTH:
        drawing.text(scale.place(end) + 6, baseline, words, 12, font=MONO, **more)
    elif scale.place(start) - width >= 0:
        drawing.text(scale.place(start) - 6, baseline, words, 12, 'end', MONO, **more)
    else:
        x = max(scale.place(start), 0) + 6
        drawing.box(x - 3, y + 4, width, ROW - 8, '#ffffff', 'none')
        drawing.text(x, baseline, words, 12, font=MONO, **more)


def draw(flow, segments, path):
    items = list(items_of(segments))
    scale = Scale(segments[0].start, segments[-1].end)
    drawing = Drawing(WIDTH, f'Timeline of {title_of(flow)}')
    drawing.text(LEFT, 36, title_of(flow), 20, font_weight='bold')
    drawing.text(LEFT, 58, about(flow, segments, len(items) - len(segments)), 12)
    has_rows = len(items) <= MOST_ROWS
    draw_axis(drawing, scale, ROWS + ROW * len(items) if has_rows else LANE + 40)
    for place, item in enumerate(items):
        draw_bar(drawing, scale, LANE - 12, 40, item, place)
        if has_rows:
            draw_row(drawing, scale, ROWS + ROW * place, item, place)
    drawing.save(path)


def words_of():
    parser = argparse.ArgumentParser(description='Draws the timeline of a flow with its segments and gaps.')
    parser.add_argument('store', help='its address, as http://127.0.0.1:8000')
    parser.add_argument('flow_id', type=uuid.UUID, help='a UUID')
    parser.add_argument('out', help='the picture that is written, as timeline.svg')
    return parser.parse_args()


def main():
    words = words_of()
    with Store(words.store) as store:
        flow = store.ask('GET', f'/flows/{words.flow_id}')
        segments = list(segments_of(store, flow['id']))
    if not segments:
        raise Failure(f'the flow {flow["id"]} has no segments')
    draw(flow, segments, words.out)


run(main)
