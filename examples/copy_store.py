#!/usr/bin/env python3
"""Copies all that one store shows into another, larger one. Both are served meanwhile.

    examples/copy_store.py http://127.0.0.1:8000 http://127.0.0.1:8001

What is copied: flows and sources with all their members, segments with all theirs, the objects that segments name, and
webhooks. Each object is read back from the other store and compared. The other store may have things of its own, and
what it has under the same ids becomes as it is in the first one, but for segments, which are never deleted there.

What no request shows, or none can set, isn't copied: moments, delete requests, events that wait, the values of webhooks'
keys, that a webhook is in `error`, and objects that no segment names. Delete requests that aren't done, events and keys
are told on standard error. Nobody should change the first store meanwhile.

A run that was broken off goes on when it is started again. The bytes of an object are compared once for each run,
unless its segment is there already: then an earlier run has done it. `--compare` does it for all.

The status is 0 where all was copied, else 1.
"""
import argparse
import filecmp
import itertools
import os
import sys
import tempfile

sys.dont_write_bytecode = True      # the module's, which would lie beside it
from tams_client import HINTS, Failure, Progress, Store, json_of, quoted, run, timerange_of, timestamp_text

# how many rows are asked for at once, and how many segments or objects a change has: so it fits in a small half too
PAGE, BATCH = 100, 20
LARGEST_BODY = 1_048_576
# the members of a flow that a PUT of it alone sets, and those that have an address of their own
FIXED = ['source_id', 'format', 'codec', 'container', 'essence_parameters']
FLOW_PARTS = ['label', 'description', 'max_bit_rate', 'avg_bit_rate']
SOURCE_PARTS = ['label', 'description']
HOOK = ['url', 'events', 'api_key_name', 'flow_ids', 'source_ids']

MORE_HINTS = {
    'ReadOnly': 'the flow differs in the other store, where it takes no change; PUT false to its read_only there',
    'IdTaken': 'the other store makes ids that begin so itself; format it with another id',
    'OtherBytes': 'the other store has an object of this id with other bytes',
    'Overlap': 'the other store has another segment there; delete it, or copy into an empty store',
    'MediaFull': 'the other store is too small; format one with more blocks',
    'JournalFull': 'the other store is too small; format one with bigger halves',
    'UnknownObject': 'the object went meanwhile; run again',
    'FlowChanged': 'the other store has a flow of this id with another source or format',
}


def members(value, names):
    """Those of an object's members that have these names."""
    return {name: value[name] for name in names if name in value}


def batches(values, size):
    """The values in lists of this length at most."""
    values = iter(values)
    while batch := list(itertools.islice(values, size)):
        yield batch


class Copying:
    """Two stores, of which at most one has a connection: each serves one after another, and others may wait."""

    def __init__(self, store, other, words, folder, progress):
        self.stores, self.progress, self.compares_all = (store, other), progress, words.compare
        self.files = [os.path.join(folder, name) for name in ('first', 'second')]
        self.compared, self.counts = set(), dict.fromkeys(('flows', 'segments', 'objects', 'webhooks'), 0)

    @property
    def store(self):
        """The store that is copied."""
        self.stores[1].close()
        return self.stores[0]

    @property
    def other(self):
        """The one that is written."""
        self.stores[0].close()
        return self.stores[1]

    def post(self, path, value):
        """Posts to the other store. A POST isn't sent twice, so it gets a connection that no pause has ended."""
        other = self.other
        other.close()
        other.ask('POST', path, value)

    def listed(self, path):
        """The values of a list of the first store, a page at a time."""
        values = self.store.pages(path, {'limit': PAGE})
        while True:
            self.stores[1].close()
            page = list(itertools.islice(values, PAGE))
            if not page:
                return
            yield page

    def count(self, kind, number=1):
        """Counts what was written, and shows it."""
        self.counts[kind] += number
        self.progress.show(self.told())

    def told(self):
        return 'new: ' + ', '.join(f'{count} {kind}' for kind, count in self.counts.items())


# ---- flows and sources


def copy_part(other, path, wanted, there):
    """Makes one part of a flow or a source as it is wanted; None stands for one that isn't there."""
    if wanted == there:
        return
    if wanted is None:
        other.ask('DELETE', path)
    else:
        other.ask('PUT', path, wanted)


def copy_parts(other, path, names, wanted, there):
    """Makes these parts, and all tags, as they are wanted."""
    for name in names:
        copy_part(other, f'{path}/{name}', wanted.get(name), there.get(name))
    tags, tags_there = wanted.get('tags', {}), there.get('tags', {})
    for name in sorted({*tags, *tags_there}):
        copy_part(other, f'{path}/tags/{quoted(name)}', tags.get(name), tags_there.get(name))


def copy_flow(copying, flow):
    """A flow without what it collects, and still open to changes. One with a large body gets its parts one by one."""
    path, other = f'/flows/{flow["id"]}', copying.other
    there = other.find(path, 'NoFlow')
    body = members(flow, FIXED + FLOW_PARTS + ['tags'])
    if there is None or members(there, FIXED) != members(flow, FIXED):
        fits = len(json_of(body)) <= LARGEST_BODY
        other.ask('PUT', path, body if fits else members(flow, FIXED))
        copying.count('flows', there is None)
        there = other.ask('GET', path)
    copy_parts(other, path, FLOW_PARTS, flow, there)


def copy_flows(copying):
    """All flows first, since some collect others, and then what they collect."""
    for page in copying.listed('/flows'):
        for flow in page:
            copy_flow(copying, flow)
    for page in copying.listed('/flows'):
        for flow in page:
            path, name = f'/flows/{flow["id"]}', 'flow_collection'
            there = copying.other.ask('GET', path)
            copy_part(copying.other, f'{path}/{name}', flow.get(name), there.get(name))


def copy_sources(copying):
    """What sources have. They came with their flows."""
    for page in copying.listed('/sources'):
        for source in page:
            path = f'/sources/{source["id"]}'
            copy_parts(copying.other, path, SOURCE_PARTS, source, copying.other.ask('GET', path))


# ---- segments and objects


def copy_object(copying, name):
    """Puts an object's bytes where they aren't there, reads them back and compares them."""
    first, second = copying.files
    stores = copying.other.ask('GET', f'/objects/{quoted(name)}')['stored']
    copying.store.get_file(copying.store.media_address(name), first)
    other = copying.other
    if not stores:
        other.put_file(other.media_address(name), first)
    other.get_file(other.media_address(name), second)
    if not filecmp.cmp(first, second, shallow=False):
        raise Failure(f'{name}: the other store gives other bytes' + (f'\n  {HINTS["OtherBytes"]}' if stores else ''))
    copying.compared.add(name)
    copying.count('objects', not stores)


def copy_objects(copying, flow_id, names):
    """Allocates and copies those of these objects that weren't compared yet."""
    names = [name for name in dict.fromkeys(names) if name not in copying.compared]
    other = copying.other
    absent = [name for name in names if other.find(f'/objects/{quoted(name)}', 'UnknownObject') is None]
    if absent:
        copying.post(f'/flows/{flow_id}/storage', {'object_ids': absent})
    for name in names:
        copy_object(copying, name)


def shown(segment):
    """A segment as it is posted."""
    return {name: value for name, value in segment.items() if name != 'get_urls'}


def copy_batch(copying, path, flow_id, batch):
    """Copies segments that follow one another. Gives how many others the other store has among them."""
    first, behind = timerange_of(batch[0]['timerange'])[0], timerange_of(batch[-1]['timerange'])[1]
    span = f'[{timestamp_text(first)}_{timestamp_text(behind - 1)}]'
    there = [shown(segment) for segment in copying.other.pages(path, {'timerange': span, 'limit': PAGE})]
    batch = [shown(segment) for segment in batch]
    absent = [segment for segment in batch if segment not in there]
    copy_objects(copying, flow_id, [segment['object_id'] for segment in (batch if copying.compares_all else absent)])
    if absent:
        copying.post(path, absent)
        copying.count('segments', len(absent))
    return sum(segment not in batch for segment in there)


def copy_segments(copying):
    """The segments of all flows, with their objects; then what takes no change any more."""
    for page in copying.listed('/flows'):
        for flow in page:
            path, others = f'/flows/{flow["id"]}/segments', 0
            for segments in copying.listed(path):
                for batch in batches(segments, BATCH):
                    others += copy_batch(copying, path, flow['id'], batch)
            if others:
                copying.progress.tell(f'flow {flow["id"]}: the other store has {others} segments beside these')
            path = f'/flows/{flow["id"]}'
            there = copying.other.ask('GET', path)
            copy_part(copying.other, f'{path}/read_only', flow['read_only'], there['read_only'])


# ---- the rest


def copy_hooks(copying):
    """Webhooks come last, so no event of this copy waits for them."""
    hooks = copying.store.ask('GET', '/service/webhooks')
    there = [members(hook, HOOK) for hook in copying.other.ask('GET', '/service/webhooks')]
    for hook in hooks:
        if members(hook, HOOK) not in there:
            copying.post('/service/webhooks', members(hook, HOOK))
            copying.count('webhooks')
        if hook['waiting']:
            copying.progress.tell(f'not copied: {hook["waiting"]} events that wait for {hook["url"]}')
        if 'api_key_name' in hook:
            copying.progress.tell(f'not copied: the value of the key of {hook["url"]}, if it has one')


def tell_requests(copying):
    """Delete requests that are under way: what they have still to delete is copied."""
    for request in copying.store.ask('GET', '/flow-delete-requests'):
        if request['status'] != 'done':
            copying.progress.tell(f'not copied: the request to delete {request["timerange_to_delete"]} of flow'
                                  f' {request["flow_id"]}, which is not done')


def copy(copying):
    ids = [store.ask('GET', '/service')['store_id'] for store in (copying.store, copying.other)]
    if ids[0] == ids[1]:
        raise Failure(f'both stores have the id {ids[0]}\n  ' + HINTS['IdTaken'])
    tell_requests(copying)
    copy_flows(copying)
    copy_sources(copying)
    copy_segments(copying)
    copy_hooks(copying)
    copying.progress.done()
    copying.progress.note(f'{copying.told()}; {len(copying.compared)} objects compared')


def words_of():
    parser = argparse.ArgumentParser(description='Copies all that one store shows into another, larger one.')
    parser.add_argument('store', help='the address of the store that is copied, as http://127.0.0.1:8000')
    parser.add_argument('other', help='the address of the one that is written')
    parser.add_argument('--compare', action='store_true', help='compares all objects, also those of an earlier run')
    parser.add_argument('--quiet', action='store_true', help='says nothing but what is not copied')
    return parser.parse_args()


def main():
    words = words_of()
    HINTS.update(MORE_HINTS)
    with Store(words.store) as store, Store(words.other) as other, tempfile.TemporaryDirectory() as folder:
        copy(Copying(store, other, words, folder, Progress(words.quiet)))


run(main)
