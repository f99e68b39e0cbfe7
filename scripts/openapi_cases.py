"""What `check_openapi` asks. Each function takes a session of a run of the program, and asks through it."""
import hashlib
import itertools

from openapi_page import is_kept, read_as, types_of, wanted_refusal

STORE_ID = '00000000-0000-4000-8000-000000000001'


def id_of(end):
    return f'00000000-0000-4000-8000-{end:0>12}'


FIRST, SECOND, THIRD, BARE, UNKNOWN = map(id_of, ('f1', 'f2', 'f3', 'f4', 'f9'))
VIDEO, MULTI = 'urn:x-nmos:format:video', 'urn:x-nmos:format:multi'
SMALL = {'source_id': id_of('a1'), 'format': VIDEO}
BYTES = bytes(place % 251 for place in range(1_000))
# the same with another first byte
DAMAGED = b'\1' + BYTES[1:]
LAST_WHOLE = 2 ** 63 - 1
MOST_SECONDS = 281_474_976_710_655


def forms(text):
    """The four written forms of an id."""
    return [text, '{' + text + '}', 'urn:uuid:' + text, text.replace('-', '').upper()]


def piece(start, end, name='clip-1'):
    return {'object_id': name, 'timerange': f'[{start}:0_{end}:0)'}


# ---- values of all kinds, of which a schema keeps some

TIMES = ['0:0', '-1:500000000', '00:0', '1:05', '0:999999999', '0:1000000000', '1', ':', '0:', '+1:0', ' 0:0', '-0:0',
         f'{MOST_SECONDS}:999999999', '1' + '0' * 15 + ':0']
RANGES = ['_', '()', '', '[', ')', '[]', '[5:0]', '(5:0_', '_5:0]', '[0:0_10:0)', '0:0_10:0', '(0:0_10:0]',
          '[0:0-10:0)', '{0:0_10:0}', '[0:0_1:05)', '__', '[0:0_1:0', '0:0_1:0_2:0', '-0:0_0:1', '[-10:0_-5:0)']
WORDS = ['x', 'true', 'TRUE', VIDEO, MULTI, 'urn:x-tam:format:image', 'urn:x-nmos:format:mux', VIDEO.upper(),
         'a b', 'ü', 'x' * 128, 'x' * 129, 'x' * 200, 'x' * 201, id_of('zz'), id_of('f')[1:], '{' + FIRST,
         'URN:UUID:' + FIRST, 'Urn:uUid:' + FIRST, 'urn:uuid:' + FIRST.replace('-', ''), 'urn:uuid:{' + FIRST + '}',
         '{' + FIRST.replace('-', '') + '}']
NUMBERS = ['0', '1', '-1', '1000', '1001', '007', '000', '9' * 19, '9' * 20, '-0', '+1', '1.0', ' 1', '01',
           '9' * 38, '-' + '9' * 38]
TEXTS = TIMES + RANGES + WORDS + NUMBERS + forms(FIRST)
LENGTHS = ['x' * 1_024, 'x' * 1_025, 'x' * 8_192, 'x' * 8_193]
PLAIN = [None, True, False, 0, 1, -1, 256, 1_000, 1_001, LAST_WHOLE, LAST_WHOLE + 1, 2 ** 64 - 1, 2 ** 64, -2 ** 63,
         -2 ** 63 - 1, 0.5]
LISTS = [[], ['x'], [1], [None], [['x']], ['x', 'x'], ['x' * 1_024], ['x' * 1_025], [FIRST], ['x y'], [SMALL, 1],
         [FIRST] * 256, [FIRST] * 257, ['o'] * 1_000, ['o'] * 1_001, ['x' * 200], ['x' * 201], forms(FIRST),
         ['flows/created'], ['flows/created', 'flows/created'], ['flows/shown'], ['flows/deleted', 'sources/deleted'],
         [{'id': FIRST, 'role': 'main'}], [{'role': 'main'}], [{'id': 'x'}], [{'id': 1}], [{'id': FIRST, 'role': None}],
         [{'id': FIRST, 'role': 'x' * 1_024}], [{'id': FIRST, 'role': 'x' * 1_025}], [{'id': FIRST, 'unheard': 1}],
         [{'id': FIRST}] * 256, [{'id': FIRST}] * 257]
OBJECTS = [{}, {'x': 'y'}, {'x': ['y', 'z']}, {'x': []}, {'x': 1}, {'x': None}, {'x': {}}, {'x': [1]}, {'': 'y'},
           {'x' * 128: 'y'}, {'x' * 129: 'y'}, {'x': 'y' * 1_024}, {'x': 'y' * 1_025}, {'x': ['y' * 1_025]},
           {str(place): 'y' for place in range(256)}, {str(place): 'y' for place in range(257)}, {'x': 0.5},
           {'x': 2 ** 64}, {'x': {'y': [1, None, True]}}]
KINDS = {'string': TEXTS + LENGTHS, 'array': LISTS, 'object': OBJECTS}

# Where a schema keeps a text, the store may still refuse it so: an address isn't one of http, an id isn't the path's.
UNSAID = {('postWebhook', 'url'): 'WrongKind', ('putFlow', 'id'): 'WrongKind'}
# What no schema says: the operation, the body, the refusal, its detail.
BEYOND = [
    *(('putFlow', {**SMALL, 'id': name}, 'WrongKind', 'id') for name in forms(UNKNOWN)),
    ('putFlow', {**SMALL, 'label': 'ü' * 513}, 'TooLong', 'label'),
    ('putFlow', {**SMALL, 'description': 'ü' * 4_097}, 'TooLong', 'description'),
    ('putFlow', {**SMALL, 'tags': {'ü' * 65: 'x'}}, 'TooLong', 'tags'),
    ('putFlow', {'source_id': 1}, 'WrongKind', 'source_id'),
    ('putFlow', {}, 'Missing', 'format'),
    ('putFlow', {'format': 1}, 'Missing', 'source_id'),
    *((name, text, 'Fractional', None) for name in ('putFlowMaxBitRate', 'putFlowAvgBitRate')
      for text in (b'1.0', b'1e3', b'-0', b'18446744073709551616')),
    *(('postSegments', {**piece(0, 1), 'timerange': text}, 'BadTimerange', 'timerange')
      for text in ('[5:0_3:0)', '(5:0)', '[5:0_5:0)', f'[0:0_{MOST_SECONDS + 1}:0)')),
    ('postSegments', {**piece(0, 1), 'ts_offset': f'-{MOST_SECONDS + 1}:0'}, 'BadTimerange', 'ts_offset'),
    *(('postWebhook', {'url': url, 'events': []}, 'WrongKind', 'url')
      for url in ('', 'x', '/hook', 'ftp://s/h', 'http://', 'http://a b/', 'ws://s')),
    ('postWebhook', {'url': 'http://s/' + 'ü' * 1_020, 'events': []}, 'TooLong', 'url'),
    *(('putFlow', text, 'NotJson', None) for text in (
        b'', b'{', b'{}{}', b"{'format':1}", b'[1,]', b'nul', b'"\xff"', b'01', b'"\\ud800"', b'\xef\xbb\xbf{}')),
]
# And what it takes that no schema says.
BEYOND_TAKEN = [
    ('putFlowLabel', b' \t\r\n"x" '), ('putFlowMaxBitRate', b'0'), ('putFlowMaxBitRate', b'9223372036854775807'),
    ('putFlowTag', b'["\\u00fc", "\\ud834\\udd1e"]'), ('postWebhook', {'url': ' HTTP://127.0.0.1:9/a b', 'events': []}),
    ('postWebhook', {'url': 'https://s', 'events': []}), ('postStorage', {'object_ids': ['named-1'], 'limit': 'x'}),
    ('postStorage', {'unheard': 1, 'limit': 1}), ('putFlowLabel', '\0'), ('putFlowLabel', b' ' * 1_048_573 + b'"x"'),
    ('putFlowDescription', 'ü' * 4_096),
]


# ---- the examples, in an order that makes sense


def of_nothing(session):
    """What an empty store shows."""
    for name in ('getRoot', 'getService', 'getWebhooks', 'getSources', 'getFlows', 'getDeleteRequests'):
        session.ask(name, 200)


def of_flows(session):
    """Flows come, and their sources with them."""
    session.ask('putFlow', 201, example='SmallFlow')
    session.ask('getFlow', 200)
    session.ask('putFlow', 204, example='SmallFlow')
    session.ask('putFlow', 204, example='WholeFlow')
    session.ask('putFlow', 201, {'id': SECOND}, example='SmallFlow')
    session.ask('putFlow', 201, {'id': THIRD}, example='CollectingFlow')
    session.ask('putFlow', 201, {'id': BARE}, sent={'source_id': id_of('a4'), 'format': VIDEO})
    for form in forms(FIRST):
        session.ask('getFlow', 200, {'id': form})
        session.ask('getSource', 200, {'id': form.replace('f1', 'a1').replace('F1', 'A1')})
    for name in ('getSources', 'getFlows'):
        session.ask(name, 200, query=[('format', MULTI)])
        session.page_after(session.ask(name, 200, query=[('limit', '1'), ('unheard', 'a b&ü')]))


def of_parts(session):
    """Each part is set to each example, shown and cleared, and set again."""
    for operation in session.page.operations.values():
        if operation.method != 'PUT' or operation.name in ('putFlow', 'putMedia'):
            continue
        part = operation.name.removeprefix('put')
        for example in operation.examples:
            session.ask(operation.name, 204, example=example)
            if example != 'NoCollection':
                session.ask('get' + part, 200)
        if 'delete' + part in session.page.operations:
            session.ask(operation.name, 204, example=operation.examples[0])
            session.ask('delete' + part, 204)
            for method in ('get', 'delete'):
                session.ask(method + part, 'NotSet', {'id': session.bare(operation)})
    for name, example in (('Tag', 'Texts'), ('Label', 'Label'), ('Description', 'Description')):
        session.ask('putSource' + name, 204, example=example)
    session.ask('getSourceTags', 200)
    session.ask('getSource', 200)
    session.ask('putFlow', 204, example='WholeFlow')
    session.ask('getFlowTags', 200)


def of_media(session):
    """Objects are asked for, put and shown."""
    for example in ('NamedObjects', 'CountedObjects', None):
        session.ask('postStorage', 201, example=example)
    session.ask('getObject', 200, {'object_id': 'clip/2'})
    session.ask('getMedia', 'UnknownObject', {'object_id': 'clip/2'})
    session.ask('putMedia', 201, {'object_id': 'clip/2'}, sent=b'')
    session.ask('getMedia', 200, {'object_id': 'clip/2'})
    session.ask('putMedia', 201, sent=BYTES)
    session.ask('putMedia', 204, sent=BYTES, fields=[('Expect', '100-continue')])
    session.ask('putMedia', 'OtherBytes', sent=BYTES[1:])
    session.ask('putMedia', 'UnknownObject', {'object_id': 'clip-9'}, sent=BYTES)
    session.ask('getMedia', 200)


def of_damage(session):
    """A byte of an object becomes another one in the file of the store, as by its disk, and is put right again."""
    detail = ' '.join(hashlib.sha256(each).hexdigest() for each in (BYTES, DAMAGED))
    session.overwrite(BYTES, DAMAGED)
    session.ask('getMedia', 'ObjectDamaged', detail=detail)
    session.ask('getObject', 200)
    session.ask('putMedia', 'OtherBytes', sent=BYTES)
    session.ask('putMedia', 204, sent=DAMAGED)
    session.ask('getMedia', 'ObjectDamaged', detail=detail)
    session.ask('getMedia', 200, {'object_id': 'clip/2'})
    session.overwrite(DAMAGED, BYTES)
    session.ask('getMedia', 200)


def of_segments(session):
    """Segments are added and shown."""
    for example in ('SmallSegment', 'WholeSegment', 'TwoSegments'):
        session.ask('postSegments', 201, example=example)
    session.ask('getSegments', 200, query=[('timerange', '[0:0_20:0)')])
    for turn in ('false', 'true'):
        query = [('timerange', '_'), ('limit', '1'), ('reverse_order', turn)]
        session.page_after(session.ask('getSegments', 200, query=query))
    session.ask('getFlow', 200)
    session.ask('getObject', 200)


def of_deletion(session):
    """More segments than go at once: 32 go behind the answer, and the others behind the next one."""
    session.ask('postSegments', 201, {'id': SECOND}, sent=[piece(start, start + 1) for start in range(500, 540)])
    query = [('timerange', '[500:0_600:0)')]
    answer = session.ask('deleteSegments', 202, {'id': SECOND}, query=query)
    session.learned['request_id'] = dict(answer.fields).get('Location', '').rpartition('/')[2]
    session.ask('getDeleteRequests', 200, alone=True)
    session.ask('getDeleteRequest', 200)
    session.ask('getDeleteRequests', 200)
    session.ask('deleteSegments', 204, {'id': SECOND}, query=query)


def of_webhooks(session):
    for example, status in (('NewWebhook', 201), ('NewWebhook', 204), ('WholeWebhook', 204)):
        session.ask('postWebhook', status, example=example)
    session.ask('getWebhooks', 200)
    for _ in range(2):
        session.ask('postWebhook', 204, example='RemovedWebhook')


def of_rules(session):
    """What the library refuses by its own rules."""
    session.ask('putFlow', 'FlowChanged', sent={**SMALL, 'format': MULTI})
    session.ask('putFlow', 'SourceFormat', {'id': UNKNOWN}, sent={**SMALL, 'format': 'urn:x-nmos:format:data'})
    for name, around in (('putFlow', {**SMALL, 'flow_collection': None}), ('putFlowCollection', None)):
        for member, refusal, detail in ((UNKNOWN, 'CollectedMissing', UNKNOWN), (THIRD, 'CollectsItself', None)):
            sent = [{'id': member}]
            sent = {**around, 'flow_collection': sent} if around else sent
            session.ask(name, refusal, sent=sent, detail=detail)
    session.ask('postStorage', 'IdTaken', sent={'object_ids': ['clip-3', 'clip-1']}, detail='clip-1')
    session.ask('postStorage', 'IdTaken', sent={'object_ids': ['clip-3', 'clip-3']}, detail='clip-3')
    session.ask('postStorage', 'IdTaken', sent={'object_ids': [STORE_ID + '-x']}, detail=STORE_ID + '-x')
    session.ask('postSegments', 'NoObject', sent=piece(90, 91, 'clip-9'), detail='clip-9')
    session.ask('postSegments', 'Overlap', sent=piece(9, 12), detail='[0:0_10:0)')
    session.ask('postSegments', 'NoObject', sent=[piece(90, 91, 'clip-9'), piece(9, 12)], detail='clip-9')
    session.ask('postSegments', 200, sent=[piece(90, 91, 'clip-9'), piece(90, 91), piece(9, 12)])


# ---- each operation's statuses


def of_wire(session):
    """What the wire refuses of each operation."""
    for operation in session.page.operations.values():
        limit = 1_073_741_824 if operation.name == 'putMedia' else 1_048_576
        session.ask(operation.name, 'BadHead', fields=[('X', 'y')] * 65)
        session.ask(operation.name, 'BadFraming', fields=[('Content-Length', '1'), ('Content-Length', '2')])
        session.ask(operation.name, 'TooLarge', fields=[('Content-Length', str(limit + 1))])
        session.ask(operation.name, 'Coding', fields=[('Content-Encoding', 'gzip')])
    session.ask('putMedia', 'LengthRequired', fields=[('Transfer-Encoding', 'chunked')])
    session.ask('getService', 200, fields=[('Connection', 'close')], closes=True)
    session.ask('getService', 200, version='1.0', closes=True)


def of_routes(session):
    """Methods that a route hasn't, and paths that are none."""
    for route, methods in session.page.routes.items():
        target = session.page.operations[session.name_at(route, methods[0])].target({}, [])
        for method in ('GET', 'HEAD', 'PUT', 'POST', 'DELETE', 'OPTIONS', 'PATCH', 'get'):
            if method.lower() not in methods or method == 'get':
                session.ask_none(method, target, 405, ', '.join(methods).upper())
    for target in ('/nowhere', '/flows/', '//', '/service/', '/flows/x/nowhere', '/flows//label', '/flows/x/tags/',
                   '/media/', '/media/a/b', '/sources/x/read_only', '/flows%2Fx', '/Flows', 'http://127.0.0.1/flows',
                   '*'):
        for method in ('GET', 'POST'):
            session.ask_none(method, target, 404, None)


def of_missing(session):
    """Ids and names in paths that name nothing: of another form, or of something that isn't kept."""
    for operation in session.page.operations.values():
        for each in operation.of_path():
            of_forms(session, operation, each)
        for name in types_of(operation.responses.get('404', {})):
            if name != 'NotSet' and operation.name != 'putFlow':
                session.ask(operation.name, name, {operation.of_path()[0]['name']: session.unknown(name)}, good=True)


def of_forms(session, operation, parameter):
    """The last part of a path with texts of all kinds, of which its schema keeps some. What changes something, or has
    more behind it, is asked with one that isn't kept."""
    path = {} if operation.method in ('GET', 'HEAD') else {'id': session.bare(operation)}
    is_last = operation.method == 'GET' and operation.route.endswith('{' + parameter['name'] + '}')
    for text in [b'\xff', *filter(None, TEXTS)] if is_last else ['x' * 201]:
        is_good = isinstance(text, str) and is_kept(parameter['schema'], text) and fits(parameter['schema'], text)
        wanted = None if is_good else parameter['x-refusal']
        session.ask(operation.name, wanted, {**path, parameter['name']: text}, alone=True)


def fits(schema, text):
    """The bytes of a text are no more than the characters that it may have."""
    return len(text.encode()) <= schema.get('maxLength', len(text.encode()))


def of_queries(session):
    """Each name of a query, and names that an operation hasn't."""
    for operation in session.page.operations.values():
        if operation.method != 'HEAD' and operation.of_query():
            path = {} if operation.method == 'GET' else {'id': BARE}
            for each in operation.of_query():
                of_query(session, operation, path, each)
            wanted = 200 if operation.method == 'GET' else 'BadQuery'
            session.ask(operation.name, wanted, path, query=[('unheard', 'x'), ('unheard', 'x')])
    for name in ('frame_width', 'frame_height'):
        session.ask('getFlows', 'BadQuery', query=[(name, '1')], detail=name)
    session.ask('deleteSegments', 'BadQuery', {'id': BARE}, query=[('limit', '1')], detail='limit')


def of_query(session, operation, path, parameter):
    """A name with texts of all kinds, of which its schema keeps some; with its example; and twice."""
    for (name, schema), text in itertools.product(names_of(parameter), [*TEXTS, MULTI + 'x']):
        wanted = None if is_kept(schema, read_as(schema, text)) else 'BadQuery'
        session.ask(operation.name, wanted, path, query=[(name, text)], detail=wanted and name, alone=True)
    session.ask(operation.name, None, path, query=example_of(parameter), taken=True)
    twice = example_of(parameter)[:1] * 2
    session.ask(operation.name, 'BadQuery', path, query=twice, detail=twice[0][0])


def names_of(parameter):
    """The names of a parameter's pairs, each with the schema of its value."""
    patterns = parameter['schema'].get('patternProperties')
    if patterns is None:
        return [(parameter['name'], parameter['schema'])]
    return [(pattern.strip('^').replace('\\', '') + 'genre', schema) for pattern, schema in patterns.items()]


def example_of(parameter):
    """The pairs of a parameter's example."""
    value = parameter['example']
    pairs = value.items() if isinstance(value, dict) else [(parameter['name'], value)]
    return [(name, str(each).lower() if isinstance(each, bool) else str(each)) for name, each in pairs]


# ---- bodies


def values_for(schema):
    """Values of all kinds, and many of the kinds that a schema has; long lists only of items that it has."""
    few, long = 3, 100
    kinds = schema.get('type', 'string')
    values = PLAIN + [each for kind, some in KINDS.items() for each in (some if kind in kinds else some[:few])]
    return [value for value in values if not isinstance(value, list) or len(value) < long
            or is_kept(schema['items'], value[0])]


def of_bodies(session):
    """Each body with values of all kinds, as a whole and at each member; and without what has to be there."""
    for operation in session.page.operations.values():
        if operation.body is None:
            continue
        session.ask(operation.name, 'NotJson' if operation.has_to_send else 201)
        for text, name in ((b'{', 'NotJson'), (b'0.5', 'Fractional')):
            session.ask(operation.name, name, sent=text)
        schema = operation.body.get('oneOf', [operation.body])[0]
        if schema.get('type') != 'object':
            part = session.part_of(operation)
            for value in values_for(schema):
                send(session, operation, value, part)
            continue
        for value in PLAIN + ['', 'x', [], ['x'], [{}], [1] * 1_001]:
            send(session, operation, value, None)
        members_of(session, operation, schema)


def members_of(session, operation, schema):
    """The same of each member of an object, alone and in a list where the body may be one."""
    base = session.page.example(operation.examples[0])
    base = {name: value for name, value in base.items() if name in schema.get('required', [])}
    for name in schema.get('required', []):
        send(session, operation, {each: value for each, value in base.items() if each != name}, None)
    pairs = ((name, value) for name, each in schema['properties'].items() for value in values_for(each))
    for name, value in pairs:
        sent = {**base, name: value}
        send(session, operation, sent, None, UNSAID.get((operation.name, name)))
        if 'oneOf' in operation.body and isinstance(value, (int, type(None))):
            send(session, operation, [sent], None)


def send(session, operation, value, part, unsaid=None):
    """Sends a body, which is to be refused as its schema says."""
    path = {}
    if operation.name == 'putFlow':
        path['id'] = session.new_id()
    wanted, detail = wanted_refusal(operation.body, value, part) or (None, None)
    answer = session.ask(operation.name, wanted, path, sent=value, detail=detail, unsaid=unsaid)
    if answer.status in (201, 204) and operation.name == 'putFlow':
        session.ask('getFlow', 200, path, alone=True)
    elif answer.status == 204 and operation.method == 'PUT':
        shown = 'NotSet' if value == [] and part == 'flow_collection' else 200
        session.ask(operation.name.replace('put', 'get', 1), shown, alone=True)
    if answer.status == 204 and operation.name == 'putFlowReadOnly':
        session.ask(operation.name, 204, example='ReadOnlyFalse')


def of_beyond(session):
    """What no schema says."""
    for name, sent, refusal, detail in BEYOND:
        session.ask(name, refusal, sent=sent, detail=detail)
    for name, sent in BEYOND_TAKEN:
        session.ask(name, None, sent=sent, taken=True)
    session.ask('putFlowLabel', 204, sent=b'3\r\n"x"\r\n0\r\n\r\n', fields=[('Transfer-Encoding', 'chunked')])


def of_shown(session):
    """All that is kept by now."""
    for name in ('getFlows', 'getSources', 'getSegments'):
        session.ask(name, 200, query=[('limit', '1000')])
    for name in ('getWebhooks', 'getFlow', 'getObject'):
        session.ask(name, 200)


def of_defaults(session):
    """What is absent counts as its default."""
    for operation in session.page.operations.values():
        for each in operation.of_query() if operation.method == 'GET' else []:
            if 'default' in each['schema']:
                query = [(each['name'], str(each['schema']['default']).lower())]
                bare, full = session.ask(operation.name, 200), session.ask(operation.name, 200, query=query)
                session.same(f'{operation.name} without {each["name"]}', bare.body, full.body)
    session.ask('putFlow', 201, {'id': UNKNOWN}, example='SmallFlow')
    session.ask('postSegments', 201, {'id': UNKNOWN}, example='SmallSegment')
    flow = session.ask('getFlow', 200, {'id': UNKNOWN}).value()
    segments = session.ask('getSegments', 200, {'id': UNKNOWN}).value()
    objects = session.ask('postStorage', 201).value().get('media_objects', [])
    for name, value in (('FlowSent', flow), ('SegmentSent', segments[0] if segments else {}),
                        ('StorageSent', {'limit': len(objects)})):
        for member, schema in session.page.component('schemas', name)['properties'].items():
            if 'default' in schema:
                session.same(f'{member} of {name}', value.get(member), schema['default'])


# ---- flows that take no change, and stores that are full


def in_state(session, name, path=()):
    """Asks for each change. Those that list the refusal of this name are to be refused by it, and all as they list."""
    for operation in session.page.operations.values():
        if operation.method in ('GET', 'HEAD') or path and not operation.route.startswith('/flows/{id}'):
            continue
        listed = any(name in types_of(response) for response in operation.responses.values())
        session.ask(operation.name, name if listed else None, path, good=True)
        if name == 'ReadOnly' and operation.name == 'putFlowReadOnly':
            session.ask(operation.name, 204, sent=True)


def of_read_only(session):
    session.ask('putFlowReadOnly', 204, sent=True)
    in_state(session, 'ReadOnly')
    session.ask('putFlowReadOnly', 204, sent=False)


def of_deleting(session):
    """A flow with so many segments that it takes a while until it is gone."""
    session.ask('deleteFlow', 204)
    session.ask('postSegments', 201, {'id': SECOND}, sent=[piece(start, start + 1) for start in range(1_000)])
    session.ask('deleteFlow', 202, {'id': SECOND})
    in_state(session, 'Deleting', {'id': SECOND})


def of_full(session):
    """A store with 4,096 bytes for its journal and one block for media, of which something is kept of each kind."""
    session.ask('putFlow', 201, example='SmallFlow')
    session.ask('putFlow', 201, {'id': SECOND}, example='SmallFlow')
    session.ask('postStorage', 201, example='NamedObjects')
    session.ask('putMedia', 'MediaFull', sent=bytes(10_000))
    session.ask('putMedia', 201, sent=BYTES)
    session.ask('postSegments', 201, example='WholeSegment')
    session.ask('postWebhook', 201, sent={'url': 'http://s', 'events': ['sources/deleted']})
    for operation in session.page.operations.values():
        if operation.method == 'PUT' and operation.name not in ('putFlow', 'putMedia'):
            session.ask(operation.name, 204, example=operation.examples[0])
    fill(session)
    session.learned['object_id'] = 'clip/2'
    in_state(session, 'JournalFull')


def fill(session):
    """Puts a flow with about the longest description that has room. Then less is left than any change needs."""
    for length in range(4_096, 0, -16):
        sent = {'source_id': id_of('a4'), 'format': VIDEO, 'description': 'x' * length}
        if session.ask('putFlow', None, {'id': BARE}, sent=sent).status == 201:
            break


STORY = [of_nothing, of_flows, of_parts, of_media, of_damage, of_segments, of_deletion, of_webhooks, of_rules,
         of_queries, of_missing, of_wire, of_routes, of_read_only, of_bodies, of_beyond, of_shown, of_defaults,
         of_deleting]
