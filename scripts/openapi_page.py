"""The description of the profile that `check_openapi` reads: its operations, and what differs from it in an answer."""
import dataclasses
import json
import re
from urllib.parse import quote, urlencode

import jsonschema
import yaml

METHODS = ('get', 'head', 'put', 'post', 'delete', 'options', 'patch', 'trace')
JSON, MEDIA = 'application/json', 'application/octet-stream'
# what the wire refuses: each ends the connection, and has its body for HEAD too
WIRE = ('BadHead', 'BadFraming', 'LengthRequired', 'TooLarge', 'Coding')
# what is refused of bodies and queries, whatever is kept
SENT = ('NotJson', 'Fractional', 'Missing', 'WrongKind', 'TooLong', 'OutOfRange', 'BadTimerange', 'BadQuery')
# the refusal for each word of a schema that isn't kept, in the order in which they are looked at
BY_WORD = {'type': 'WrongKind', 'enum': 'WrongKind', 'pattern': 'WrongKind', 'anyOf': 'WrongKind',
           'uniqueItems': 'WrongKind', 'required': 'WrongKind', 'maxLength': 'TooLong', 'minLength': 'OutOfRange',
           'minimum': 'OutOfRange', 'maximum': 'OutOfRange', 'minItems': 'OutOfRange', 'maxItems': 'OutOfRange',
           'maxProperties': 'OutOfRange'}
VALIDATORS = {}
RANKS = ('Missing', 'WrongKind', 'BadTimerange', 'TooLong', 'OutOfRange')


@dataclasses.dataclass
class Operation:
    """An operation, with all references of the description undone."""
    name: str
    method: str
    route: str
    parameters: list
    body: dict          # the schema of its JSON body, or None
    has_to_send: bool   # whether a body has to be sent
    examples: list      # the names of the bodies that it shows
    responses: dict     # by status

    def of_path(self):
        return [each for each in self.parameters if each['in'] == 'path']

    def of_query(self):
        return [each for each in self.parameters if each['in'] == 'query']

    def target(self, path, query):
        """The target with these values of its path, and else with those of the examples."""
        target = self.route
        for each in self.of_path():
            value = path.get(each['name'], each['example'])
            value = value if isinstance(value, bytes) else str(value)
            target = target.replace('{' + each['name'] + '}', quote(value, safe=''))
        return target + ('?' + urlencode(query) if query else '')


def types_of(response):
    """The names of refusals that a response may have, and none where it refuses nothing."""
    schema = response.get('content', {}).get(JSON, {}).get('schema', {})
    return schema['allOf'][1]['properties']['type']['enum'] if 'allOf' in schema else []


def examples_of(response):
    """The examples of a response, by their names."""
    contents = response.get('content', {}).values()
    return {name: each['value'] for content in contents for name, each in content.get('examples', {}).items()}


class Page:
    """The description."""

    def __init__(self, path):
        with open(path, encoding='utf-8') as file:
            self.tree = yaml.safe_load(file)
        # the address that the examples have in their links
        self.base = self.tree['servers'][0]['url']
        self.routes = {route: [method for method in METHODS if method in item]
                       for route, item in self.tree['paths'].items()}
        made = [self.operation(route, method) for route, methods in self.routes.items() for method in methods]
        self.operations = {each.name: each for each in made}
        self.none = {404: self.component('responses', 'NoRoute'), 405: self.component('responses', 'NoMethod')}

    def component(self, kind, name):
        return self.resolved(self.tree['components'][kind][name])

    def example(self, name):
        return self.component('examples', name)['value']

    def resolved(self, node):
        """A part of the description with what its references name, and what stands beside these."""
        if isinstance(node, list):
            return [self.resolved(each) for each in node]
        if not isinstance(node, dict):
            return node
        beside = {name: self.resolved(value) for name, value in node.items() if name != '$ref'}
        if '$ref' not in node:
            return beside
        named = self.tree
        for name in node['$ref'].removeprefix('#/').split('/'):
            named = named[name]
        return {**self.resolved(named), **beside}

    def operation(self, route, method):
        item = self.tree['paths'][route]
        parameters = item.get('parameters', []) + item[method].get('parameters', [])
        node = self.resolved({**item[method], 'parameters': parameters})
        sent = node.get('requestBody', {})
        body = sent.get('content', {}).get(JSON, {})
        return Operation(node['operationId'], method.upper(), route, node['parameters'], body.get('schema'),
                         sent.get('required', False), list(body.get('examples', {})), node['responses'])

    def faults_within(self):
        """What differs within the description: examples that aren't as their schemas say, and names of refusals."""
        for operation in self.operations.values():
            for name in operation.examples:
                for line in complaints(operation.body, self.example(name)):
                    yield f'the example {name} of {operation.name}: {line}'
            for each in operation.parameters:
                for line in complaints(each['schema'], each.get('example')):
                    yield f'the example of the parameter {each["name"]} of {operation.name}: {line}'
            for status, response in operation.responses.items():
                yield from self.faults_of_examples(operation.name, status, response)

    def faults_of_examples(self, name, status, response):
        for shown, value in examples_of(response).items():
            for content in response['content'].values():
                for line in complaints(content['schema'], value):
                    yield f'the example {shown} of {name}, {status}: {line}'
        if types_of(response) and list(examples_of(response)) != types_of(response):
            yield f'the examples of {name}, {status} are not its refusals'


def errors_of(schema, value):
    """The errors of a value by a schema. What tests by a schema is kept, since making it takes long."""
    if id(schema) not in VALIDATORS:
        VALIDATORS[id(schema)] = jsonschema.Draft202012Validator(schema)
    return VALIDATORS[id(schema)].iter_errors(value)


def complaints(schema, value):
    """What a value breaks of a schema, as lines."""
    for error in errors_of(schema, value):
        place = '.'.join(map(str, error.absolute_path))
        yield f'{place + ": " if place else ""}{error.message:.200}'


def is_kept(schema, value):
    return not any(complaints(schema, value))


# ---- what a schema says of a value that is sent


def holds_fraction(value):
    """A number stands in it that isn't a whole number of 64 bits."""
    if isinstance(value, dict):
        return any(map(holds_fraction, value.values()))
    if isinstance(value, list):
        return any(map(holds_fraction, value))
    return isinstance(value, float) or isinstance(value, int) and not -2 ** 63 <= value < 2 ** 64


def refusal_of(error):
    """The refusal that an error of a schema stands for, and the member that it names."""
    if error.validator == 'required' and not error.absolute_path:
        return 'Missing', next(name for name in error.validator_value if name not in error.instance)
    name = BY_WORD[error.validator]
    if error.validator == 'pattern':
        name = error.schema.get('x-refusal', name)
    return name, error.absolute_path[0] if error.absolute_path else None


def wanted_refusal(schema, value, part):
    """The refusal of a body by its schema, and its detail; None where the schema is kept. `part` is the detail of what
    has no members."""
    if holds_fraction(value):
        return 'Fractional', None
    if 'oneOf' in schema:
        return wanted_of_either(schema['oneOf'], value)
    found = [refusal_of(error) for error in errors_of(schema, value)]
    if not found:
        return None
    name, member = min(found, key=lambda each: RANKS.index(each[0]))
    return name, part if part else member or 'body'


def wanted_of_either(schemas, value):
    """The same of one object or a list of them."""
    one, many = schemas
    if isinstance(value, dict):
        return wanted_refusal(one, value, None)
    if not isinstance(value, list) or not many['minItems'] <= len(value) <= many['maxItems'] \
            or not all(isinstance(each, dict) for each in value):
        return 'OutOfRange', 'body'
    return next(filter(None, (wanted_refusal(one, each, None) for each in value)), None)


def read_as(schema, text):
    """The value that the text of a parameter stands for."""
    if schema.get('type') == 'integer' and re.fullmatch('[0-9]+', text):
        return int(text)
    if schema.get('type') == 'boolean' and text in ('true', 'false'):
        return text == 'true'
    return text


# ---- what differs in an answer


def faults_of_fields(response, answer):
    """What differs in the fields of an answer from those that the response lists."""
    listed = response.get('headers', {})
    told = dict(answer.fields)
    if len(told) != len(answer.fields):
        yield 'a field stands twice'
    kinds = list(response.get('content', {}))
    if told.pop('Content-Type', None) not in (kinds or [None]):
        yield f'Content-Type is {dict(answer.fields).get("Content-Type")}, not {kinds}'
    for name, value in told.items():
        if name not in listed:
            yield f'the field {name} is not listed'
            continue
        schema = listed[name]['schema']
        yield from (f'{name}: {line}' for line in complaints(schema, read_as(schema, value)))
    wanted = [name for name, each in listed.items() if each.get('required')]
    yield from (f'the field {name} is missing' for name in wanted if name not in told)


def faults_of_body(response, answer, bodiless):
    """What differs in the body of an answer."""
    content = response.get('content', {})
    length = dict(answer.fields).get('Content-Length')
    if bodiless or not content:
        if answer.body or not content and length not in (None, '0'):
            yield f'it has a body: {answer.body[:100]}, {length}'
    elif length != str(len(answer.body)):
        yield f'Content-Length is {length}, and the body has {len(answer.body)} bytes'
    elif JSON in content:
        try:
            yield from complaints(content[JSON]['schema'], json.loads(answer.body))
        except ValueError:
            yield f'it is no JSON: {answer.body[:100]}'
