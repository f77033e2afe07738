"""The debug adapter protocol's own declarations (debugProtocol.d.ts of the Debian package node-vscode-debugprotocol), and whether a message is as they say."""
import re

PLACE = '/usr/share/nodejs/@vscode/debugprotocol/lib/debugProtocol.d.ts'
TOKEN = re.compile(r"\s*(/\*.*?\*/|//[^\n]*|'[^']*'|[A-Za-z_][A-Za-z_0-9]*|[{}\[\]();:,|?<>])", re.S)
# What the protocol has gained since that version: fields by the type that has them, and events' and requests' own names that are ours.
LATER = {'DisassembledInstruction': {'presentationHint'}, 'DataBreakpointInfoArguments': {'frameId', 'bytes', 'asAddress'},
         'CompletionItem': {'detail'}, 'ReadMemoryResponse': set(), 'GotoTarget': set()}


class Schema:
    """The interfaces of the declarations, each with the one that it extends, and its fields."""

    def __init__(self, text):
        self.tokens, self.interfaces = [found for found in TOKEN.findall(text) if not found.startswith(('/*', '//'))], {}
        while self.tokens:
            token = self.tokens.pop(0)
            if token == 'interface':
                name, base = self.tokens.pop(0), None
                if self.tokens[0] == 'extends':
                    self.tokens.pop(0)
                    base = self.tokens.pop(0)
                self.interfaces[name] = base, self.fields()
            elif token == 'type':
                name = self.tokens.pop(0)
                self.need(':' if self.tokens[0] == ':' else '=') if self.tokens[0] in ':=' else None
                self.interfaces[name] = None, self.kind()

    def need(self, token):
        found = self.tokens.pop(0)
        assert found == token, (found, token, self.tokens[:5])

    def fields(self):
        """Fields between braces: by their names whether they may be left out, and what they are."""
        found = {}
        self.need('{')
        while self.tokens[0] != '}':
            name = self.tokens.pop(0)
            if name == '[':
                while self.tokens.pop(0) != ']':
                    pass
                self.need(':')
                found['*'] = True, self.kind()
            else:
                left_out = self.tokens[0] == '?'
                if left_out:
                    self.tokens.pop(0)
                self.need(':')
                found[name.strip("'")] = left_out, self.kind()
            if self.tokens[0] in ';,':
                self.tokens.pop(0)
        self.need('}')
        return found

    def kind(self):
        """A type: a list of those that it may be."""
        kinds = [self.one()]
        while self.tokens[0] == '|':
            self.tokens.pop(0)
            kinds.append(self.one())
        return kinds

    def one(self):
        if self.tokens[0] == '{':
            kind = self.fields()
        elif self.tokens[0] == '(':
            self.tokens.pop(0)
            kind = self.kind()
            self.need(')')
        else:
            kind = self.tokens.pop(0)
        while self.tokens[0] == '[':
            self.tokens.pop(0)
            self.need(']')
            kind = ('list', kind)
        return kind

    def all_fields(self, name):
        base, fields = self.interfaces[name]
        return {**(self.all_fields(base) if base else {}), **fields}

    def faults(self, kind, value, where):
        """What is wrong with a value that is said to be of a type."""
        if isinstance(kind, list):
            found = [list(self.faults(one, value, where)) for one in kind]
            return [] if any(not one for one in found) else found[0]
        if isinstance(kind, tuple):
            if not isinstance(value, list):
                return [f'{where}: no list']
            return [fault for at, one in enumerate(value) for fault in self.faults(kind[1], one, f'{where}[{at}]')]
        if isinstance(kind, dict):
            return self.faults_of_fields(kind, value, where, set())
        plain = {'number': lambda: isinstance(value, (int, float)) and not isinstance(value, bool), 'string': lambda: isinstance(value, str),
                 'boolean': lambda: isinstance(value, bool), 'any': lambda: True, 'object': lambda: isinstance(value, dict), 'null': lambda: value is None}
        if kind in plain:
            return [] if plain[kind]() else [f'{where}: no {kind}: {value!r}']
        if kind.startswith("'"):
            return [] if value == kind.strip("'") else [f'{where}: not {kind}: {value!r}']
        if isinstance(self.interfaces[kind][1], list):
            return self.faults(self.interfaces[kind][1], value, where)
        return self.faults_of_fields(self.all_fields(kind), value, where, LATER.get(kind, set()))

    def faults_of_fields(self, fields, value, where, later):
        if not isinstance(value, dict):
            return [f'{where}: no object: {value!r}']
        found = [f'{where}.{name} is missing' for name, (left_out, _) in fields.items() if name != '*' and not left_out and name not in value]
        for name, one in value.items():
            if name in fields:
                found += self.faults(fields[name][1], one, f'{where}.{name}')
            elif '*' in fields:
                found += self.faults(fields['*'][1], one, f'{where}.{name}')
            elif name not in later:
                found.append(f'{where}.{name} is no field')
        return found

    def message(self, message):
        """What is wrong with a message."""
        kind = message.get('type')
        if kind == 'event':
            name = message['event'][0].upper() + message['event'][1:] + 'Event'
        elif kind == 'response' and not message.get('success'):
            name = 'ErrorResponse'
        else:
            name = message['command'][0].upper() + message['command'][1:] + ('Response' if kind == 'response' else 'Request')
        if name not in self.interfaces:
            # (requests of our own, whose names have a slash)
            return [] if '/' in name else [f'there is no {name}']
        return self.faults(name, message, name)
