#!/usr/bin/env python3
"""Mends what exports of other tools are often refused for, where what was meant is certain.

    examples/mend.py IN OUT                       # `-` is standard input or output
    examples/mend.py export.json - | aasd import

IN is an environment in JSON, or one document or element. Each mend is a line on standard error with its JSON pointer
in IN, and so is each text that the server refuses and that is left, since it may be read in two ways or in none:

    mended /submodels/0/idShort: an empty text is dropped
    left /submodels/0/semanticId/type: ExternalReference, but its first key is Submodel: one of the two is wrong

The last line counts both. Where nothing is mended, OUT has the bytes of IN. Else members keep their order, but those
that get another name come last. What the server refuses besides is named by `aasd import`.

Status 0: nothing is left. Status 1: something is. Status 2: IN can't be read as JSON, and nothing is written.
"""
import argparse
import codecs
import datetime
import json
import re
import sys

# The enumerations of IDTA-01001-3-0.
KINDS = ('Property MultiLanguageProperty Range File Blob ReferenceElement RelationshipElement '
         'AnnotatedRelationshipElement Entity BasicEventElement Capability Operation SubmodelElementCollection '
         'SubmodelElementList').split()
DATA_ELEMENTS = KINDS[:6]
DOCUMENTS = {'assetAdministrationShells': 'AssetAdministrationShell', 'submodels': 'Submodel',
             'conceptDescriptions': 'ConceptDescription'}
ROOTS = list(DOCUMENTS.values()) + ['Identifiable']
ELEMENT_NAMES = KINDS + ['SubmodelElement', 'DataElement', 'EventElement']
VALUE_TYPES = ('anyURI base64Binary boolean byte date dateTime decimal double duration float gDay gMonth gMonthDay '
               'gYear gYearMonth hexBinary int integer long negativeInteger nonNegativeInteger nonPositiveInteger '
               'positiveInteger short string time unsignedByte unsignedInt unsignedLong unsignedShort').split()
WORDS = {
    'ElementName': ELEMENT_NAMES,
    'KeyType': ELEMENT_NAMES + ROOTS + ['Referable', 'GlobalReference', 'FragmentReference'],
    'ValueType': ['xs:' + name for name in VALUE_TYPES],
    'ReferenceType': ['ExternalReference', 'ModelReference'],
    'ModellingKind': ['Template', 'Instance'],
    'AssetKind': ['Type', 'Instance', 'NotApplicable'],
    'QualifierKind': ['ConceptQualifier', 'TemplateQualifier', 'ValueQualifier'],
    'EntityType': ['SelfManagedEntity', 'CoManagedEntity'],
    'Direction': ['input', 'output'],
    'StateOfEvent': ['on', 'off'],
    'ModelType': KINDS + list(DOCUMENTS.values()),
    'truth-value': [True, False],
}

# The members of version 3.0: `!` marks one that is demanded, `:` its type, where it isn't a text of any form.
MEANT = ' semanticId:Reference supplementalSemanticIds:[Reference]'
REFERABLE = ('modelType!:ModelType idShort category displayName:[LangText] description:[LangText] '
             'extensions:[Extension] embeddedDataSpecifications:Kept ')
DOCUMENT = REFERABLE + 'id!:identifier administration:Administration '
ELEMENT = REFERABLE + MEANT + ' qualifiers:[Qualifier] '
ENDS = 'first!:Reference second!:Reference '
ASSET_IDS = 'globalAssetId:identifier specificAssetIds:[SpecificAssetId] '
MEMBERS = {
    'Environment': ' '.join(f'{name}:[{document}]' for name, document in DOCUMENTS.items()),
    'Reference': 'type!:ReferenceType keys!:[Key] referredSemanticId:Reference',
    'Key': 'type!:KeyType value!:identifier',
    'LangText': 'language!:language text!',
    'Extension': 'name!:name valueType:ValueType value:typed refersTo:[Reference]' + MEANT,
    'Qualifier': 'kind:QualifierKind type!:name valueType!:ValueType value:typed valueId:Reference' + MEANT,
    'SpecificAssetId': 'name!:name value!:identifier externalSubjectId:Reference' + MEANT,
    'Administration': 'version:version revision:version creator:Reference templateId:identifier '
                      'embeddedDataSpecifications:Kept',
    'AssetInformation': 'assetKind!:AssetKind assetType:identifier defaultThumbnail:Resource ' + ASSET_IDS,
    'Resource': 'path! contentType:media-type',
    'OperationVariable': 'value!:Element',
    'AssetAdministrationShell': DOCUMENT + 'assetInformation!:AssetInformation derivedFrom:Reference '
                                           'submodels:[Reference]',
    'Submodel': DOCUMENT + 'kind:ModellingKind qualifiers:[Qualifier] submodelElements:[Element]' + MEANT,
    'ConceptDescription': DOCUMENT + 'isCaseOf:[Reference]',
    'Property': ELEMENT + 'valueType!:ValueType value:typed valueId:Reference',
    'MultiLanguageProperty': ELEMENT + 'value:[LangText] valueId:Reference',
    'Range': ELEMENT + 'valueType!:ValueType min:typed max:typed',
    'File': ELEMENT + 'contentType!:media-type value',
    'Blob': ELEMENT + 'contentType!:media-type value:xs:base64Binary',
    'ReferenceElement': ELEMENT + 'value:Reference',
    'RelationshipElement': ELEMENT + ENDS,
    'AnnotatedRelationshipElement': ELEMENT + ENDS + 'annotations:[Element]',
    'Entity': ELEMENT + 'entityType!:EntityType statements:[Element] ' + ASSET_IDS,
    'BasicEventElement': ELEMENT + 'observed!:Reference direction!:Direction state!:StateOfEvent messageTopic '
                                   'messageBroker:Reference lastUpdate:UTC-time minInterval:xs:duration '
                                   'maxInterval:xs:duration',
    'Capability': ELEMENT,
    'Operation': ELEMENT + 'inputVariables:[OperationVariable] outputVariables:[OperationVariable] '
                           'inoutputVariables:[OperationVariable]',
    'SubmodelElementCollection': ELEMENT + 'value:[Element]',
    'SubmodelElementList': ELEMENT + 'orderRelevant:truth-value semanticIdListElement:Reference value:[Element] '
                                     'typeValueListElement!:ElementName valueTypeListElement:ValueType',
}
# Where the children of an element or a submodel stand.
CHILDREN = {'Submodel': 'submodelElements', 'Entity': 'statements', 'AnnotatedRelationshipElement': 'annotations',
            'SubmodelElementCollection': 'value', 'SubmodelElementList': 'value'}
VARIABLES = ('inputVariables', 'outputVariables', 'inoutputVariables')
# References that lead to something in a shell, a submodel or a concept description, by the metamodel.
MODEL_REFERENCES = ('derivedFrom', 'submodels', 'observed', 'messageBroker', 'refersTo')
# Members of earlier versions, and what 3.0 calls them.
RENAMED = {('File', 'mimeType'): 'contentType', ('Blob', 'mimeType'): 'contentType',
           ('Operation', 'inputVariable'): 'inputVariables', ('Operation', 'outputVariable'): 'outputVariables',
           ('Operation', 'inoutputVariable'): 'inoutputVariables',
           ('AnnotatedRelationshipElement', 'annotation'): 'annotations', ('SpecificAssetId', 'key'): 'name'}
# Lists of these keep an item that says nothing, since places count or since it stands for something.
ORDERED = ('Element', 'Key', 'OperationVariable', *DOCUMENTS.values())
# What parts without `modelType` are called where tools give them one.
PART_NAMES = {'LangText': 'LangString', 'Administration': 'AdministrativeInformation'}


def rows_of(text):
    """The members of a part: for each name its type and whether it is demanded."""
    rows = {}
    for row in text.split():
        name, _, kind = row.partition(':')
        rows[name.rstrip('!')] = kind or 'text', name.endswith('!')
    return rows


ROWS = {part: rows_of(text) for part, text in MEMBERS.items()}

# The lexical forms.
DECIMAL = r'[+-]?([0-9]+(\.[0-9]*)?|\.[0-9]+)'
ZONE = r'(Z|[+-](0[0-9]|1[0-3]):[0-5][0-9]|[+-]14:00)?'
MONTH, DAY = r'(0[1-9]|1[0-2])', r'(0[1-9]|[12][0-9]|3[01])'
DATE = rf'[0-9]{{4}}-{MONTH}-{DAY}'
TIME = r'(([01][0-9]|2[0-3]):[0-5][0-9]:[0-5][0-9](\.[0-9]+)?|24:00:00(\.0+)?)'
TOKEN = r"[A-Za-z0-9!#$%&'*+.^_`|~-]+"
QUOTED = r'"([\t !#-\[\]-~\x80-\xff]|\\[\t -~\x80-\xff])*"'
PATTERNS = {
    'xs:boolean': 'true|false|0|1',
    'xs:decimal': DECIMAL,
    'xs:double': rf'{DECIMAL}([eE][+-]?[0-9]+)?|[+-]?INF|NaN',
    'xs:float': rf'{DECIMAL}([eE][+-]?[0-9]+)?|[+-]?INF|NaN',
    'xs:hexBinary': '([0-9A-Fa-f]{2})*',
    'xs:base64Binary': '([A-Za-z0-9+/]{4})*([A-Za-z0-9+/][AQgw]==|[A-Za-z0-9+/]{2}[AEIMQUYcgkosw048]=)?',
    'xs:date': DATE + ZONE,
    'xs:time': TIME + ZONE,
    'xs:dateTime': f'{DATE}T{TIME}{ZONE}',
    'UTC-time': rf'{DATE}T{TIME}(Z|[+-]00:00)',
    'xs:gYear': '[0-9]{4}' + ZONE,
    'xs:gYearMonth': f'[0-9]{{4}}-{MONTH}{ZONE}',
    'xs:gMonth': f'--{MONTH}{ZONE}',
    'xs:gDay': f'---{DAY}{ZONE}',
    'xs:gMonthDay': f'--{MONTH}-{DAY}{ZONE}',
    'xs:duration': r'-?P(?=[0-9T])([0-9]+Y)?([0-9]+M)?([0-9]+D)?'
                   r'(T(?=[0-9])([0-9]+H)?([0-9]+M)?([0-9]+(\.[0-9]+)?S)?)?',
    'name': '(?s:.+)',
    'identifier': '(?s:.{1,2048})',
    'version': '0|[1-9][0-9]{0,3}',
    'language': '[A-Za-z]{1,8}(-[A-Za-z0-9]{1,8})*',
    'media-type': rf'{TOKEN}/{TOKEN}([ \t]*;[ \t]*{TOKEN}=({TOKEN}|{QUOTED}))*',
    'idShort': '[A-Za-z][A-Za-z0-9_]{0,127}',
}
RANGES = {'integer': (None, None), 'nonNegativeInteger': (0, None), 'positiveInteger': (1, None),
          'nonPositiveInteger': (None, 0), 'negativeInteger': (None, -1)}
for size, signed in ((8, 'byte'), (16, 'short'), (32, 'int'), (64, 'long')):
    RANGES[signed] = -2 ** (size - 1), 2 ** (size - 1) - 1
    RANGES['unsigned' + signed.capitalize()] = 0, 2 ** size - 1
# What texts must not have (AASd-130).
FOREIGN = re.compile('[^\t\n\r\x20-\ud7ff\ue000-\ufffd\U00010000-\U0010ffff]')


def is_day(text):
    """Whether the calendar has the day that the text names after `dddd-` or `--`."""
    month, day = re.search(r'-(\d\d)-(\d\d)', text).groups()
    year = text[:4] if text[0] != '-' else '2000'
    try:
        datetime.date(int(year) or 2000, int(month), int(day))
    except ValueError:
        return False
    return True


def within(text, low, high):
    """Whether the text is a whole number in the range. Leading zeros don't count."""
    if not re.fullmatch('[+-]?[0-9]+', text):
        return False
    digits = text.lstrip('+-').lstrip('0') or '0'
    if len(digits) > 30:
        return (low if text[0] == '-' else high) is None
    number = -int(digits) if text[0] == '-' else int(digits)
    return (low is None or number >= low) and (high is None or number <= high)


def fits(text, form):
    """Whether it is a text of the form."""
    if not isinstance(text, str):
        return False
    if form[3:] in RANGES:
        return within(text, *RANGES[form[3:]])
    if form not in PATTERNS:
        return True
    if not re.fullmatch(PATTERNS[form], text):
        return False
    return form not in ('xs:date', 'xs:dateTime', 'UTC-time', 'xs:gMonthDay') or is_day(text)


class Number:
    """A number of JSON, as it is written."""

    def __init__(self, text):
        self.text = text

    def __eq__(self, other):
        return isinstance(other, Number) and other.text == self.text

    def __hash__(self):
        return hash(self.text)


class Members(dict):
    """An object of JSON. `twice` are the names that stand in it again with another value."""

    def __init__(self, pairs):
        super().__init__(pairs)
        self.twice = sorted({name for name, value in pairs if value != self[name]})


class Dropped:
    """An answer that means: nothing is left of the value, for that reason."""

    def __init__(self, why):
        self.why = why


def is_hollow(value):
    """Whether the value says nothing: null, an empty text, list or object, or one of such items."""
    if isinstance(value, (dict, list)):
        return all(is_hollow(item) for item in (value.values() if isinstance(value, dict) else value))
    return value is None or value == ''


def is_needless(value, part):
    """Whether the object says nothing, and would be refused as a part of this name."""
    if part == 'Reference':
        said = [key.get('value') if isinstance(key, dict) else key for key in listed(value.get('keys'))]
        return is_hollow(said + [value.get('referredSemanticId')])
    if part == 'LangText' and value.get('text', '') is None:
        return True
    if part == 'Resource':
        return value.get('path') is None and is_hollow(value)
    return part in ('LangText', 'Extension', 'Qualifier', 'SpecificAssetId') and is_hollow(value)


def listed(value):
    return value if isinstance(value, list) else [] if value is None else [value]


def is_part(value, rows):
    """Whether it is an object with the members that are demanded, and there are such members."""
    demanded = [name for name in rows if not isinstance(rows, dict) or rows[name][1]]
    return isinstance(value, dict) and bool(demanded) and all(name in value for name in demanded)


def nothing(value):
    sort = {str: 'text', list: 'list'}.get(type(value), 'object')
    return Dropped('null' if value is None else f'an empty {sort}')


def shown(value):
    """A few words for the value."""
    text = value.text if isinstance(value, Number) else json.dumps(value, default=lambda number: number.text)
    return text if len(text) <= 60 else text[:57] + '...'


def below(at, name):
    """The pointer to the member of what the pointer leads to."""
    return at + '/' + str(name).replace('~', '~0').replace('/', '~1')


def folded(text):
    return re.sub('[^a-z0-9]', '', text.lower())


def spelled(value):
    """The name that the value is. Version 2 has it in objects, as `{"name": "Submodel"}`."""
    while isinstance(value, dict) and len(value) == 1 and next(iter(value)) in ('name', 'dataObjectType'):
        value = next(iter(value.values()))
    return value if isinstance(value, str) else ''


def matching(value, words):
    """The word of the enumeration that the value is, in any case and with any marks between its letters, or None."""
    value = spelled(value)
    if words == 'truth-value':
        return {'true': True, 'false': False}.get(value.lower())
    if words == 'ValueType':
        value = 'xs:' + re.sub('^(http://www.w3.org/2001/XMLSchema#|xsd?[:_])', '', value, flags=re.IGNORECASE)
    found = [word for word in WORDS[words] if folded(word) == folded(value)]
    return found[0] if len(found) == 1 else None


def readings(value, form):
    """What the value may say as a text of the form, each with what makes it so."""
    if isinstance(value, Number):
        yield 'the number is a text', value.text
    elif isinstance(value, bool) and form == 'xs:boolean':
        yield 'the truth value is a text', str(value).lower()
    if not isinstance(value, str):
        return
    if form.startswith('xs:'):
        yield 'white space around the value is dropped', value.strip(' \t\r\n')
    if form == 'xs:base64Binary':
        whole = re.sub('[ \t\r\n]', '', value)
        yield 'white space in base64 is dropped', whole
        yield 'base64 gets its padding', whole + '=' * (-len(whole) % 4)
    elif form == 'xs:boolean':
        yield 'in small letters', value.lower()
    elif form in ('xs:double', 'xs:float'):
        yield 'as XML Schema writes it', {'infinity': 'INF', '+infinity': 'INF', '-infinity': '-INF', 'inf': 'INF',
                                          '+inf': 'INF', '-inf': '-INF', 'nan': 'NaN'}.get(value.lower(), value)
    elif form in ('xs:dateTime', 'UTC-time'):
        yield 'T stands between date and time', value.replace(' ', 'T', 1)
    elif form == 'language':
        yield 'the parts of a language have - between them', value.replace('_', '-')


class Mender:
    """Mends a tree in place, and says each thing that it did or left."""

    def __init__(self, say):
        self.say, self.mended, self.left = say, 0, 0
        # The kind of the submodel at work; None where it can't be read.
        self.kind = 'Instance'
        # The documents by sort and identifier, the model references, and idShorts that were changed, by element.
        self.documents, self.references, self.names = {}, [], {}

    def mend(self, at, words):
        self.mended += 1
        self.say(f"mended {at or '$'}: {words}")

    def leave(self, at, words):
        self.left += 1
        self.say(f"left {at or '$'}: {words}")

    def value(self, value, kind, at, holder, name):
        """What takes the place of the value of a member, or of an item in it: a value of the type, or Dropped."""
        if kind[0] == '[':
            return self.items(value, kind[1:-1], at, holder, name)
        if kind == 'Element' or kind in ROWS:
            return self.part(value, kind, at, holder, name)
        if kind == 'Kept':
            return self.data_specifications(value, at)
        if kind in WORDS:
            return self.word(value, kind, at)
        return self.text(value, kind, at, holder)

    # Texts and words

    def text(self, value, form, at, holder):
        if form == 'typed':
            form = holder.get('valueType', 'xs:string')
            form = form if form in WORDS['ValueType'] else 'text'
        if not fits(value, form):
            if is_hollow(value):
                return nothing(value)
            value = self.reading(value, form, at)
        if isinstance(value, str) and FOREIGN.search(value):
            self.leave(at, 'it has a character that texts must not have')
        return value

    def reading(self, value, form, at):
        """The one text of the form that the value may be, or the value."""
        for words, text in readings(value, form):
            if fits(text, form):
                self.mend(at, f'{shown(value)}: {words}')
                return text
        keys = listed(value.get('keys')) if isinstance(value, dict) and at.endswith('/globalAssetId') else []
        if len(keys) == 1 and isinstance(keys[0], dict) and fits(keys[0].get('value'), form):
            self.mend(at, 'the reference is the identifier in its one key')
            return keys[0]['value']
        self.leave(at, f'{shown(value)} is no {form}')
        return value

    def word(self, value, words, at):
        if isinstance(value, (str, bool)) and value in WORDS[words]:
            return value
        if is_hollow(value):
            return nothing(value)
        word = matching(value, words)
        if word is None:
            self.leave(at, f'{shown(value)} is no {words}')
            return value
        self.mend(at, f'{shown(value)} is {shown(word)}')
        return word

    # Lists

    def items(self, value, kind, at, holder, name):
        if kind == 'LangText' and isinstance(value, dict) and list(value) == ['langString']:
            self.mend(at, 'the list is that in langString')
            at, value = below(at, 'langString'), value['langString']
        if not is_hollow(value) and is_part(value, ROWS.get(kind, ['modelType'])):
            self.mend(at, 'the one item is a list')
            there = []
            self.item(value, kind, at, holder, name, there)
            return there
        if not isinstance(value, list):
            if is_hollow(value):
                return nothing(value)
            self.leave(at, f'{shown(value)} is no list')
            return value
        there = []
        for place, item in enumerate(value):
            self.item(item, kind, below(at, place), holder, name, there)
        value[:] = there
        return value

    def item(self, item, kind, at, holder, name, there):
        """Adds what is to stand for the item to those before it."""
        if kind == 'Qualifier' and self.is_of_templates(item):
            result = Dropped(f"the TemplateQualifier {shown(item.get('type'))} of what is no template")
        else:
            result = self.value(item, kind, at, holder, name)
            if isinstance(result, Dropped) and kind in ORDERED:
                self.leave(at, f'{result.why} is no {kind}')
                result = item
            elif not isinstance(result, Dropped) and self.is_again(result, kind, at, there):
                result = Dropped('the same as one before it')
        if isinstance(result, Dropped):
            self.mend(at, f'{result.why} is dropped')
        else:
            there.append(result)

    def is_of_templates(self, item):
        is_one = isinstance(item, dict) and matching(item.get('kind'), 'QualifierKind') == 'TemplateQualifier'
        return is_one and self.kind == 'Instance'

    def is_again(self, item, kind, at, there):
        """Whether the same item stands before it, where it must not stand twice."""
        if kind not in DOCUMENTS.values():
            return kind in ('Qualifier', 'Extension') and item in there
        if not isinstance(item, dict) or not isinstance(item.get('id'), str):
            return False
        first = self.documents.setdefault((kind, item['id']), item)
        if first != item:
            self.leave(below(at, 'id'), f"another {kind} before it is {shown(item['id'])} too")
            self.documents[kind, item['id']] = {}
        return first is not item and first == item

    # Data specifications, which the server keeps as they are

    def data_specifications(self, value, at):
        if isinstance(value, list):
            self.keep(value, at)
            return value
        if is_hollow(value):
            return nothing(value)
        self.leave(at, f'{shown(value)} is no list')
        return value

    def keep(self, holder, at):
        for name, value in list(enumerate(holder) if isinstance(holder, list) else holder.items()):
            if isinstance(value, Number):
                holder[name] = value.text
                self.mend(below(at, name), f'{value.text}: the number is a text')
            elif isinstance(value, (dict, list)):
                self.keep(value, below(at, name))
        self.say_twice(holder, at)

    def say_twice(self, holder, at):
        for name in getattr(holder, 'twice', ()):
            self.leave(below(at, name), 'the name stands twice; the last value counts')

    # Objects

    def part(self, value, kind, at, holder, name):
        if not isinstance(value, dict):
            if is_hollow(value):
                return nothing(value)
            self.leave(at, f'{shown(value)} is no {kind}')
            return value
        if is_needless(value, kind):
            return Dropped(f'an empty {kind}')
        if kind == 'Element' or kind in DOCUMENTS.values():
            kind = self.model_type(value, kind, at, name)
            if kind is None:
                return value
        names = self.strangers(value, kind, at)
        if 'modelType' in ROWS[kind]:
            self.id_short(value, kind, at, holder)
        if kind == 'Submodel':
            self.kind = 'Instance' if is_hollow(value.get('kind')) else matching(value['kind'], 'ModellingKind')
        if kind == 'Reference':
            self.reference_type(value, at, name)
        self.members(value, kind, at, names)
        if kind == 'SubmodelElementList':
            self.list_type(value, at)
        if kind == 'AssetInformation' or value.get('entityType') == 'SelfManagedEntity':
            if not value.get('globalAssetId') and not value.get('specificAssetIds'):
                self.leave(at, 'it has no asset id')
        return value

    def model_type(self, value, kind, at, name):
        """The name of the part that the element or document is, if it has one."""
        given, at = value.get('modelType'), below(at, 'modelType')
        if is_hollow(given) and kind in ROWS:
            value['modelType'] = kind
            self.mend(at, f'what stands here is a {kind}')
            return kind
        word = matching(given, 'ModelType')
        if word not in ([kind] if kind in ROWS else KINDS):
            self.leave(at, f'{shown(given)} is the name of no {kind}')
            return None
        if word != given:
            value['modelType'] = word
            self.mend(at, f'{shown(given)} is {word}')
        if name == 'annotations' and word not in DATA_ELEMENTS:
            self.leave(at, f'{word} is no data element')
        return word

    def members(self, holder, part, at, names):
        """Mends the members of the object, words first, since others depend on them; `names` come from `strangers`."""
        rows = ROWS[part]
        for name in sorted(holder, key=lambda name: rows.get(name, ['text'])[0] not in WORDS):
            if name not in rows or 'modelType' in rows and name in ('modelType', 'idShort'):
                continue
            kind, demanded = rows[name]
            where = below(at, names.get(name, name))
            result = self.value(holder[name], kind, where, holder, name)
            if not isinstance(result, Dropped):
                holder[name] = result
            elif demanded:
                self.leave(where, f'{result.why}, where version 3.0 demands a value')
            else:
                del holder[name]
                self.mend(where, f'{result.why} is dropped')
        for name, (_, demanded) in rows.items():
            if demanded and holder.get(name, []) == []:
                self.leave(below(at, name), 'it is absent or empty, and version 3.0 demands it')
        self.say_twice(holder, at)

    def strangers(self, holder, part, at):
        """Deals with members that version 3.0 doesn't have. Answers what those that got another name were called."""
        rows, names = ROWS[part], {}
        for name in [name for name in holder if name not in rows]:
            value, where = holder[name], below(at, name)
            other = RENAMED.get((part, name)) or next((row for row in rows if row.lower() == name.lower()), None)
            if is_hollow(value) or self.is_told(value, name, part, at):
                del holder[name]
                self.mend(where, 'version 3.0 has no such member, and says the same without it: it is dropped')
            elif name == 'identification' and is_part(value, ['id']) and 'id' in rows and 'id' not in holder:
                holder['id'] = holder.pop(name)['id']
                self.mend(where, 'the id in it is that of the document')
            elif other and other not in holder:
                holder[other] = holder.pop(name)
                names[other] = name
                self.mend(where, f'version 3.0 calls it {other}')
            else:
                self.leave(where, 'version 3.0 has no such member')
        return names

    def is_told(self, value, name, part, at):
        """Whether the member of an earlier version says no more than what stands there without it."""
        if name == 'modelType':
            return spelled(value) == PART_NAMES.get(part, part)
        if name == 'kind':
            return part in KINDS and self.kind is not None and matching(value, 'ModellingKind') == self.kind
        if name == 'parent':
            return 'modelType' in ROWS[part] and isinstance(value, dict)
        if part == 'SubmodelElementCollection':
            return name in ('ordered', 'allowDuplicates') and value is False
        is_place = name == 'index' and isinstance(value, Number) and at.endswith('/' + value.text)
        return part == 'Key' and (is_place or name in ('idType', 'local'))

    def id_short(self, value, kind, at, holder):
        given, at = value.get('idShort'), below(at, 'idShort')
        is_child = kind not in DOCUMENTS.values()
        if is_child and holder.get('modelType') == 'SubmodelElementList':
            if 'idShort' in value:
                self.names[id(value)] = value.pop('idShort')
                self.mend(at, f'{shown(given)} is dropped: an item of a list is found by its place')
        elif given is None or given == '':
            if is_child:
                self.leave(at, 'it is absent or empty, and an element outside of lists has one')
            elif 'idShort' in value:
                del value['idShort']
                self.mend(at, f'{nothing(given).why} is dropped')
        elif not fits(given, 'idShort'):
            plain = re.sub(r'\{([0-9]+)\}', r'\1', given) if isinstance(given, str) else ''
            others = [child.get('idShort') for child in children_of(holder)]
            if self.kind == 'Instance' and fits(plain, 'idShort') and plain not in others:
                self.names[id(value)], value['idShort'] = given, plain
                self.mend(at, f'{shown(given)} is {plain}')
            elif self.kind != 'Instance' and fits(plain, 'idShort'):
                self.leave(at, f'{shown(given)}: in a template the braces may stand for any number')
            else:
                self.leave(at, f'{shown(given)} is no idShort')

    def list_type(self, value, at):
        """A list of properties or ranges names their value type: that of all of them, where they have one."""
        if value.get('typeValueListElement') in ('Property', 'Range') and 'valueTypeListElement' not in value:
            types = {spelled(child.get('valueType')) for child in children_of(value)}
            at = below(at, 'valueTypeListElement')
            if len(types) == 1 and types <= set(WORDS['ValueType']):
                value['valueTypeListElement'] = types.pop()
                self.mend(at, f"all items have {value['valueTypeListElement']}")
            else:
                self.leave(at, 'it is absent, and the items have no value type in common')

    # References

    def reference_type(self, value, at, name):
        """The type of a reference is told by its first key: GlobalReference leads outside, documents into models."""
        keys = [key for key in listed(value.get('keys')) if isinstance(key, dict)]
        types = [matching(key.get('type'), 'KeyType') for key in keys] or [None]
        given, at = value.get('type'), below(at, 'type')
        if types[0] in ROOTS:
            right, is_certain = 'ModelReference', is_hollow(given)
        elif types[0] == 'GlobalReference':
            is_external = types[-1] in ('GlobalReference', 'FragmentReference') and name not in MODEL_REFERENCES
            right = 'ExternalReference'
            is_certain = is_external and folded(spelled(given)) in ('', 'modelreference', 'globalreference')
        else:
            if types[0] is not None:
                self.leave(below(at, 'keys'), f'no reference begins with a key {types[0]}')
            return
        known = matching(given, 'ReferenceType')
        if is_certain and known != right:
            value['type'] = known = right
            self.mend(at, f'{shown(given)}: with the first key {types[0]} it is {right}')
        elif known != right:
            self.leave(at, f'{shown(given)}, but its first key is {types[0]}: one of the two is wrong')
        if known == 'ModelReference':
            self.references.append((keys, below(at[:-len('/type')], 'keys')))

    def follow(self):
        """Gives keys that lead to an element of the file the idShort or the place that it has."""
        for keys, at in self.references:
            given = keys[0].get('value') if keys else None
            node = self.documents.get(('Submodel', given), {}) if isinstance(given, str) else {}
            for place, key in enumerate(keys[1:], 1):
                node = self.step(node, key, below(below(at, place), 'value'))

    def step(self, node, key, at):
        """The child to which the key leads, by the idShorts that stood in the file, or an empty object."""
        given = key.get('value')
        children = children_of(node)
        is_list = node.get('modelType') == 'SubmodelElementList'
        if is_list and isinstance(given, str) and re.fullmatch('[0-9]{1,9}', given):
            return children[int(given)] if int(given) < len(children) else {}
        named = [(place, child) for place, child in enumerate(children)
                 if self.names.get(id(child), child.get('idShort')) == given is not None]
        if len(named) != 1:
            return {}
        place, child = named[0]
        right = str(place) if is_list else child.get('idShort')
        if right != given:
            key['value'] = right
            self.mend(at, f'{shown(given)} is {right}')
        return child


def children_of(node):
    """The elements right below an element or a submodel."""
    if node.get('modelType') == 'Operation':
        variables = [variable for name in VARIABLES for variable in listed(node.get(name))]
        found = [variable.get('value') for variable in variables if isinstance(variable, dict)]
    else:
        found = listed(node.get(CHILDREN.get(node.get('modelType'))))
    return [child for child in found if isinstance(child, dict)]


def pieces(value, indent='\n'):
    """The text of the tree as JSON, two blanks a level."""
    deeper = indent + '  '
    if isinstance(value, Number):
        yield value.text
    elif isinstance(value, (dict, list)) and value:
        is_object = isinstance(value, dict)
        yield '{' if is_object else '['
        for place, item in enumerate(value):
            yield (',' if place else '') + deeper
            if is_object:
                yield encoded(item) + ': '
            yield from pieces(value[item] if is_object else item, deeper)
        yield indent + ('}' if is_object else ']')
    else:
        yield encoded(value)


def encoded(value):
    """A value without items as JSON. Halves of characters stay escapes, since UTF-8 has none."""
    text = json.dumps(value, ensure_ascii=False)
    return json.dumps(value) if re.search('[\ud800-\udfff]', text) else text


MARKS = ((codecs.BOM_UTF8, 'UTF-8'), (codecs.BOM_UTF16_LE, 'UTF-16LE'), (codecs.BOM_UTF16_BE, 'UTF-16BE'))


def decoded(data, mender):
    """The text of the bytes. A byte order mark says which coding it is."""
    for mark, coding in MARKS:
        if data.startswith(mark):
            mender.mend('', f'the byte order mark of {coding} is dropped')
            return data[len(mark):].decode(coding)
    return data.decode('utf-8')


def refused_constant(text):
    raise ValueError(f'{text} is no number of JSON')


def tree_of(data, mender):
    if data.startswith(b'PK'):
        raise ValueError('it is a package (AASX), which has its documents inside')
    text = decoded(data, mender)
    if text.lstrip().startswith('<'):
        raise ValueError('it is XML')
    tree = json.loads(text, object_pairs_hook=Members, parse_int=Number, parse_float=Number,
                      parse_constant=refused_constant)
    if not isinstance(tree, dict):
        raise ValueError('it is no object, so no environment')
    return tree


def mend(data, say):
    """The bytes to be written for those that were read, and how many things were mended and left. Each is said."""
    mender = Mender(say)
    tree = tree_of(data, mender)
    # A document or an element has a model type.
    word = matching(tree.get('modelType'), 'ModelType')
    kind = 'Environment' if word is None else 'Element' if word in KINDS else word
    # What was read has no more levels than Python allows by itself; each takes a few calls.
    sys.setrecursionlimit(20_000)
    mender.value(tree, kind, '', {}, '')
    mender.follow()
    if mender.mended:
        data = ''.join(pieces(tree)).encode() + b'\n'
    return data, mender.mended, mender.left


def main():
    parser = argparse.ArgumentParser(description=__doc__, formatter_class=argparse.RawDescriptionHelpFormatter)
    parser.add_argument('given', metavar='IN')
    parser.add_argument('made', metavar='OUT')
    options = parser.parse_args()
    try:
        with open(0 if options.given == '-' else options.given, 'rb') as file:
            data = file.read()
        data, mended, left = mend(data, lambda line: print(line, file=sys.stderr))
        with open(1 if options.made == '-' else options.made, 'wb') as file:
            file.write(data)
    except (OSError, ValueError, RecursionError) as fault:
        print(f'ended: {fault}', file=sys.stderr)
        sys.exit(2)
    print(f'mended {mended}, left {left}', file=sys.stderr)
    sys.exit(1 if left else 0)


if __name__ == '__main__':
    main()
