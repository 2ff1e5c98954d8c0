"""Why a text, or a line, is refused, and what the constraint components ask for, in sentences."""

_CAUSES = {
    "NotUtf8": "the text is no UTF-8 here",
    "Syntax": "the statement that begins here is not one of Turtle",
    "UnknownPrefix": "the prefix of this name is not set",
    "BadIri": "this reference has a character that no IRI has",
    "FloatLiteral": "xsd:double and xsd:float are not taken; write a decimal",
    "WideValue": "this has more than 38 digits on a side of its dot, or is a date as wide",
    "TooDeep": "more brackets are open here than the limit allows",
    "TooManyTriples": "these are more triples than the limit allows",
    "TooManyTerms": "these are more terms than the limit allows",
    "TextTooLong": "the text is longer than the limit allows",
    "BadList": "a value should be a list, and is none",
    "TooManyValues": "a second value stands where one may stand",
    "WrongKind": "a value, or a member of a list, is of another kind than is asked",
    "NotOnNodeShape": "a node shape has what belongs to property shapes",
    "BadPath": "a path is none",
    "NotAPropertyShape": "a value of sh:property has no path",
    "NotANodeShape": "a node shape has a path",
    "BadFlags": "a flag is none of i, m, s, x",
    "TooManyShapes": "these are more shapes than the limit allows",
    "PathTooDeep": "a path is deeper, or longer, than the limit allows",
    "Recursive": "the shape reaches itself, which SHACL leaves undefined",
    "BadPattern": "a pattern is none",
    "PatternRefused": "a pattern is too big to build",
    "ReferencesTooDeep": "shapes refer to one another more deeply than the limit allows",
    "ScriptTooLong": "the script is longer than the limit allows",
    "GroupOpen": "this is not taken while a group is open",
    "NoGroup": "no group is open",
    "GroupTooLong": "the group has as many edits as the limit allows",
    "NoPair": "the shape is not evaluated by itself, or the node is none of its focus nodes",
    "NothingToUndo": "there is no change to take back",
    "NothingToRedo": "there is no change to make again",
    "LineTooLong": "the line is longer than the limit allows",
    "LineNotUtf8": "the line is no UTF-8",
    "LineSyntax": "the line has no form that lines have",
    "UnknownBlank": "there is no such blank node",
}

# What a result says where its shape has no message: what the value nodes should be.
_COMPONENTS = {
    "And": "should conform to all shapes of sh:and",
    "Class": "should be an instance of the class of sh:class",
    "Closed": "should have no other predicates than the shape allows",
    "Datatype": "should have the datatype of sh:datatype",
    "Disjoint": "should not be a value of the predicate of sh:disjoint",
    "Equals": "should be the same values as those of the predicate of sh:equals",
    "HasValue": "should have the value of sh:hasValue",
    "In": "should be one of the values of sh:in",
    "LanguageIn": "should have one of the languages of sh:languageIn",
    "LessThan": "should be less than the values of the predicate of sh:lessThan",
    "LessThanOrEquals": "should not be more than the values of the predicate of sh:lessThanOrEquals",
    "MaxCount": "should have no more values than sh:maxCount",
    "MaxExclusive": "should be less than sh:maxExclusive",
    "MaxInclusive": "should not be more than sh:maxInclusive",
    "MaxLength": "should not be longer than sh:maxLength",
    "MinCount": "should have no fewer values than sh:minCount",
    "MinExclusive": "should be more than sh:minExclusive",
    "MinInclusive": "should not be less than sh:minInclusive",
    "MinLength": "should not be shorter than sh:minLength",
    "Node": "should conform to the shape of sh:node",
    "NodeKind": "should be of the kind of sh:nodeKind",
    "Not": "should not conform to the shape of sh:not",
    "Or": "should conform to a shape of sh:or",
    "Pattern": "should match the pattern of sh:pattern",
    "Property": "should conform to the property shape of sh:property",
    "QualifiedMaxCount": "should have no more values of the shape than sh:qualifiedMaxCount",
    "QualifiedMinCount": "should have no fewer values of the shape than sh:qualifiedMinCount",
    "UniqueLang": "should have one value for each language",
    "Xone": "should conform to one shape of sh:xone alone",
}


def cause(name: str) -> str:
    """Why a text, or a line, is refused, by the name of its code."""
    return _CAUSES.get(name, "it is refused")


def demand(component: str) -> str:
    """What a constraint component asks for."""
    return _COMPONENTS.get(component, f"should meet its {component} constraint")


COMPONENTS = tuple(_COMPONENTS)
