"""The sentences of `itf tell`, in English, by the words of reports."""

FINDINGS = {
    "count": "the object has too few or too many fields",
    "undefined": "a mandatory value is missing",
    "number": "this is no number",
    "decimals": "the number has more decimals than the model gives it",
    "range": "the number is out of its bounds",
    "text": "the text is too long",
    "date": "this is no date (eight digits, year, month, day)",
    "enum": "this is no number of a value of the enumeration",
    "coord": "the vertex has too few or too many coordinates",
    "arcs": "an arc, where the model allows straights alone",
    "arc": "no circle goes through start, middle and end of this arc in this order",
    "short": "the boundary line has one place alone",
    "tid": "the identification was given before",
    "ident": "the values that have to differ (IDENT) were given before",
    "reference": "the object that is referred to is not there",
}
STRUCTURES = {
    "motr": "a model stands within the transfer, which this program does not read",
    "word": "no line that begins with this word may stand here",
    "name": "this is not the one name that is due: of the model, of a topic, or of a table",
    "twice": "this topic or table came before",
    "continue": "the line ends with the continue code, and no CONT line comes after it",
    "cont": "a CONT line, and the line before it does not end with the continue code",
    "end": "the text ends before ENDE",
}
AREAS = {
    "PROVED": "the area is a partition",
    "NOTPROVED": "the certificates do not prove this area",
    "MEETING": "two boundary lines cross, overlap, or meet where one of them has no vertex",
    "ON": "the point of an object lies on a boundary line",
    "OUTSIDE": "the point of an object lies in no region",
    "TWO": "the points of two objects lie in one region",
    "EMPTY": "a region without an object",
    "CUT": "a boundary line with one region on both its sides",
    "UNDECIDED": "not decided: no level of the check settles all arcs of this area at once; the pair that is"
                 " named is the first that breaks the finest level, and may be innocent",
    "OPEN": "an open region: a line that meets another badly enters it, and its faults are not told",
    "UNJUDGED": "the point of an object in an open region, which is not judged",
    "OUTER": "the outside of all lines is open",
    "MANY": "very many faults: some of the first are told, and nothing else",
    "UNSETTLED": "no level settles the area, so that no region was judged",
}
SURFACES = {
    "PROVED": "the boundary of each object that is judged is that of one region",
    "MEETING": "two edges of one object cross, overlap, or meet where one of them has no vertex",
    "ODD": "an odd number of edges of one object end in an end of this edge: the boundary is open there",
    "PARTS": "the edges of this object bound more than one region",
    "UNDECIDED": "not decided: two lines of this object cannot be told apart",
}
VERDICTS = {
    "ACCEPTED": "accepted; compare the number of objects with what was ordered",
    "REJECTED": "rejected; what is named above is wrong, and more may be",
    "UNDECIDED": "undecided; no certificate is written",
    "NOTPROVED": "the certificates do not prove the areas, which says nothing against the transfer",
    "COMPILED": "the model has no fault",
}
ROLES = {
    "MAIN": "a declared table",
    "AREA": "the table with the lines of an AREA",
    "SURFACE": "the table with the lines of a SURFACE",
}
FAULTS = {
    "USAGE": "the arguments are no command",
    "READ": "this file cannot be read",
    "LIMIT": "this file, or an area, is over its limit",
    "MODEL": "the model is refused",
}
