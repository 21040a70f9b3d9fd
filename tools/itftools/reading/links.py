"""Reads the file of links that `itfcheck points` read, and finds the objects to which points refer."""
from itftools.reading.rows import column_of, objects_of
from itftools.reading.transfer import fields_of, logical_lines, physical_lines


class Links:
    """The rules of a file by the numbers of their lines; LINK topic table point reference area."""

    def __init__(self, name):
        self.rules = {}
        if name:
            with open(name, "rb") as file:
                self.rules = {number: fields_of(line) for number, line in physical_lines(file)}
        self.referred = {}

    def rule(self, number):
        return self.rules.get(number)

    def look_up(self, model, transfer_name, pairs):
        """Finds for pairs of a rule's number and a row the object to which the row refers."""
        keys = {}
        for number, row in pairs:
            rule = self.rules.get(number)
            if rule:
                table = model.topics[row.topic][row.table].refers[rule[4]]
                keys[number, row.number] = row.topic, table, value_of(model, row, rule[4])[0]
        if keys:
            with open(transfer_name, "rb") as file:
                found = objects_of(logical_lines(file, model.goes_on), set(keys.values()))
            self.referred = {pair: (key, *found[key]) for pair, key in keys.items()}


def value_of(model, row, attribute):
    """The words of an attribute of a row."""
    names = [name for name, _, _ in model.topics[row.topic][row.table].columns]
    return column_of(model, row, names.index(attribute) + 1)[1]


def why_none(model, rule):
    """Why the words of a line of the links are no rule."""
    if len(rule) != 6 or rule[0] != "LINK":
        return f"{len(rule)} words, the first {rule[0]}: six are needed, the first LINK"
    topic, name, point, reference, attribute = rule[1:]
    if topic not in model.topics:
        return f"{topic} is no topic"
    if (topic, name) not in {(where, declared) for where, _, declared, _ in model.pending}:
        return f"{name} is no declared table of {topic}"
    table = model.topics[topic][name]
    if point not in table.scales:
        return f"{point} is no coordinate of two axes of {name}"
    if reference not in table.refers:
        return f"{reference} is no reference of {name}"
    main = table.refers[reference]
    area = next((area for area in model.areas if area.words == (topic, main, attribute)), None)
    if area is None:
        return f"{attribute} is no AREA of {main}"
    return f"{point} has {table.scales[point]} decimals, and {attribute} has {area.scale}"
